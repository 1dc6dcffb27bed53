//! Links libresb where pkg-config finds it: statically from the folder that `tools/library` wrote, if PKG_CONFIG_PATH names it.

use std::process::Command;

fn main() {
    println!("cargo:rerun-if-env-changed=PKG_CONFIG_PATH");
    let output = Command::new("pkg-config")
        .args(["--libs", "resb"])
        .output()
        .expect("pkg-config isn't there");
    let error = String::from_utf8_lossy(&output.stderr);
    assert!(output.status.success(), "{}", error);
    for word in String::from_utf8_lossy(&output.stdout).split_whitespace() {
        if let Some(folder) = word.strip_prefix("-L") {
            println!("cargo:rustc-link-search=native={folder}");
        } else if let Some(name) = word.strip_prefix("-l") {
            println!("cargo:rustc-link-lib={name}");
        } else if let Some(folder) = word.strip_suffix("/libresb.a") {
            println!("cargo:rerun-if-changed={word}");
            println!("cargo:rustc-link-search=native={folder}");
            println!("cargo:rustc-link-lib=static=resb");
        } else {
            panic!("pkg-config gives an unknown word: {word}");
        }
    }
}
