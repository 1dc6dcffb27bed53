//! Prints the text at a path, with what the locale inherits: `cargo run --example lookup FOLDER LOCALE PATH`
//!
//! FOLDER has the bundles: texts as LOCALE.txt, files as LOCALE.res.

use resb::{Bundles, Content};
use std::error::Error;
use std::{env, fs, process};

/// Returns the bundles of a folder, as those of one application.
fn bundles_of(folder: &str) -> Result<Bundles, Box<dyn Error>> {
    let mut bundles = Bundles::open()?;
    for entry in fs::read_dir(folder)? {
        let path = entry?.path();
        let name = path.file_name().unwrap_or_default().to_string_lossy();
        if let Some(locale) = name.strip_suffix(".txt") {
            let text = fs::read_to_string(&path)?;
            bundles
                .install("app", locale, Content::Text(&text))
                .map_err(|error| format!("{}: {}", name, error))?;
        } else if let Some(locale) = name.strip_suffix(".res") {
            let file = fs::read(&path)?;
            bundles
                .install("app", locale, Content::File(&file))
                .map_err(|error| format!("{}: {}", name, error))?;
        }
    }
    Ok(bundles)
}

fn main() {
    let words: Vec<String> = env::args().skip(1).collect();
    if words.len() != 3 {
        eprintln!("usage: lookup FOLDER LOCALE PATH");
        process::exit(2);
    }
    match bundles_of(&words[0]).and_then(|it| Ok(it.text("app", &words[1], &words[2])?)) {
        Ok(text) => println!("{}", text),
        Err(error) => {
            eprintln!("lookup: {}", error);
            process::exit(1);
        }
    }
}
