#!/usr/bin/env python3
"""Builds the archive of the library for C programs, libresb.a, from the crate resb.

usage: archive.py proved OUT     over the built libraries in crates/*/out/rlib, that of the crate resb among them
       archive.py unproved OUT   compiles the sources with nothing proved, as version VERSION+unproved

The toolchain exports functions of a static library alone, and builds a crate either as a library or as a static one. `rt ci` proves the
crate resb as a library. `proved` writes the static one over it: for each function that is marked for C one of the same name, with the same
clauses, that calls it. It proves these, which takes a minute, and nothing else.

The toolchain compiles what isn't proved only for a run by `rt try`, in a temporary folder. `unproved` takes the program of such a run before it
is linked, and makes its functions for C global. They check each sum, index and access as they run.

Ends with status 1, and what the toolchain wrote, if there is no archive.
"""
import glob
import os
import re
import shutil
import subprocess
import sys
import tempfile
from dataclasses import dataclass

import prove
import unproved

TOP = os.path.dirname(os.path.dirname(os.path.abspath(__file__)))
SOURCES = f"{TOP}/crates/resb/src"
EXPORT = re.compile(r'#\[unsafe\(no_mangle\)\]\n(pub extern "C" fn (\w+)\(([^)]*)\)(?: -> \w+)?)\s((?:    .*\n)*)\{\n')
# An argument of each type of the exports, for a call that ends at once.
ARGUMENTS = {
    "Global": "rt.alloc()", "&mut Handle": "&mut Handle::closed(rt.alloc())",
    "&mut BundleHandle": "&mut BundleHandle::discarded(rt.alloc())", "&[u8]": 'b""', "&mut [u8]": "&mut []",
    "&mut [u16]": "&mut []", "&mut usize": "&mut 0", "&mut u64": "&mut 0", "&mut *mut u8": "&mut at", "u32": "0", "u64": "0", "usize": "0",
    "bool": "false", "&[Entry<'_>]": "&[]", "&mut [Edit<'_>]": "&mut []", "&mut Found": "&mut found", "&mut Origin": "&mut origin",
    "&OpenLocale": "&opened", "&mut OpenLocale": "&mut opened", "&mut [Child]": "&mut []",
    "&mut [Finding]": "&mut []",
}
MAIN = """
use rb_handle::{BundleHandle, Handle};

fn main(rt: HostRuntime) {
    let mut at = std::ptr::null_mut();
    let mut found = found::Found { at, count: 0, kind: 0, number: 0 };
    let mut origin = origins::Origin { actual: [0; 65], valid: [0; 65] };
    let mut opened = rb_engine::OpenLocale { version: 0, app: 0, count: 0, stops: [0; 32], names: 0, from_valid: 0 };
"""


@dataclass(frozen=True)
class Export:
    """A function of the crate resb that is marked for C."""

    module: str
    name: str
    head: str
    clauses: str
    parameters: tuple  # (name, type)

    def wrapper(self):
        arguments = ", ".join(name for name, _ in self.parameters)
        return f"#[unsafe(no_mangle)]\n{self.head}\n{self.clauses}{{\n    resb::{self.module}::{self.name}({arguments})\n}}\n"

    def call(self):
        return f"    {self.module}::{self.name}({', '.join(ARGUMENTS[kind] for _, kind in self.parameters)});\n"


def exports_of(module, text):
    for head, name, parameters, clauses in EXPORT.findall(text):
        pairs = tuple(tuple(it.strip().split(": ", 1)) for it in parameters.split(",") if it.strip())
        yield Export(module, name, head, clauses, pairs)


def imports_of(module, text, exports):
    """Returns the lines that import the types of the exports' parameters."""
    types = {it for export in exports for _, kind in export.parameters for it in re.findall(r"\b[A-Z]\w*", kind)}
    found = {name: f"resb::{module}" for name in types if re.search(rf"^pub struct {name}\b", text, re.M)}
    for path, one, many in re.findall(r"^use ([\w:]+?)::(?:(\w+)|\{([^}]*)\});", text, re.M):
        found |= {name: path.replace("crate::", "resb::") for name in re.findall(r"\w+", one + many) if name in types}
    return "".join(f"use {path}::{name};\n" for name, path in sorted(found.items()))


def modules():
    """Yields the modules of the crate resb that have exports, with their texts and exports."""
    for path in sorted(glob.glob(f"{SOURCES}/*.rt")):
        with open(path, encoding="utf-8") as file:
            text = file.read()
        module = os.path.basename(path)[:-3]
        exports = list(exports_of(module, text))
        if exports:
            yield module, text, exports


def write(path, text):
    with open(path, "w", encoding="utf-8") as file:
        file.write(text)


def write_wrappers(folder):
    """Writes the sources of the static library to a folder."""
    heads = "".join(f"mod {module};\n" for module, _, _ in modules())
    write(f"{folder}/lib.rt", f"//! The exports of the crate resb.\n#![tactic(auto)]\n\n{heads}")
    for module, text, exports in modules():
        ghosts = "".join(re.findall(r"^ghost use [^;]*;\n", text, re.M))
        wrappers = "\n".join(it.wrapper() for it in exports)
        write(f"{folder}/{module}.rt", f"{ghosts}\n{imports_of(module, text, exports)}\n{wrappers}")


def crate_of(top, rtlib):
    return next(it for it in rtlib.crates_below(top) if it.name == "resb")


def build_proved(out):
    """Proves and builds the static library over the crate resb. Returns the status."""
    _, rtlib = prove.toolchain()
    crate = crate_of(TOP, rtlib)
    words = ["--crate-name", "resb_exports", "src/lib.rt", "--extern", f"resb={crate.rlib}", "-L", f"dependency={rtlib.KIT}/rlibs"]
    for name in crate.of_kit:
        words += ["--extern", f"{name}={rtlib.KIT}/rlibs/{name}.rlib"]
    for below in crate.below():
        words += ["--extern", f"{below.name}={below.rlib}"]
    words += ["--antt-project", f"{rtlib.KIT}/rattle/logic/antt-project.json", "--logic-built", f"{rtlib.KIT}/logic_built", "--jobs", "1"]
    words += ["--crate-type", "staticlib", "--toolchain", f"{rtlib.KIT}/toolchain", "--backend", "llvm", "-o", out]
    with tempfile.TemporaryDirectory() as folder:
        os.mkdir(f"{folder}/src")
        write_wrappers(f"{folder}/src")
        return subprocess.run([*rtlib.guarded(), rtlib.RATTLE, "build", *words], cwd=folder).returncode


def copy_sources(top):
    """Copies the sources to a checkout whose crate resb is a program that calls each export."""
    shutil.copyfile(f"{TOP}/crates.txt", f"{top}/crates.txt")
    for part in glob.glob(f"{TOP}/crates/*/s[rp][ce]*"):
        shutil.copytree(part, f"{top}/{os.path.relpath(part, TOP)}")
    source = f"{top}/crates/resb/src"
    with open(f"{source}/lib.rt", encoding="utf-8") as file:
        text = file.read()
    calls = "".join(it.call() for _, _, exports in modules() for it in exports)
    write(f"{source}/main.rt", f"{text}{MAIN}{calls}}}\n")
    os.remove(f"{source}/lib.rt")
    with open(f"{source}/version.rt", encoding="utf-8") as file:
        text = file.read()
    write(f"{source}/version.rt", text.replace('\\0"', '+unproved\\0"'))


def make_global(module, out, clang):
    """Compiles the bitcode of a program as an object whose only global functions are the exports."""
    code = subprocess.run([clang, "-S", "-emit-llvm", "-Xclang", "-disable-llvm-passes", "-x", "ir", module, "-o", "-"], check=True,
                          stdout=subprocess.PIPE).stdout.decode()
    for name in [it.name for _, _, exports in modules() for it in exports]:
        code = re.sub(rf'^define internal (.*)@"resb::\w+::{name}"\(', rf"define \1@{name}(", code, flags=re.M)
        code = re.sub(rf'@"resb::\w+::{name}"', f"@{name}", code)
    code = re.sub(r"^define (?!internal)(.*@main\()", r"define internal \1", code, flags=re.M).replace(" sanitize_address", "")
    subprocess.run([clang, "-x", "ir", "-c", "-O2", "-fPIC", "-ffunction-sections", "-", "-o", out], input=code.encode(), check=True)


def compiled_modules(folder):
    """Returns the bitcode of the program of a run, once it is written and being compiled. Smaller modules are the toolchain's own."""
    objects = glob.glob(f"{glob.escape(folder)}/*/*/module-*.o*")
    modules = [f"{os.path.dirname(it)}/module.bc" for it in objects]
    return [it for it in modules if os.path.isfile(it) and os.path.getsize(it) > 100_000]


def build_unproved(out):
    """Compiles the archive with nothing proved. Returns the status."""
    _, rtlib = prove.toolchain()
    with tempfile.TemporaryDirectory(prefix="unproved-") as top:
        copy_sources(top)
        taken = f"{top}/module.bc"
        if not unproved.take_of_run(compiled_modules, taken, crate=f"{top}/crates/resb"):
            return 1
        make_global(taken, f"{top}/resb.o", f"{rtlib.KIT}/toolchain/bin/clang")
        subprocess.run([f"{rtlib.KIT}/toolchain/bin/llvm-ar", "rcsD", out, f"{top}/resb.o"], check=True)
    return 0


if __name__ == "__main__":
    sys.exit({"proved": build_proved, "unproved": build_unproved}[sys.argv[1]](os.path.abspath(sys.argv[2])))
