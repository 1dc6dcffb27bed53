"""The sources of the crates: what a crate makes public, and where the contracts of its functions are."""
import pathlib
import re
from collections.abc import Iterator
from typing import Optional

CRATES = pathlib.Path(__file__).resolve().parent.parent.parent / "crates"
BLOCK = re.compile(r"(?:pub )?(?:unsafe )?(impl|trait)\b(?:<[^>]*>)? *(.* for )?&?(\w+)")
FUNCTION = re.compile(r'\s*(?P<access>pub(?:\(\w+\))? |)(?:const |unsafe )*(?P<export>extern "C" |)fn (?P<name>\w+)')


def exported(crate: pathlib.Path) -> tuple[set[str], set[str]]:
    """Returns the names that a crate's lib.rt makes public, and its public modules."""
    text = (crate / "src" / "lib.rt").read_text(encoding="utf-8")
    groups = re.findall(r"^pub use ([^;]*);", text, re.M)
    return {name for group in groups for name in re.findall(r"\w+", group)}, set(re.findall(r"^pub mod (\w+);", text, re.M))


def joined(text: str) -> Iterator[str]:
    """Yields the lines of a source, with each clause as one line."""
    clause = ""
    for line in text.splitlines():
        clause = f"{clause} {line.strip()}" if clause else line
        if not re.match(r"\s*(ensures|requires|ghost)\b", clause) or clause.count("{") <= clause.count("}"):
            yield clause
            clause = ""


def lines_of(crate: pathlib.Path, file: pathlib.Path) -> Iterator[tuple[str, str, Optional[re.Match[str]], bool]]:
    """Yields the lines of a source, each with the type or trait whose block it is in, the function that it begins, and whether that can be called from
    outside: one of a trait, an export to C, any other only if it is `pub`."""
    names, modules = exported(crate)
    owner, is_inherent = "", False
    for line in joined(file.read_text(encoding="utf-8")):
        block = BLOCK.match(line)
        if block:
            owner, is_inherent = block[3], block[1] == "impl" and not block[2]
        elif line.startswith("}"):
            owner = ""
        function, is_public = FUNCTION.match(line), False
        if function and owner:
            is_public = owner in names and (function["access"] == "pub " or not is_inherent)
        elif function:
            is_public = function["access"] == "pub " and (bool(function["export"]) or function["name"] in names or file.stem in modules)
        yield line, owner, function, is_public
