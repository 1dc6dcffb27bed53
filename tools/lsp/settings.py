"""Reads the settings of a project, `resb.toml`: its modules, and what is wrong in it. docs/PROJECT.md describes the file, and
editors/resb.schema.json is its schema. Paths are relative to the file."""

from __future__ import annotations

import glob
import os
import re
from typing import Iterator, NamedTuple, Optional, Sequence

try:
    import tomllib
except ImportError:  # before Python 3.11
    tomllib = None

NAME = "resb.toml"
PLACE = re.compile(r"\(at line (\d+), column (\d+)\)|\(at end of document\)")
LINE = re.compile(r"^[ \t]*(?:\[+[ \t]*([^\]\n]*?)[ \t]*\]|\"?([^=\"\n]*?)\"?[ \t]*=)", re.M)
TEXT, TEXTS, NAMES, FLAG = "a string", "an array of strings", "the names of warnings", "true or false"
KEYS = {
    "data": {"icudata": TEXT, "parents": TEXT, "cldr-parents": FLAG},
    "lint": {"allow": NAMES, "deny": NAMES, "strict": FLAG, "baseline": TEXT},
    "fmt": {"indent": (1, 16), "width": (20, 1000)},
    "coverage": {"parents": TEXT, "cldr-parents": FLAG, "complete": (0, 100)},
    "module": {"folder": TEXT, "patterns": TEXTS, "root": TEXT, "source-language": TEXT, "messages": TEXTS, "no-messages": TEXTS},
    "allow": {"files": TEXTS, "paths": TEXTS, "warnings": NAMES},
    "forbid": {"files": TEXTS, "words": TEXTS},
    "limit": {"files": TEXTS, "paths": TEXTS, "length": (1, 100_000)},
}
MANY = ("module", "allow", "forbid", "limit")


class Pattern(NamedTuple):
    """The texts of one module: those in a folder, or those that a pattern matches."""

    patterns: tuple[str, ...]
    root: Optional[str]


class Problem(NamedTuple):
    """A mistake in a settings file, and the offset at which it is."""

    offset: int
    message: str


def read(content: str, folder: str, rules: Sequence[str] = ()) -> tuple[list[Pattern], list[Problem]]:
    """Reads the settings of a folder, and says what is wrong with them. Without `rules`, names of warnings aren't checked."""
    if tomllib is None:
        return [], [Problem(0, "settings are read by Python 3.11 or later")]
    try:
        tables = tomllib.loads(content)
    except (tomllib.TOMLDecodeError, RecursionError) as error:
        return [], [syntax_problem(content, str(error))]
    patterns, problems = [], list(wrong(content, tables, rules))
    entries = tables.get("module")
    for number, table in enumerate(entries if isinstance(entries, list) else []):
        found = pattern_of(table, folder) if isinstance(table, dict) else None
        if found:
            patterns.append(found)
            if found.root and not os.path.isfile(found.root):
                problems.append(Problem(place(content, "module", number), f"there is no file of the root: {found.root}"))
    return patterns, problems


def wrong(content: str, tables: dict, rules: Sequence[str]) -> Iterator[Problem]:
    """Yields what is wrong with the names and the types of the values."""
    for name, value in tables.items():
        if name not in KEYS:
            yield Problem(place(content, "", 0, name) or place(content, name), "this name has no meaning here")
            continue
        if name in MANY and not isinstance(value, list):
            yield Problem(place(content, name), "the value is an array of tables, each with its name in two brackets")
            continue
        for number, table in enumerate(value if name in MANY else [value]):
            if not isinstance(table, dict):
                yield Problem(place(content, name, number), "the value is a table")
                continue
            if name == "module" and ("folder" in table) == ("patterns" in table):
                yield Problem(place(content, name, number), "a module has either a folder or patterns")
            for key, one in table.items():
                message = wrong_value(KEYS[name].get(key), one, rules)
                if message:
                    yield Problem(place(content, name, number, key), message)


def wrong_value(kind: object, value: object, rules: Sequence[str]) -> Optional[str]:
    """Returns what is wrong with a value of a kind, which is None for an unknown key."""
    if kind is None:
        return "this name has no meaning here"
    if isinstance(kind, tuple):
        is_number = isinstance(value, int) and not isinstance(value, bool)
        return None if is_number and kind[0] <= value <= kind[1] else f"the value is a number from {kind[0]} to {kind[1]}"
    if kind in (TEXT, FLAG):
        return None if isinstance(value, str if kind == TEXT else bool) else f"the value is {kind}"
    if not isinstance(value, list) or not all(isinstance(one, str) for one in value):
        return f"the value is {TEXTS}"
    unknown = kind == NAMES and rules and any(one not in rules for one in value)
    return "no warning has this name; resb lint --list has all" if unknown else None


def place(content: str, table: str, number: int = 0, key: str = "") -> int:
    """Returns the offset of a key below a header, or of the header; the empty name is the top of the file."""
    found, inside, count = 0, table == "", 0
    for line in LINE.finditer(content):
        if line[1] is not None:
            inside = line[1] == table and count == number
            count += line[1] == table
            found = line.start() if inside else found
        elif inside and key and line[2].strip() == key:
            return line.start()
    return found


def syntax_problem(content: str, message: str) -> Problem:
    found = PLACE.search(message)
    if not found or not found[1]:
        return Problem(len(content), message)
    lines = content.split("\n")[: int(found[1]) - 1]
    return Problem(sum(len(line) + 1 for line in lines) + int(found[2]) - 1, message[: found.start()].strip())


def pattern_of(table: dict, folder: str) -> Optional[Pattern]:
    """Returns the texts that a module has, or None if the table is wrong."""
    own, patterns, root = (table.get(key) for key in ("folder", "patterns", "root"))
    if (own is None) == (patterns is None) or not isinstance(own, (str, type(None))) or not isinstance(root, (str, type(None))):
        return None
    if own is not None:
        patterns = [os.path.join(glob.escape(own), "*.txt")]
        root = root or os.path.join(own, "root.txt")
    elif not isinstance(patterns, list) or not all(isinstance(pattern, str) for pattern in patterns):
        return None
    whole = tuple(os.path.normpath(os.path.join(glob.escape(folder), pattern)) for pattern in patterns)
    return Pattern(whole, root and os.path.normpath(os.path.join(folder, root)))


def nearest(path: str) -> Optional[str]:
    """Returns the settings file of a text: the nearest one in the folders above it."""
    folder = os.path.dirname(os.path.abspath(path))
    while True:
        file = os.path.join(folder, NAME)
        if os.path.isfile(file):
            return file
        above = os.path.dirname(folder)
        if above == folder:
            return None
        folder = above


def options(path: str) -> list[str]:
    """Returns the options of a command that reads the settings of a text, or none if they are wrong."""
    file = nearest(path)
    if file:
        try:
            with open(file, encoding="utf-8") as stream:
                if not read(stream.read(), os.path.dirname(file))[1]:
                    return ["--config", file]
        except (OSError, ValueError):
            pass
    return ["--no-config"]
