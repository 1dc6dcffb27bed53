"""Reads the parts of a message of ICU's MessageFormat from its source, to show and complete them.

`resb lint` decides whether a message is valid; this module reads as much of one as it can. The source is what is between the quotes:
an escape is two characters of it, so that offsets are those of the text."""

from __future__ import annotations

import json
import pathlib
from typing import Iterator, NamedTuple, Optional, Union

DEEPEST = 20
CHOOSING = ("plural", "selectordinal", "select")
CATEGORIES = ("zero", "one", "two", "few", "many", "other")
# a number of each category, such as `one=1 other=2`, with the locales of these numbers
NUMBERS = json.loads(pathlib.Path(__file__).with_name("plurals.json").read_text(encoding="utf-8"))


class Branch(NamedTuple):
    """One message of an argument that chooses, and where its selector begins, and its braces open and close."""

    selector: str
    start: int
    opens: int
    closes: int
    parts: list[Part]


class Argument(NamedTuple):
    name: str
    kind: str
    style: str
    start: int
    end: int
    branches: list[Branch]


Part = Union[str, Argument]


def without_keywords(locale: str) -> str:
    return locale.partition("@")[0].replace("-", "_")


def numbers(locale: str, kind: str) -> dict[str, str]:
    """Returns a number for each plural category of a locale's language."""
    name = without_keywords(locale)
    while name:
        for row, locales in NUMBERS["selectordinal" if kind == "selectordinal" else "plural"].items():
            if name in locales.split():
                return dict(pair.split("=") for pair in row.split())
        name = name.rpartition("_")[0]
    return {}


class Reader:
    def __init__(self, source: str) -> None:
        self.source, self.at = source, 0

    def peek(self) -> str:
        return self.source[self.at : self.at + 1]

    def take(self) -> str:
        """Returns the next character; an escape is one."""
        start = self.at
        self.at += 2 if self.peek() == "\\" else 1
        return self.source[start : self.at]

    def quoted(self) -> str:
        """Reads from an apostrophe: two are one, and one before a brace begins text that the next one ends."""
        self.at += 1
        if self.peek() == "'":
            self.at += 1
            return "'"
        if self.peek() not in ("{", "}", "#") or not self.peek():
            return "'"
        end = self.source.find("'", self.at)
        text = self.source[self.at : end if end >= 0 else None]
        self.at = end + 1 if end >= 0 else len(self.source)
        return text

    def parts(self, depth: int = 0) -> list[Part]:
        """Reads up to the closing brace of a branch, or to the end."""
        found: list[Part] = []
        while self.peek() and not (depth and self.peek() == "}"):
            if self.peek() == "{" and depth < DEEPEST:
                piece: Part = self.argument(depth)
            else:
                piece = self.quoted() if self.peek() == "'" else self.take()
            if found and isinstance(piece, str) and isinstance(found[-1], str):
                found[-1] += piece
            else:
                found.append(piece)
        return found

    def word(self, ends: str) -> str:
        start = self.at
        while self.peek() and self.peek() not in ends:
            self.take()
        return self.source[start : self.at].strip()

    def argument(self, depth: int) -> Argument:
        start = self.at
        self.at += 1
        name, kind, style, branches = self.word(",}{"), "", "", []
        if self.peek() == ",":
            self.at += 1
            kind = self.word(",}{")
        if self.peek() == ",":
            self.at += 1
            if kind in CHOOSING:
                branches = self.branches(depth)
            else:
                style = self.style()
        if self.peek() == "}":
            self.at += 1
        return Argument(name, kind, style, start, self.at, branches)

    def style(self) -> str:
        start, open_braces = self.at, 0
        while self.peek() and not (self.peek() == "}" and not open_braces):
            open_braces += {"{": 1, "}": -1}.get(self.take(), 0)
        return self.source[start : self.at].strip()

    def branches(self, depth: int) -> list[Branch]:
        found = []
        while self.peek() and self.peek() != "}":
            while self.peek() and self.peek() in " \t\r\n":
                self.at += 1
            start = self.at
            selector = self.word("{}")
            if self.peek() != "{":
                break
            opens = self.at
            self.at += 1
            parts = self.parts(depth + 1)
            self.at += self.peek() == "}"
            words = selector.split()
            found.append(Branch(words[-1] if words else "", start, opens, self.at, parts))
            while self.peek() and self.peek() in " \t\r\n":
                self.at += 1
        return found


def parse(source: str) -> list[Part]:
    return Reader(source).parts()


def stray_brace(source: str) -> Optional[int]:
    """Returns the offset of the first brace that closes no argument."""
    reader = Reader(source)
    while reader.peek():
        if reader.peek() == "}":
            return reader.at
        if reader.peek() == "{":
            reader.argument(0)
        elif reader.peek() == "'":
            reader.quoted()
        else:
            reader.take()
    return None


def arguments(parts: list[Part]) -> Iterator[Argument]:
    """Yields the arguments of a message, also those in messages to choose from."""
    for part in parts:
        if isinstance(part, Argument):
            yield part
            for branch in part.branches:
                yield from arguments(branch.parts)


def number_of(selector: str, samples: dict[str, str]) -> str:
    return selector[1:] if selector.startswith("=") else samples.get(selector, "")


def shown(parts: list[Part], choices: dict[str, str], number: str = "#") -> str:
    """Writes a message with chosen selectors, by the names of arguments, and else with those for `other`."""
    text = ""
    for part in parts:
        if isinstance(part, str):
            text += part.replace("#", number)
        elif part.branches:
            wanted = choices.get(part.name, "other")
            branch = next((one for one in part.branches if one.selector == wanted), part.branches[-1])
            inner = choices.get(f"{part.name}#", number)
            text += shown(branch.parts, choices, inner if part.kind != "select" else number)
        else:
            text += f"{{{part.name}}}"
    return text


def examples(parts: list[Part], locale: str) -> list[tuple[str, str]]:
    """Returns each choice of a message, such as `n = 1 (one)`, with the message for it."""
    found = []
    for argument in arguments(parts):
        samples = numbers(locale, argument.kind)
        for branch in argument.branches:
            number = number_of(branch.selector, samples) if argument.kind != "select" else ""
            choice = f"{argument.name} = {number or branch.selector}" + (f" ({branch.selector})" if number else "")
            found.append((choice, shown(parts, {argument.name: branch.selector, f"{argument.name}#": number or "#"})))
    return found
