"""Finds the items of a bundle text with their positions, also in a text with errors.

No command of `resb` prints the positions of keys, and an editor asks for them while a text doesn't compile. This module follows only
tokens and braces; `resb` decides what is valid. tests/lsp_test.py compares it with `resb json` over ICU's texts."""

from __future__ import annotations

import bisect
import re
import sys
from array import array
from collections.abc import Iterator
from typing import Optional

SPACE = "\t\n\r \u2029\ufeff"
BLOCK = r"/\*.*?(?:\*/|\Z)"
GAP = rf"(?:[{SPACE}]++|//[^\n\r\u2029]*+|{BLOCK})*+"
QUOTED, MARK, BARE = 1, 2, 3
TOKEN = re.compile(
    rf'{GAP}(?:("(?:[^"\\]++|\\.)*+(?:"|\\?\Z))|([{{}},:])'
    rf'|((?:[^"{{}},:\\/{SPACE}]++|\\(?:.|\Z)|//[^\n\r\u2029]*+[\n\r\u2029]?|{BLOCK}|/)++)|\Z)',
    re.S,
)
IN_BARE = re.compile(rf"(\\.)|//[^\n\r\u2029]*[\n\r\u2029]?|{BLOCK}", re.S)
ESCAPE = re.compile(r"\\(?:u([0-9a-fA-F]{4})|U([0-9a-fA-F]{8})|x([0-9a-fA-F]{1,2})|([0-7]{1,3})|(.))", re.S)
CONTROLS = dict(zip("abefnrtv", "\x07\x08\x1b\x0c\n\r\t\x0b"))
PLAIN = re.compile(r'[^"\\/]*')
BARE_KEY = re.compile(r"[A-Za-z0-9_.%-]+")
TYPES = ("string", "alias", "bin", "binary", "int", "integer", "intvector", "table", "array")
SAME = {"binary": "bin", "integer": "int", "table(nofallback)": "table"}
UNKNOWN = "unknown"


def unescaped(found: re.Match) -> str:
    code, long_code, byte, octal, other = found.groups()
    if other:
        return CONTROLS.get(other, other)
    return chr(min(int(octal, 8) if octal else int(code or long_code or byte, 16), 0x10FFFF))


def text_value(source: str) -> str:
    """Returns the text that pieces side by side spell."""
    value, was_quoted = "", False
    for found in TOKEN.finditer(source):
        quoted = found.lastindex == QUOTED
        if quoted:
            piece = found[QUOTED][1:].removesuffix('"')
        elif found.lastindex == BARE:
            piece = IN_BARE.sub(lambda part: part[1] or "", found[BARE])
        else:
            continue
        piece = ESCAPE.sub(unescaped, piece) if "\\" in piece else piece
        value += piece if not value or quoted and was_quoted else " " + piece
        was_quoted = quoted
    if any("\ud800" <= character < "\ue000" for character in value):
        value = value.encode("utf-16-le", "surrogatepass").decode("utf-16-le", "surrogatepass")
    return value


def key_source(key: str) -> str:
    """Writes a key as a text has it."""
    return key if BARE_KEY.fullmatch(key) else '"' + key.replace("\\", "\\\\").replace('"', '\\"') + '"'


class Items:
    """The items of a text in its order; item 0 is the bundle, and an element of an array has its index as key.

    An item begins at `starts`; its key ends at `ends`, its body is from the brace at `opens` to `closes`. Where an element is only a
    text, `starts` and `opens` are where it begins."""

    def __init__(self) -> None:
        self.keys: list[str] = []
        self.kinds: list[str] = []
        self.parents, self.starts, self.ends, self.opens, self.closes = (array("i") for _ in range(5))

    def add(self, key: str, kind: str, parent: int, places: tuple[int, int, int, int]) -> int:
        self.keys.append(sys.intern(key))
        self.kinds.append(kind)
        self.parents.append(parent)
        for column, place in zip((self.starts, self.ends, self.opens, self.closes), places):
            column.append(place)
        return len(self.keys) - 1

    def path(self, item: int) -> tuple[str, ...]:
        keys = []
        while item > 0:
            keys.append(self.keys[item])
            item = self.parents[item]
        return tuple(reversed(keys))

    def find(self, path: tuple[str, ...]) -> Optional[int]:
        """Returns the first item at a path."""
        item = 0 if self.keys else None
        for key in path:
            item = self.child(item, key)
            if item is None:
                return None
        return item

    def child(self, parent: int, key: str) -> Optional[int]:
        at = parent
        past = bisect.bisect_left(self.starts, self.closes[parent], at)
        while True:
            try:
                at = self.keys.index(key, at + 1, past)
            except ValueError:
                return None
            if self.parents[at] == parent:
                return at

    def children(self, parent: int) -> Iterator[int]:
        past = bisect.bisect_left(self.starts, self.closes[parent], parent)
        return (item for item in range(parent + 1, past) if self.parents[item] == parent)

    def at(self, offset: int) -> Optional[int]:
        """Returns the innermost item around an offset."""
        item = bisect.bisect_right(self.starts, offset) - 1
        while item > 0 and self.closes[item] < offset:
            item = self.parents[item]
        return item if item >= 0 else None


class Builder:
    """Follows the tokens of a text; `stack` has the items that are open."""

    def __init__(self, text: str) -> None:
        self.text, self.items = text, Items()
        self.stack: list[int] = []
        self.counts: list[int] = []
        self.pending: Optional[list[int]] = None  # where a text that has no role yet begins and ends
        self.key: Optional[list[int]] = None
        self.has_type = False

    def value(self, span: list[int]) -> str:
        source = self.text[span[0] : span[1]]
        return source if PLAIN.fullmatch(source) and " " not in source and "\n" not in source else text_value(source)

    def element(self) -> None:
        """Adds the pending text as an element of the array that is open."""
        if self.pending:
            start, end = self.pending
            self.items.add(str(self.counts[-1]), "string", self.stack[-1], (start, start, start, end))
            self.counts[-1] += 1
            self.pending = None

    def opened(self, at: int) -> None:
        key, kind = self.pending, UNKNOWN
        if self.has_type:
            kind = self.value(self.pending) if self.pending else ""
            key, kind = self.key, SAME.get(kind, kind)
        parent = self.stack[-1] if self.stack else 0 if self.items.keys else -1  # after the bundle's end too
        if not self.stack:
            kind = "table"
        elif self.items.kinds[parent] == UNKNOWN:
            self.items.kinds[parent] = "table" if key else "array"
        name = self.value(key) if key else ""
        if self.stack and self.items.kinds[parent] == "array":
            if key and not self.has_type:
                self.element()
            key, name = None, str(self.counts[-1])
            self.counts[-1] += 1
        start, end = key or (at, at)
        self.stack.append(self.items.add(name, kind, parent, (start, end, at, len(self.text))))
        self.counts.append(0)

    def closed(self, at: int) -> None:
        if not self.stack:
            return
        item, kinds = self.stack[-1], self.items.kinds
        if kinds[item] == UNKNOWN:
            kinds[item] = "string" if self.pending else "array"
        elif kinds[item] == "array":
            self.element()
        self.items.closes[item] = at + 1
        self.stack.pop()
        self.counts.pop()

    def comma(self) -> None:
        if self.stack and self.items.kinds[self.stack[-1]] == UNKNOWN:
            self.items.kinds[self.stack[-1]] = "array"
        if self.stack and self.items.kinds[self.stack[-1]] == "array":
            self.element()

    def mark(self, mark: str, at: int) -> None:
        if mark == ":":
            if self.stack and self.items.kinds[self.stack[-1]] == UNKNOWN:
                self.items.kinds[self.stack[-1]] = "table" if self.pending else "array"
            self.key, self.has_type, self.pending = self.pending, True, None
            return
        if mark == "{":
            self.opened(at)
        elif mark == "}":
            self.closed(at)
        else:
            self.comma()
        self.pending, self.key, self.has_type = None, None, False


def scan(text: str) -> Items:
    """Reads a text. A text with errors gives the items as far as its braces show them."""
    builder = Builder(text)
    for found in TOKEN.finditer(text):
        which = found.lastindex
        if which == MARK:
            builder.mark(found[MARK], found.start(MARK))
        elif which:
            if builder.pending is None:
                builder.pending = [found.start(which), found.end()]
            else:
                builder.pending[1] = found.end()
    if len(builder.stack) and builder.items.kinds[builder.stack[-1]] == UNKNOWN:
        builder.items.kinds[builder.stack[-1]] = "string" if builder.pending else "array"
    return builder.items
