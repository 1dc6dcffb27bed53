"""Reads bundle texts: the tree by the program `resb`, and where its items are in the text by a scanner of its tokens."""
import bisect
import json
import os
import re
import shutil
import subprocess
import sys
import tempfile
from array import array
from dataclasses import dataclass, field
from typing import Any, Iterator, NamedTuple, Optional

from .common import Failure, Path, child, read_file, shown

TOP = os.path.dirname(os.path.dirname(os.path.dirname(os.path.realpath(__file__))))
SPACE = "\t\n\r \u2029\ufeff"
COMMENT = r"//[^\n\r\u2029]*|/\*.*?\*/"
IN_PIECE = r"//[^\n\r\u2029]*[\n\r\u2029]?|/\*.*?\*/"
# a token of a text without errors: white space, a comment, a quoted piece, punctuation or an unquoted piece, which may have comments
TOKEN = re.compile(
    rf'(?P<space>[{SPACE}]+)|(?P<comment>{COMMENT})|"(?P<quoted>(?:\\.|[^"\\])*)"|(?P<mark>[{{}},:])'
    rf'|(?P<bare>(?:\\.|{IN_PIECE}|[^"{{}},:\\{SPACE}])+)',
    re.S,
)
ESCAPE = r"\\(?:u([0-9a-fA-F]{4})|U([0-9a-fA-F]{8})|x([0-9a-fA-F]{1,2})|([0-7]{1,3})|(.))"
IN_QUOTED = re.compile(ESCAPE, re.S)
# an escape ends at a comment, so both are read in one pass
IN_BARE = re.compile(rf"{ESCAPE}|(?:{IN_PIECE})", re.S)
CONTROLS = dict(zip("abefnrtv", "\x07\x08\x1b\x0c\n\r\t\x0b"))
PLAIN_NAME = re.compile(r"[A-Za-z0-9_-]+")


class Other(NamedTuple):
    """An item that is neither a string nor a container: its type and its value, as docs/JSON.md has it."""

    kind: str
    value: Any


class Piece(NamedTuple):
    """A quoted or unquoted piece of a text. An unquoted one may have comments."""

    start: int
    end: int
    comments: tuple[str, ...] = ()


@dataclass
class Node:
    """The place of an item in its text: from its key or first token to its last one, and up to the comma after it.

    `body` is the end of its key, `pieces` are those of a string's text, and `opened` and `closed` are the braces, or -1."""

    start: int
    line: int
    comments: list[str]
    body: int = 0
    end: int = 0
    past: int = 0
    opened: int = -1
    closed: int = -1
    pieces: tuple[Piece, ...] = ()
    value: Optional[str] = None
    children: dict[str, "Node"] = field(default_factory=dict)


@dataclass
class Bundle:
    """A bundle text: its tree, of dicts, lists, strings and Others, and where its items are in the text."""

    path: str
    name: str
    no_fallback: bool
    tree: dict
    text: str
    root: Node

    @property
    def data(self) -> bytes:
        return self.text.encode("utf-8")

    def node(self, path: Path) -> Node:
        found = self.root
        for key in path:
            found = found.children[key]
        return found


def program() -> str:
    """Returns the program: $RESB, or `resb` on PATH, or the one built in the checkout. It starts no build, unlike bin/resb."""
    return os.environ.get("RESB") or shutil.which("resb") or os.path.join(TOP, "crates", "rb_tool", "out", "rb_tool")


def run_program(path: str, *arguments: str, data: bytes = b"") -> bytes:
    try:
        done = subprocess.run([program(), *arguments], input=data, stdout=subprocess.PIPE, stderr=subprocess.PIPE, check=False)
    except OSError:
        raise Failure(f"cannot run {shown(program())}: put resb on the PATH, or name the program in $RESB", 2) from None
    if done.returncode != 0:
        said = re.sub("^-(?=:)", lambda _: shown(path), done.stderr.decode("utf-8", "replace").strip(), flags=re.M)
        raise Failure(said or f"{shown(path)}:1: {program()} ended with status {done.returncode}", 1 if done.returncode == 1 else 2)
    return done.stdout


def tree_of(text: bytes, path: str) -> dict:
    """Compiles a text and returns its tree."""
    compiled = run_program(path, "compile", "-", "-", data=text)
    with tempfile.NamedTemporaryFile(suffix=".res") as file:
        file.write(compiled)
        file.flush()
        return item_of(json.loads(run_program(path, "json", file.name)))


def item_of(value: Any) -> Any:
    """Returns the item of a value of `resb json`."""
    if isinstance(value, list):
        return [item_of(item) for item in value]
    if isinstance(value, int):
        return Other("int", value)
    if not isinstance(value, dict):
        return value
    kind = next(iter(value), "") if len(value) == 1 else ""
    if not re.match(":[^:]", kind):
        return {key[1:] if key.startswith(":") else key: item_of(item) for key, item in value.items()}
    if kind == ":units":
        return string_of(value[kind])
    if kind == ":alias" and isinstance(value[kind], list):
        return Other("alias", string_of(value[kind]))
    return Other(kind[1:], tuple(value[kind]) if kind == ":intvector" else value[kind])


def string_of(units: list[int]) -> str:
    data = array("H", units)
    if sys.byteorder == "big":
        data.byteswap()
    return data.tobytes().decode("utf-16-le", "surrogatepass")


def read_bundle(path: str) -> Bundle:
    data = read_file(path)
    return bundle_of(data, path, tree_of(data, path))


def bundle_of(data: bytes, path: str, tree: dict) -> Bundle:
    text = data.decode("utf-8")
    scanner = Scanner(text)
    name, no_fallback = scanner.bundle()
    line = mislaid(tree, scanner.root)
    if line:
        raise Failure(f"{shown(path)}:{line}: cannot find where the strings are in this text", 2)
    return Bundle(path, name, no_fallback, tree, text, scanner.root)


def mislaid(item: Any, node: Node) -> int:
    """Returns the line of an item that the scanner read otherwise than the program, or 0."""
    if isinstance(item, str):
        return 0 if node.value == item else node.line
    if not isinstance(item, (dict, list)):
        return 0 if not node.children else node.line
    keys = list(item) if isinstance(item, dict) else [str(number) for number in range(len(item))]
    if len(keys) != len(node.children) or node.value is not None or any(key not in node.children for key in keys):
        return node.line
    return next((line for key in keys if (line := mislaid(child(item, key), node.children[key]))), 0)


def unescaped(found: re.Match) -> str:
    code, long_code, byte, octal, other = found.groups()
    if other:
        return CONTROLS.get(other, other)
    digits = code or long_code or byte
    return chr(int(octal, 8)) if octal else chr(int(digits, 16)) if digits else ""


def paired(text: str) -> str:
    """Joins surrogates that stand side by side, as two escapes may write them."""
    return text if text.isascii() else text.encode("utf-16-le", "surrogatepass").decode("utf-16-le", "surrogatepass")


class Scanner:
    """Finds the items of a bundle text that compiles, with their places, lines and comments.

    A comment belongs to the item after it, but to the last item before it if it begins on the line of a token before it."""

    def __init__(self, text: str):
        self.text = text
        self.line_feeds = [found.start() for found in re.finditer("\n", text)]
        self.tokens = self.read_tokens()
        self.root = self.last = Node(0, 1, [])
        self.last_line = 0
        self.pending: list[str] = []
        self.inside: list[str] = []
        self.second: Optional[tuple[str, str, tuple[Piece, ...]]] = None
        self.kind, self.value, self.pieces = next(self.tokens)

    def read_tokens(self) -> Iterator[tuple[str, str, tuple[Piece, ...]]]:
        """Yields the kind, the value and the pieces of each token; pieces side by side are one text."""
        merged: Optional[list[str]] = None
        pieces: list[Piece] = []
        quoted = has_text = False
        for found in TOKEN.finditer(self.text):
            kind = found.lastgroup
            if kind in ("quoted", "bare"):
                if merged is None:
                    merged, pieces, has_text = [], [], False
                elif not (quoted and kind == "quoted") and has_text:
                    merged.append(" ")
                quoted = kind == "quoted"
                merged.append((IN_QUOTED if quoted else IN_BARE).sub(unescaped, found[kind]))
                has_text = has_text or merged[-1] != ""
                inner = () if quoted else tuple(one[0] for one in IN_BARE.finditer(found[0]) if one[0][0] == "/")
                pieces.append(Piece(found.start(), found.end(), inner))
            elif kind == "mark":
                if merged is not None:
                    yield "text", paired("".join(merged)), tuple(pieces)
                    merged = None
                yield "mark", found[0], (Piece(found.start(), found.end()),)
            elif kind == "comment":
                self.comment(found[0], found.start(), merged is not None)
        yield "end", "", (Piece(len(self.text), len(self.text)),)

    def comment(self, text: str, start: int, in_text: bool) -> None:
        lines = [line.strip().lstrip("*").strip() for line in re.split("[\n\r\u2029]", text[2:-2] if text[1] == "*" else text[2:])]
        note = "\n".join(line for line in lines if line)
        if note and in_text:
            self.inside.append(note)
        elif note and self.line_of(start) == self.last_line:
            self.last.comments.append(note)
        elif note:
            self.pending.append(note)

    def line_of(self, offset: int) -> int:
        return bisect.bisect_left(self.line_feeds, offset) + 1

    def advance(self) -> int:
        """Reads the next token, and the comments before it; returns where the present one ends. A comment after the text of a value
        belongs to the value's item."""
        end = self.pieces[-1].end
        self.last.comments.extend(self.inside)
        self.inside, self.last_line = [], self.line_of(self.pieces[0].start)
        self.kind, self.value, self.pieces = self.peek()
        self.second = None
        return end

    def peek(self) -> tuple[str, str, tuple[Piece, ...]]:
        """Returns the token after the present one."""
        if self.second is None:
            self.second = next(self.tokens, ("end", "", (Piece(len(self.text), len(self.text)),)))
        return self.second

    def is_mark(self, mark: str) -> bool:
        return self.kind == "mark" and self.value == mark

    def begin(self) -> Node:
        """Begins an item, to which the comments before it belong."""
        start = self.pieces[0].start
        node = Node(start, self.line_of(start), self.pending + self.inside, body=start)
        self.pending, self.inside, self.last = [], [], node
        return node

    def close(self, node: Node) -> None:
        """Ends an item at its brace. Comments before the brace of a container belong to no item."""
        node.closed = self.pieces[0].start
        node.end = node.past = self.advance()

    def bundle(self) -> tuple[str, bool]:
        """Reads the whole text, and returns the bundle's name and whether it is without fallback."""
        self.root, name = self.begin(), self.value
        self.root.body = self.advance()
        kind = self.kind_word()
        if kind == "table" and self.kind == "text":
            kind += self.value
            self.advance()
        self.open(self.root)
        self.table(self.root)
        return name, kind.endswith("(nofallback)")

    def open(self, node: Node) -> None:
        node.opened = self.pieces[0].start
        self.advance()

    def kind_word(self) -> str:
        if not self.is_mark(":"):
            return ""
        self.advance()
        word = self.value
        self.advance()
        return word

    def table(self, node: Node) -> None:
        while self.kind == "text":
            inner = node.children[self.value] = self.begin()
            inner.body = self.advance()
            self.typed_body(inner)
            self.comma(inner)
        self.pending = []
        self.close(node)

    def comma(self, node: Node) -> None:
        if self.is_mark(","):
            node.past = self.advance()

    def array(self, node: Node) -> None:
        while not self.is_mark("}") and self.kind != "end":
            inner = node.children[str(len(node.children))] = self.begin()
            if self.kind == "text":
                self.string(inner)
                inner.end = inner.past = inner.pieces[-1].end
            else:
                self.typed_body(inner)
            self.comma(inner)
        self.pending = []
        self.close(node)

    def string(self, node: Node) -> None:
        """Reads the text of a string, if there is one."""
        node.value = ""
        if self.kind == "text":
            node.value, node.pieces = self.value, self.pieces
            self.advance()

    def typed_body(self, node: Node) -> None:
        kind = self.kind_word()
        self.open(node)
        if kind == "table":
            self.table(node)
        elif kind == "array":
            self.array(node)
        elif kind == "string":
            self.string(node)
            self.close(node)
        elif kind:
            while not self.is_mark("}") and self.kind != "end":
                self.advance()
            self.close(node)
        else:
            self.untyped_body(node)

    def untyped_body(self, node: Node) -> None:
        """Reads a body without a type. One whose first token is a text is an array, a string or a table by the token after it."""
        after = self.peek()[1] if self.kind == "text" else ","
        if after == "}":
            self.string(node)
            self.close(node)
        elif after == ",":
            self.array(node)
        else:
            self.table(node)
