"""The parts that all others use: failures, units, files, and texts that are safe to print."""
import contextlib
import os
import re
import stat
import tempfile
from dataclasses import dataclass, field
from typing import Any, Iterable, NamedTuple, Optional

ACTS = re.compile("[\0-\x1f\x7f-\x9f\u200e\u200f\u061c\u202a-\u202e\u2066-\u2069]")
NOT_XML = re.compile("[\0-\x08\x0b\x0c\x0e-\x1f\ud800-\udfff\ufffe\uffff]")
SURROGATE = re.compile("[\ud800-\udfff]")
LINE_END = re.compile("\r\n|\r|\n")

Path = tuple[str, ...]


class Failure(Exception):
    """Why nothing is written: an error in an input, or with the status 2 that a file or a tool can't be used."""

    def __init__(self, message: str, status: int = 1):
        super().__init__(message)
        self.status = status


@dataclass
class Unit:
    """A string to translate, or a translated one; `target` is None if there is no translation.

    `state` is empty if the translation is finished, and otherwise the word by which `--accept` takes it; `said` is the word of the file.
    `language` is that of the translation, if the file names it for this unit."""

    id: str
    source: Optional[str]
    target: Optional[str]
    line: int = 0
    notes: list[str] = field(default_factory=list)
    inherited: Optional[tuple[str, str]] = None
    state: str = ""
    said: str = ""
    language: str = ""


class Header(NamedTuple):
    """A file's own description, each part with its line: the text that it was made of, and the languages."""

    line: int = 1
    original: str = ""
    source: str = ""
    target: str = ""


class Languages(NamedTuple):
    original: str
    source: str
    target: str


@dataclass
class Document:
    """A file of the translators: what it says about itself, and its units."""

    units: list[Unit]
    header: Header = Header()


def id_of(path: Path) -> str:
    """Joins keys and numbers with slashes; in a key `~` is `~0` and `/` is `~1`, as in JSON Pointer."""
    return "/".join(key.replace("~", "~0").replace("/", "~1") for key in path)


def shown(text: str) -> str:
    """Escapes what a terminal acts on in a text or a name, as `resb` does."""
    text = ACTS.sub(lambda found: f"\\u{{{ord(found[0]):x}}}", text)
    return SURROGATE.sub(lambda found: f"\\u{{{ord(found[0]):x}}}", text)


def printable(text: str) -> str:
    """Replaces what no format can have in a note."""
    return NOT_XML.sub("\ufffd", text)


def decoded(path: str, data: bytes) -> str:
    try:
        return data.decode("utf-8-sig")
    except UnicodeDecodeError as error:
        raise Failure(f"{shown(path)}:{data.count(10, 0, error.start) + 1}: not UTF-8") from None


def read_file(path: str) -> bytes:
    try:
        with open(path, "rb") as file:
            return file.read()
    except OSError:
        raise Failure(f"cannot read {shown(path)}", 2) from None


def write_file(path: Optional[str], data: bytes, expected: Optional[bytes] = None) -> None:
    """Writes a file beside its place and renames it; a device or a pipe is written through. Without a path, standard output.

    A file that has further names, or rights that a new one can't have, is written in place, while the new bytes are whole beside it. If
    other bytes than the expected ones are there by then, somebody else wrote the file, and it is left alone."""
    if path is None:
        write_output(data)
        return
    place, made = os.path.realpath(path), None
    try:
        if os.path.exists(path) and not os.path.isfile(path):  # a device or a pipe isn't replaced
            with open(path, "wb") as file:
                file.write(data)
            return
        handle, made = tempfile.mkstemp(prefix=".resb-unfinished-", dir=os.path.dirname(place))
        with open(handle, "wb") as file:
            file.write(data)
            is_like = take_rights(handle, place)
            file.flush()
            os.fsync(handle)
        if expected is not None and read_file(place) != expected:
            os.remove(made)
            raise Failure(f"{shown(path)}:1: the text changed while it was worked on; nothing is written")
        if is_like:
            os.replace(made, place)
        else:
            beside, made = made, None  # what is beside a file that is half written stays
            write_in_place(place, data)
            os.remove(beside)
    except OSError:
        with contextlib.suppress(OSError, TypeError):
            os.remove(made)
        raise Failure(f"cannot write {shown(path)}", 2) from None


def write_output(data: bytes) -> None:
    """Writes to standard output. On a terminal what it acts on is escaped, except line feeds and tabs."""
    if os.isatty(1):
        text = data.decode("utf-8", "replace")
        data = ACTS.sub(lambda found: found[0] if found[0] in "\n\t" else f"\\u{ord(found[0]):04x}", text).encode()
    try:
        with open(1, "wb", closefd=False) as file:
            file.write(data)
    except OSError:
        raise Failure("cannot write stdout", 2) from None


def take_rights(handle: int, path: str) -> bool:
    """Gives a new file the owner, mode, access list and attributes of the file that it replaces, or the mode of a new one. Returns whether
    that is all that the old one has."""
    try:
        old = os.stat(path)
    except FileNotFoundError:
        mask = os.umask(0)
        os.umask(mask)
        os.fchmod(handle, 0o666 & ~mask)
        return True
    try:
        os.fchown(handle, old.st_uid, old.st_gid)
        for name, value in attributes_of(path).items():
            os.setxattr(handle, name, value)
        os.fchmod(handle, stat.S_IMODE(old.st_mode))
    except OSError:
        return False
    return old.st_nlink == 1


def attributes_of(path: str) -> dict[str, bytes]:
    """Returns the extended attributes of a file, its access list among them, if the system has these."""
    try:
        return {name: os.getxattr(path, name) for name in os.listxattr(path)}
    except (AttributeError, OSError):
        return {}


def write_in_place(path: str, data: bytes) -> None:
    with open(path, "r+b") as file:
        file.write(data)
        file.truncate()
        file.flush()
        os.fsync(file.fileno())


def refuse_over_input(out: Optional[str], inputs: Iterable[str]) -> None:
    if out is not None and any(os.path.realpath(out) == os.path.realpath(path) for path in inputs):
        raise Failure(f"{shown(out)} is an input", 2)


def child(item: Any, key: str) -> Any:
    """Returns the item of a table or of an array, or None."""
    if isinstance(item, dict):
        return item.get(key)
    return item[int(key)] if isinstance(item, list) and key.isdecimal() and len(key) < 10 and int(key) < len(item) else None
