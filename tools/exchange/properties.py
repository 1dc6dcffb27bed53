"""Java's properties in UTF-8, by hand after `java.util.Properties.load`: javaproperties takes quadratic time for continued lines, and
translate-toolkit leaves the escapes of control characters and ends lines at U+2028."""
import re
from typing import Iterator, NamedTuple

from .common import LINE_END, SURROGATE, Document, Failure, Header, Languages, Unit, decoded, printable, shown
from .xliff import all_notes

BLANK = " \t\f"
ESCAPES = {"t": "\t", "n": "\n", "r": "\r", "f": "\f"}
ESCAPE = re.compile(r"\\(?:u([0-9a-fA-F]{4})|(u)|(.)|)", re.S)
KEY = re.compile(r"(?:[^\\=: \t\f]|\\.)*", re.S)
SEPARATOR = re.compile(r"[ \t\f]*[=:]?[ \t\f]*")
HEADER = re.compile(r"# (.*), from ([\w-]+) to ([\w-]+); UTF-8")
WRITTEN = {"\t": "\\t", "\n": "\\n", "\r": "\\r", "\f": "\\f", "\\": "\\\\"}


class Property(NamedTuple):
    line: int
    key: str
    value: str
    comments: list[str]


def escaped(text: str, more: str) -> str:
    """Escapes what the format can't have as it is, and the signs of `more`."""

    def code(found: re.Match) -> str:
        letter = found[0]
        return WRITTEN.get(letter) or ("\\" + letter if letter in "=:#!" + more else f"\\u{ord(letter):04x}")

    return re.sub(f"[\\\\\0-\x1f\x7f\ud800-\udfff=:#!{more}]", code, text)


def line_of(key: str, value: str) -> str:
    """Returns the line of a property."""
    text = escaped(value, "")
    return escaped(key, " ") + "=" + re.sub("^ +", lambda found: "\\ " * len(found[0]), text)


def write_properties(units: list[Unit], languages: Languages) -> bytes:
    lines = [f"# {languages.original}, from {languages.source} to {languages.target}; UTF-8"]
    for unit in units:
        notes = [*all_notes(unit), "source: " + printable(unit.source or "")]
        lines += ["", *(f"# {line}" for note in notes for line in re.split("[\r\n]", note))]
        lines.append(("" if unit.target is not None else "#") + line_of(unit.id, unit.target or ""))
    return "".join(f"{SURROGATE.sub(lambda found: chr(0xFFFD), line)}\n" for line in lines).encode()


def logical_lines(text: str) -> Iterator[tuple[int, str]]:
    """Yields the lines that are no comments, joined where they continue, each with the number of its first one. A comment is a line,
    and so is one that continues nothing."""
    number, parts = 0, []
    for line, row in enumerate(LINE_END.split(text), 1):
        row = row.lstrip(BLANK) if parts or row[:1] in BLANK else row
        if not parts:
            number = line
            if row[:1] in ("#", "!", ""):
                yield line, row
                continue
        is_continued = (len(row) - len(row.rstrip("\\"))) % 2 == 1
        parts.append(row[:-1] if is_continued else row)
        if not is_continued:
            yield number, "".join(parts)
            parts = []
    if parts:
        yield number, "".join(parts)


def unescaped(path: str, line: int, text: str) -> str:
    def value(found: re.Match) -> str:
        if found[2]:
            raise Failure(f"{shown(path)}:{line}: \\u without four hexadecimal digits")
        return chr(int(found[1], 16)) if found[1] else ESCAPES.get(found[3], found[3] or "")

    text = ESCAPE.sub(value, text)
    return text.encode("utf-16-le", "surrogatepass").decode("utf-16-le", "surrogatepass") if SURROGATE.search(text) else text


def read_lines(path: str, text: str) -> Iterator[Property]:
    """Yields the properties of a file, each with the comments in front of it. An empty line ends comments that belong to none."""
    comments: list[str] = []
    for line, row in logical_lines(text):
        if row == "":
            comments = []
        elif row[0] in "#!":
            comments.append(row[1:].strip())
        else:
            key = KEY.match(row)[0]
            value = row[SEPARATOR.match(row, len(key)).end() :]
            yield Property(line, unescaped(path, line, key), unescaped(path, line, value), comments)
            comments = []


def read_properties(path: str, data: bytes, original: str) -> Document:
    del original
    text = decoded(path, data)
    found = HEADER.match(text)
    header = Header(1, found[1], found[2], found[3]) if found else Header()
    return Document([Unit(one.key, None, one.value, one.line) for one in read_lines(path, text)], header)
