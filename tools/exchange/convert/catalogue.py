"""The strings of one locale on their way between formats, and the texts that are made of them."""
import os
import re
from dataclasses import dataclass, field
from typing import Any, Iterable, Iterator, NamedTuple, Optional

from ..common import Failure, Path, shown
from ..edits import plain, quoted
from ..texts import Other
from .placeholders import Converted

LOCALE = re.compile(
    r"(?P<language>[A-Za-z]{2,3})(?:[-_](?P<script>[A-Za-z]{4}))?(?:[-_]r?(?P<region>[A-Za-z]{2}|\d{3}))?"
    r"(?:[-_](?P<variant>[A-Za-z0-9]{4,8}))?(?:\.[\w-]+)?(?:@(?P<modifier>\w+))?"
)
SCRIPTS = {"latin": "Latn", "cyrillic": "Cyrl", "devanagari": "Deva", "arabic": "Arab", "tifinagh": "Tfng"}


class Doubt(NamedTuple):
    """A finding that a person has to look at."""

    file: str
    line: int
    key: str
    what: str

    def __str__(self) -> str:
        key = f"{shown(self.key)}: " if self.key else ""
        return f"{shown(self.file)}:{self.line}: {key}{self.what}"


@dataclass
class Catalogue:
    """The strings of one locale; `locale` is empty for those that all locales inherit."""

    module: str
    locale: str
    file: str
    tree: dict = field(default_factory=dict)
    comments: dict[Path, list[str]] = field(default_factory=dict)
    doubts: list[Doubt] = field(default_factory=list)

    def doubt(self, line: int, key: str, what: str) -> None:
        self.doubts.append(Doubt(self.file, line, key, what))

    def put(self, path: Path, item: Any, line: int, comments: Iterable[str] = (), doubts: Iterable[str] = ()) -> None:
        """Adds an item at a path; one that is there already stays in the report."""
        name = "/".join(path)
        keys = tuple(map(key_of, path))
        place = self.tree
        for key in keys[:-1]:
            place = place.setdefault(key, {})
            if not isinstance(place, dict):
                self.doubt(line, name, f"left out, as {key} is a string too")
                return
        if keys[-1] in place:
            self.doubt(line, name, "is there twice; the last one counts")
        place[keys[-1]] = item
        if any(comments):
            self.comments[keys] = [comment for comment in comments if comment.strip()]
        for doubt in doubts:
            self.doubt(line, name, doubt)

    def put_text(self, path: Path, made: Converted, line: int, comments: Iterable[str] = ()) -> None:
        self.put(path, made.text, line, comments, made.doubts)

    def absorb(self, other: "Catalogue") -> None:
        """Adds what another file of the same locale has."""
        for key, item in other.tree.items():
            if self.tree.get(key, item) != item:
                self.doubts.append(Doubt(other.file, 1, key, f"is in {shown(self.file)} too; the last one counts"))
            self.tree[key] = item
        self.comments |= other.comments
        self.doubts += other.doubts


def key_of(text: str) -> str:
    """Returns a key of a bundle: printable ASCII. One with other characters or backslashes is written with escapes."""
    if text and text.isascii() and text.isprintable() and "\\" not in text:
        return text
    units = (text.replace("\\", "\\\\") or "\\0").encode("utf-16-be", "surrogatepass")
    codes = (units[at] << 8 | units[at + 1] for at in range(0, len(units), 2))
    return "".join(chr(code) if 0x20 <= code < 0x7F else f"\\u{code:04x}" for code in codes)


def name_of(key: str) -> str:
    """Returns the text that `key_of` made a key of."""
    if "\\" not in key:
        return key
    found = re.sub(r"\\(?:u([0-9a-f]{4})|(\\)|0)", lambda one: chr(int(one[1], 16)) if one[1] else one[2] or "", key)
    return found.encode("utf-16-le", "surrogatepass").decode("utf-16-le", "surrogatepass")


def locale_of(tag: str) -> Optional[str]:
    """Returns the name that ICU has for a locale, such as `sr_Latn` for `sr@latin`; None if the tag is none."""
    found = LOCALE.fullmatch(tag.removeprefix("b+").replace("+", "-") if tag.startswith("b+") else tag)
    if not found:
        return None
    script = found["script"] or SCRIPTS.get((found["modifier"] or "").lower(), "")
    variant = (found["variant"] or ("" if script else found["modifier"] or "")).upper()
    region = (found["region"] or "").upper()
    parts = [found["language"].lower(), script.title(), region]
    return "_".join(filter(None, parts)) + (("_" if region else "__") + variant if variant else "")


def lines_of(tree: Any, path: Path, comments: dict[Path, list[str]]) -> Iterator[str]:
    """Yields the lines of a container's items, in the layout of `resb fmt`."""
    indent = "    " * (len(path) + 1)
    pairs = tree.items() if isinstance(tree, dict) else ((str(number), item) for number, item in enumerate(tree))
    for key, item in pairs:
        for comment in comments.get((*path, key), ()):
            yield from (f"{indent}// {line.strip()}".rstrip() + "\n" for line in re.split("[\n\r\u2028\u2029]", comment))
        head, comma = (plain(key), "") if isinstance(tree, dict) else ("", ",")
        if isinstance(item, str):
            yield f"{indent}{head} {{ {quoted(item)} }}\n" if head else f"{indent}{quoted(item)},\n"
        elif isinstance(item, Other):
            yield f"{indent}{head}:{item.kind} {{ {item.value} }}{comma}\n"
        else:
            is_table = isinstance(item, dict)
            is_guessed = item and head and (is_table or isinstance(item[0], str))
            kind = "" if is_guessed else ":table" if is_table else ":array"
            yield f"{indent}{head}{kind} {{\n"
            yield from lines_of(item, (*path, key), comments)
            yield f"{indent}}}{comma}\n"


def text_of(catalogue: Catalogue) -> str:
    head = f"{plain(catalogue.locale or 'root')} {{\n"
    return "".join([head, *lines_of(catalogue.tree, (), catalogue.comments), "}\n"])


def folder_of(path: str, top: str) -> str:
    """Returns the folder of a file below the one that is searched."""
    folder = os.path.relpath(os.path.dirname(os.path.abspath(path)), os.path.abspath(top))
    return "" if folder == "." else folder


def refuse(path: str, line: int, what: str) -> Failure:
    return Failure(f"{shown(path)}:{line}: {what}")
