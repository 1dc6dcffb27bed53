"""`import`: puts translated strings into a target, in place. What the file doesn't say stays."""
import argparse
import collections
import json
import os
import re
import sys
import unicodedata
from dataclasses import dataclass, field
from typing import Optional

from . import states
from .common import Document, Failure, Header, Path, Unit, id_of, read_file, refuse_over_input, shown, write_file
from .edits import edited
from .formats import FORMATS
from .languages import differ, tag_of
from .merge import Merge, strings, value_at
from .messages import changed_arguments
from .texts import Bundle, read_bundle, tree_of

# a file of which more source strings than these, and than one of ten, are others by now is of another text
CHANGED_LEAST, CHANGED_SHARE = 5, 10
# new translations of which this many, and more than half, are their sources are of a file that a tool filled in
COPIES_LEAST = 3
# what a spreadsheet makes of a text that begins with an equals sign
SHEET_ERROR = re.compile(r"#(?:NAME\?|REF!|VALUE!|N/A|DIV/0!|NULL!|NUM!|ERROR!)|Err:5\d\d")


@dataclass
class Known:
    """A string to translate: its path, its text in the source, and in the target or None."""

    path: Path
    source: str
    old: Optional[str]


@dataclass
class Result:
    """The result of an import, by ids."""

    set: list[str] = field(default_factory=list)
    unchanged: int = 0
    untranslated: list[str] = field(default_factory=list)
    skipped: list[dict] = field(default_factory=list)
    absent: list[str] = field(default_factory=list)
    removed: list[str] = field(default_factory=list)
    left_out: list[str] = field(default_factory=list)
    source_changed: list[str] = field(default_factory=list)
    copies: list[str] = field(default_factory=list)

    def counts(self) -> str:
        skipped = collections.Counter(one["state"] for one in self.skipped)
        counts = {"unchanged": self.unchanged, **{f"{shown(state)} skipped": count for state, count in skipped.items()}}
        counts |= {"not translated": len(self.untranslated), "not in the file": len(self.absent), "removed": len(self.removed)}
        counts |= {"behind a gap of an array": len(self.left_out), "equal to the source": len(self.copies)}
        counts |= {"of a changed source": len(self.source_changed)}
        return ", ".join([f"{len(self.set)} set", *(f"{count} {what}" for what, count in counts.items() if count)])


class Import:
    """Reads the units of a file against the strings of a source and a target."""

    def __init__(self, args: argparse.Namespace, source: Bundle, target: Bundle):
        self.args, self.source, self.target = args, source, target
        self.language = args.target_language or tag_of(target.name)
        self.source_language = args.source_language or tag_of(source.name)
        self.known = {id_of(path): Known(path, text, old) for path, text, old in strings(source.tree, target.tree)}
        self.accepted = set(filter(None, re.split(r"[\s,]+", args.accept)))
        self.texts: dict[Path, str] = {}
        self.lines: dict[str, int] = {}
        self.errors: list[str] = []
        self.result = Result()

    def place(self, unit: Unit) -> str:
        return f"{shown(self.args.file)}:{unit.line}: {shown(unit.id)}"

    def warn(self, unit: Unit, what: str) -> None:
        print(f"{self.place(unit)}: {what}", file=sys.stderr)

    def read(self, units: list[Unit]) -> None:
        """Takes each unit of a file, or lists why not."""
        for unit in units:
            if unit.state in (states.OBSOLETE, states.PLURAL):
                self.skip(unit)
            elif unit.id not in self.known or unit.id in self.lines:
                what = "is there twice" if unit.id in self.lines else "no string to translate has this id"
                self.errors.append(f"{self.place(unit)}: {what}")
            else:
                self.lines[unit.id] = unit.line
                self.take(unit, self.known[unit.id])
        self.result.absent = [one for one in self.known if one not in self.lines]
        if self.errors:
            raise Failure("\n".join(self.errors))

    def take(self, unit: Unit, known: Known) -> None:
        target = text_of(unit, known)
        if unit.source is not None and not is_same(unit.source, known.source):
            self.result.source_changed.append(unit.id)
            self.warn(unit, "warning: the source's string is another one now")
        if target is None:
            self.result.untranslated.append(unit.id)
        elif unit.state and (unit.state in states.NEVER or not {unit.state, unit.said} & self.accepted):
            self.skip(unit)
        elif target == known.old:
            self.result.unchanged += 1
            self.texts[known.path] = target
        else:
            self.judge(unit, known, target)

    def skip(self, unit: Unit) -> None:
        self.result.skipped.append({"id": unit.id, "line": unit.line, "state": unit.state})
        said = f" ({shown(unit.said)})" if unit.said not in ("", unit.state) else ""
        self.warn(unit, f"{shown(unit.state)}{said}, skipped")

    def judge(self, unit: Unit, known: Known, target: str) -> None:
        """Takes a new text, unless it isn't one of its source."""
        changed = None if self.args.any_arguments else changed_arguments(known.source, target)
        if changed:
            self.errors.append(f"{self.place(unit)}: the translation {changed}")
        elif known.source.strip() and target and not target.strip():
            self.errors.append(f"{self.place(unit)}: the translation has only white space")
        elif SHEET_ERROR.fullmatch(target.strip()) and not SHEET_ERROR.fullmatch(known.source.strip()):
            self.errors.append(f"{self.place(unit)}: the translation is {target.strip()}, an error of a spreadsheet")
        elif unit.language and differ(unit.language, self.language):
            self.errors.append(f"{self.place(unit)}: the translation is in {shown(unit.language)}, and not in {self.language}")
        elif ends(target) != ends(known.source):
            self.warn(unit, "warning: the white space at the ends differs from the source's")
        elif unicodedata.is_normalized("NFC", known.source) and not unicodedata.is_normalized("NFC", target):
            self.warn(unit, "warning: the translation has decomposed characters (not NFC)")
        self.texts[known.path] = target
        if target == known.source and target.strip():
            self.result.copies.append(unit.id)

    def removed(self) -> set[Path]:
        """Returns the paths of the target's strings that the file lacks or has without a translation, if these are to be removed."""
        if not self.args.remove_missing:
            return set()
        gone = [self.known[one] for one in [*self.result.absent, *self.result.untranslated]]
        return {known.path for known in gone if known.old is not None}


def ends(text: str) -> tuple[str, str]:
    """Returns the white space before and after a text."""
    return text[: len(text) - len(text.lstrip())], text[len(text.rstrip()) :]


def is_same(one: str, other: str) -> bool:
    """Checks whether two texts are the same except for white space, which tools lay out anew."""
    return one == other or one.split() == other.split()


def text_of(unit: Unit, known: Known) -> Optional[str]:
    """Returns the translation of a unit, with the line ends and the white space around it that the tool changed put right, as far as
    the unit's source shows what the tool did."""
    text = unit.target
    if text is None or text == known.old:
        return text
    if "\r" not in known.source:
        text = text.replace("\r\n", "\n")
    said = (unit.source or "").replace("\r\n", "\n")
    if unit.source is None or said == known.source or not is_same(said, known.source):
        return text
    inner = text.strip() if "\n" in known.source else re.sub(r"[ \t]*\n[ \t]*", " ", text.strip())
    stripped = known.source.strip()
    at = known.source.find(stripped)
    return known.source[:at] + inner + known.source[at + len(stripped) :] if stripped else text


def check_header(args: argparse.Namespace, header: Header, source: Bundle, target: Bundle) -> None:
    """Refuses a file that is of another text or of other languages."""
    place, original = f"{shown(args.file)}:{header.line}", os.path.basename(args.source)
    target_tag, source_tag = args.target_language or tag_of(target.name), args.source_language or tag_of(source.name)
    errors = []
    if header.original and header.original != original:
        errors.append(f"{place}: it is of {shown(header.original)}, and the source is {shown(original)}")
    if header.target and differ(header.target, target_tag):
        errors.append(f"{place}: its translations are in {shown(header.target)}, and {shown(args.into)} is in {target_tag}")
    if header.source and differ(header.source, source_tag):
        errors.append(f"{place}: its source is in {shown(header.source)}, and {shown(args.source)} is in {source_tag}")
    if errors:
        raise Failure("\n".join([*errors, f"{place}: nothing is written; --force takes the file"]))


def check_units(args: argparse.Namespace, units: list[Unit]) -> None:
    if not units:
        raise Failure(f"{shown(args.file)}:1: it has no string, so it is cut off or of another format; --force takes it as empty")


def check_sources(args: argparse.Namespace, units: list[Unit], result: Result) -> None:
    """Refuses a file that was made of another text, or of this one long ago."""
    limit = args.max_changed if args.max_changed is not None else max(CHANGED_LEAST, len(units) // CHANGED_SHARE)
    count = len(result.source_changed)
    if count > limit:
        first = next(unit.line for unit in units if unit.id == result.source_changed[0])
        raise Failure(f"{shown(args.file)}:{first}: {count} source strings are others now; --max-changed {count} or --force takes the file")


def check_copies(args: argparse.Namespace, taken: Import) -> None:
    """Refuses a file that a tool filled with the sources: what is new in it is mostly no translation."""
    copies, new = taken.result.copies, len(taken.result.set)
    language = "en" if taken.source_language == "und" else taken.source_language
    if len(copies) >= COPIES_LEAST and 2 * len(copies) > new and differ(language, taken.language):
        place = f"{shown(args.file)}:{taken.lines[copies[0]]}"
        raise Failure(f"{place}: {len(copies)} of {new} new translations are their sources; --force takes the file")


def read_document(args: argparse.Namespace, source: Bundle, target: Bundle) -> Document:
    document = FORMATS[args.format].read(args.file, read_file(args.file), os.path.basename(args.source))
    if not args.force:
        check_header(args, document.header, source, target)
        check_units(args, document.units)
    return document


def write_report(args: argparse.Namespace, result: Result, error: Optional[Failure]) -> None:
    """Writes what was done, or why nothing was, as JSON."""
    if args.report is None:
        return
    members = {"file": args.file, "target": args.into, "done": error is None} | vars(result)
    members["errors"] = str(error).split("\n") if error else []
    data = json.dumps(members, ensure_ascii=True, indent=2).encode() + b"\n"
    write_file(None if args.report == "-" else args.report, data)


def merged(taken: Import) -> dict:
    """Returns the target's new tree, and counts what changes."""
    removed, result = taken.removed(), taken.result
    tree = Merge(taken.texts, removed, taken.args.values).item(taken.source.tree, taken.target.tree, ())
    for known_id, known in taken.known.items():
        value = value_at(tree, known.path)
        if known.path in taken.texts and value != taken.texts[known.path]:
            result.left_out.append(known_id)
        elif known.path in taken.texts and value != known.old:
            result.set.append(known_id)
        elif known.path in removed and value is None:
            result.removed.append(known_id)
    for known_id in result.left_out:
        place = f"{shown(taken.args.file)}:{taken.lines[known_id]}: {shown(known_id)}"
        print(f"{place}: warning: not set, as a string of the array before it has no translation", file=sys.stderr)
    return tree


def import_file(args: argparse.Namespace, result_of: list[Result]) -> None:
    out = args.out or args.into
    refuse_over_input(out, [args.source, args.file])
    source, target = read_bundle(args.source), read_bundle(args.into)
    document = read_document(args, source, target)
    taken = Import(args, source, target)
    result_of.append(taken.result)
    taken.read(document.units)
    if not args.force:
        check_sources(args, document.units, taken.result)
    tree = merged(taken)
    if not args.force:
        check_copies(args, taken)
    text = edited(target, tree, source.root).encode("utf-8")
    if text != target.data and tree_of(text, out) != tree:
        raise Failure(f"{shown(out)}:1: the text that was made has another tree; nothing is written", 2)
    if args.out or text != target.data:
        write_file(out, text, target.data if os.path.realpath(out) == os.path.realpath(args.into) else None)


def import_strings(args: argparse.Namespace) -> None:
    results: list[Result] = []
    try:
        import_file(args, results)
    except Failure as failure:
        write_report(args, results[0] if results else Result(), failure)
        raise
    write_report(args, results[0], None)
    print(f"{shown(args.into)}: {results[0].counts()}", file=sys.stderr)
