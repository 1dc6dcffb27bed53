"""`export`: writes the strings of a source beside those of a target."""
import argparse
import os
from typing import Optional

from .common import Failure, Languages, Path, Unit, id_of, printable, refuse_over_input, shown, write_file
from .formats import FORMATS
from .languages import tag_of
from .merge import strings, value_at
from .texts import Bundle, Node, read_bundle

# so that what is written is at most a multiple of what is read: the characters of an id, of all ids, and of a string's notes
ID_LIMIT, IDS_LIMIT, NOTES_LIMIT = 1_000, 1 << 26, 4_000


def found_in(bundles: list[Bundle], path: Path) -> Optional[tuple[str, str]]:
    """Returns the string that is inherited from the first bundle that has an item at a path, with the bundle's name."""
    for bundle in bundles:
        item = value_at(bundle.tree, path)
        if item is not None or bundle.no_fallback:
            return (bundle.name, item) if isinstance(item, str) else None
    return None


def notes_of(node: Node, parent: Node, is_first: bool) -> list[str]:
    """Returns the comments of a string. Those of an array go with its first string only."""
    notes, size = [], 0
    for note in [*(parent.comments if is_first else ()), *node.comments]:
        size += len(note)
        if size > NOTES_LIMIT:
            notes.append("..")
            break
        notes.append(note)
    return notes


def units_of(source: Bundle, target: Bundle, bases: list[Bundle]) -> list[Unit]:
    """Returns the strings to translate, in the order of the source's text."""
    found: list[tuple[int, Unit]] = []
    seen: set[Path] = set()
    for path, text, translated in strings(source.tree, target.tree):
        parent = source.node(path[:-1])
        node = parent.children[path[-1]]
        is_first = path[:-1] not in seen and isinstance(value_at(source.tree, path[:-1]), list)
        seen |= {path[:-1]} if is_first else set()
        inherited = found_in(bases, path) if translated is None and not target.no_fallback else None
        found.append((node.start, Unit(id_of(path), text, translated, node.line, notes_of(node, parent, is_first), inherited)))
    return [unit for _, unit in sorted(found, key=lambda one: one[0])]


def check(args: argparse.Namespace, units: list[Unit]) -> None:
    """Refuses strings that the format can't have, and ids that would make a large file of a small text."""
    chosen, size, errors = FORMATS[args.format], 0, []
    for unit in units:
        place = f"{shown(args.source)}:{unit.line}"
        size += len(unit.id)
        if len(unit.id) > ID_LIMIT:
            errors.append(f"{place}: {unit.id[:40]}..: an id of more than {ID_LIMIT} characters")
        elif what := chosen.refused(unit):
            errors.append(f"{place}: {unit.id}: {args.format} can't have {what}")
        if size > IDS_LIMIT:
            raise Failure(f"{place}: the ids up to here have more than {IDS_LIMIT} characters")
    if errors:
        raise Failure("\n".join(errors))


def languages_of(args: argparse.Namespace, source: Bundle, target: Bundle) -> Languages:
    original = printable(os.path.basename(args.source))
    return Languages(original, args.source_language or tag_of(source.name), args.target_language or tag_of(target.name))


def export(args: argparse.Namespace) -> None:
    refuse_over_input(args.out, [args.source, args.target, *args.base])
    source, target, bases = read_bundle(args.source), read_bundle(args.target), list(map(read_bundle, args.base))
    units = units_of(source, target, bases)
    check(args, units)
    write_file(args.out, FORMATS[args.format].write(units, languages_of(args, source, target)))
