"""JSON and CSV, by the standard library: both say the line of each unit."""
import csv
import io
import json
import re
from typing import Any, Iterator

from . import states
from .common import SURROGATE, Document, Failure, Languages, Unit, decoded, shown
from .xliff import all_notes

# what a column `fuzzy` has, as translate-toolkit and Weblate write one beside a state
TRUE = ("1", "true", "yes", "x", "fuzzy")


def write_json(units: list[Unit], languages: Languages) -> bytes:
    def listed(unit: Unit) -> str:
        members: dict[str, Any] = {"id": unit.id, "source": unit.source, "target": unit.target}
        members |= {"notes": unit.notes} if unit.notes else {}
        members |= {"inherited": dict(zip(("from", "text"), unit.inherited))} if unit.inherited else {}
        return SURROGATE.sub(lambda found: f"\\u{ord(found[0]):04x}", json.dumps(members, ensure_ascii=False))

    del languages
    return ("[\n" + ",\n".join(map(listed, units)) + "\n]\n").encode()


def read_json(path: str, data: bytes, original: str) -> Document:
    del original
    return Document(list(json_units(path, decoded(path, data))))


def json_units(path: str, text: str) -> Iterator[Unit]:
    """Reads the list element by element, so that each has its line."""

    def members(pairs: list) -> dict:
        if len(dict(pairs)) < len(pairs):
            raise json.JSONDecodeError("a member that is there twice", text, at)
        return dict(pairs)

    blank = re.compile(r"[ \t\r\n]*")
    decoder, at, line, seen = json.JSONDecoder(object_pairs_hook=members, parse_int=float), blank.match(text).end(), 1, 0
    mark = "["
    try:
        while text[at : at + 1] == mark:
            at = blank.match(text, at + 1).end()
            if mark == "[" and text[at : at + 1] == "]":
                break
            line, seen = line + text.count("\n", seen, at), at
            unit, at = decoder.raw_decode(text, at)
            yield json_unit(path, line, unit)
            at, mark = blank.match(text, at).end(), ","
        if text[at : at + 1] != "]" or blank.match(text, at + 1).end() != len(text):
            raise json.JSONDecodeError("expecting a list", text, at)
    except json.JSONDecodeError as error:
        raise Failure(f"{shown(path)}:{error.lineno}: {error.msg}") from None
    except RecursionError:
        raise Failure(f"{shown(path)}:{line}: nested too deep") from None


def json_unit(path: str, line: int, unit: Any) -> Unit:
    read = [unit.get(name) for name in ("id", "source", "target")] if isinstance(unit, dict) else [None]
    state = unit.get("state", "") if isinstance(unit, dict) else ""
    if not isinstance(read[0], str) or not all(isinstance(text, (str, type(None))) for text in [*read[1:], state]):
        raise Failure(f"{shown(path)}:{line}: no object with the id, source and target of a string")
    return Unit(*read, line, state=states.of_word(state or ""), said=state or "")


def write_csv(units: list[Unit], languages: Languages) -> bytes:
    del languages
    text = io.StringIO()
    rows = csv.writer(text, lineterminator="\n", quoting=csv.QUOTE_ALL)
    rows.writerow(("id", "source", "target", "state", "notes"))
    for unit in units:
        state = "inherited" if unit.target is None and unit.inherited else "missing" if unit.target is None else "translated"
        rows.writerow((unit.id, unit.source, unit.target or "", state, "\n".join(all_notes(unit))))
    return text.getvalue().encode()


def read_csv(path: str, data: bytes, original: str) -> Document:
    del original
    return Document(list(csv_units(path, decoded(path, data))))


def delimiter_of(head: str) -> str:
    """Returns what separates the columns of a first line: spreadsheets of some countries write semicolons or tabs."""
    names = {sign: [name.strip('"') for name in head.split(sign)] for sign in ",;\t"}
    return next((sign for sign, columns in names.items() if {"id", "target"} <= set(columns)), ",")


def csv_units(path: str, text: str) -> Iterator[Unit]:
    csv.field_size_limit(2**31 - 1)
    separator = delimiter_of(text[:1000].partition("\n")[0].rstrip("\r"))
    rows, line = csv.reader(io.StringIO(text, newline=""), strict=True, delimiter=separator), 1
    try:
        names = next(rows, [])
        if len(set(names)) < len(names) or not {"id", "target"} <= set(names):
            raise Failure(f"{shown(path)}:1: no columns id and target, each once")
        line = rows.line_num + 1
        for row in rows:
            if any(row) and len(row) != len(names):
                raise Failure(f"{shown(path)}:{line}: {len(row)} cells in a table of {len(names)} columns")
            if any(row):
                yield csv_unit(dict(zip(names, row)), line)
            line = rows.line_num + 1
    except csv.Error as error:
        raise Failure(f"{shown(path)}:{line}: {error}") from None


def csv_unit(cells: dict[str, str], line: int) -> Unit:
    said = cells.get("state", "") or ("fuzzy" if cells.get("fuzzy", "").strip().casefold() in TRUE else "")
    target = cells["target"] if cells["target"] or said.strip().casefold() in states.FINISHED else None
    return Unit(cells["id"], cells.get("source"), target, line, state=states.of_word(said), said=said)
