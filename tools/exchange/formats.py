"""The formats: each has a function that writes units, one that reads them, and what its texts can't have."""
import re
from dataclasses import dataclass
from typing import Callable, Optional

from . import po
from .common import NOT_XML, Document, Languages, Unit
from .listing import read_csv, read_json, write_csv, write_json
from .po import read_po, write_po
from .properties import read_properties, write_properties
from .xliff import read_xliff1, read_xliff2, write_xliff1, write_xliff2

NOT_PO = re.compile("[\0-\x08\x0b-\x1f\ud800-\udfff]")
NOT_CSV = re.compile("[\0\ud800-\udfff]")


def cannot_have(pattern: re.Pattern, unit: Unit) -> Optional[str]:
    found = pattern.search((unit.source or "") + (unit.target or ""))
    return f"U+{ord(found[0]):04X}" if found else None


def not_in_po(unit: Unit) -> Optional[str]:
    return "an empty string" if "" in (unit.source, unit.target) else cannot_have(NOT_PO, unit)


def nothing_refused(unit: Unit) -> Optional[str]:
    """A format that can have all strings: as escapes, or the source only as a comment."""
    del unit


@dataclass(frozen=True)
class Format:
    write: Callable[[list[Unit], Languages], bytes]
    read: Callable[[str, bytes, str], Document]
    refused: Callable[[Unit], Optional[str]]
    package: str = ""
    is_there: bool = True


FORMATS = {
    "xliff1": Format(write_xliff1, read_xliff1, lambda unit: cannot_have(NOT_XML, unit)),
    "xliff2": Format(write_xliff2, read_xliff2, nothing_refused),
    "po": Format(write_po, read_po, not_in_po, "python3-polib", po.polib is not None),
    "properties": Format(write_properties, read_properties, nothing_refused),
    "json": Format(write_json, read_json, nothing_refused),
    "csv": Format(write_csv, read_csv, lambda unit: cannot_have(NOT_CSV, unit)),
}
