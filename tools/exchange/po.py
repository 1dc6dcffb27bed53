"""PO, by polib: it says the line of each entry, which translate-toolkit's reader doesn't."""
import re
import tempfile

from . import states
from .common import LINE_END, Document, Failure, Header, Languages, Unit, decoded, shown
from .xliff import all_notes

try:
    import polib
except ImportError:
    polib = None

# a line that begins as one with a string; all of it matches if the string is well-formed
STRING = re.compile(r'\s*(?:#~\s*)?(?:msg\w*(?:\[\d+\])?\s*|(?="))(?:"(?:[^"\\]|\\.)*"\s*)?')
# escapes of bytes, which msgcat --escape writes, and which polib leaves as they are
CODE = re.compile(r'(?:[^\\]|\\[^0-7x])*\\[0-7x]')
# escapes that polib leaves as they are
CONTROL, CONTROLS = re.compile(r"\\(.)"), {"a": "\a", "b": "\b", "f": "\f", "v": "\v"}
# a comment without a blank after its mark, which gettext reads and polib refuses
COMMENT = re.compile(r"(\s*#(?:~\||[,.:|~])?)(?=[^\s,.:|~])")
# a line that continues a string, also of an obsolete entry or a former source
CONTINUED = re.compile(r'\s*(#~\s*\||#~|#\||)\s*"((?:[^"\\]|\\.)*)"\s*')


def write_po(units: list[Unit], languages: Languages) -> bytes:
    file = polib.POFile(wrapwidth=0)
    file.metadata = {
        "Project-Id-Version": languages.original,
        "Language": languages.target.replace("-", "_"),
        "MIME-Version": "1.0",
        "Content-Type": "text/plain; charset=UTF-8",
        "Content-Transfer-Encoding": "8bit",
        "X-Source-Language": languages.source.replace("-", "_"),
        "X-Original": languages.original,
    }
    for unit in units:
        notes = "\n".join(" ".join(re.split("[^\t -\U0010ffff]", line)) for note in all_notes(unit) for line in note.splitlines())
        place = [(languages.original.replace(" ", "_"), str(unit.line))]
        file.append(polib.POEntry(msgctxt=unit.id, msgid=unit.source, msgstr=unit.target or "", comment=notes, occurrences=place))
    return f"{file}\n".encode()


def check_lines(path: str, text: str) -> None:
    """Refuses another encoding, and strings with open quotes: polib takes the first and the last character for quotes."""
    found = re.search(r"charset=([\w.:-]+)", text[: text.find("\n\n")])
    if found and found[1].upper() not in ("UTF-8", "UTF8", "ASCII", "US-ASCII"):
        raise Failure(f"{shown(path)}:{text.count(chr(10), 0, found.start()) + 1}: the encoding {found[1]}, and not UTF-8")
    for line, row in enumerate(LINE_END.split(text), 1):
        if STRING.match(row) and not STRING.fullmatch(row):
            raise Failure(f"{shown(path)}:{line}: Syntax error")
        if STRING.match(row) and "\\" in row and CODE.match(row):
            raise Failure(f"{shown(path)}:{line}: an escape of a byte; msgcat without --escape writes its character")


def plain_row(row: str) -> str:
    """Returns a line as polib reads it: with its control characters, and a blank after the mark of a comment."""
    if STRING.match(row):
        row = CONTROL.sub(lambda found: CONTROLS.get(found[1], found[0]), row) if "\\" in row else row
    return COMMENT.sub(r"\1 ", row, count=1) if COMMENT.match(row) else row


def joined(text: str) -> str:
    """Returns a catalogue whose strings continue over one line at most: polib takes quadratic time for many. Lines keep their numbers.
    Its control characters aren't escapes."""
    rows, parts, first = list(map(plain_row, LINE_END.split(text))), [], 0
    for number, row in enumerate([*rows, ""]):
        found = CONTINUED.fullmatch(row)
        if found and parts and found[1] == parts[0]:
            parts.append(found[2])
            rows[number] = ""
            continue
        if len(parts) > 2:
            rows[first] = f'{parts[0]} "{"".join(parts[1:])}"'
        parts, first = [found[1], found[2]] if found else [], number
    return "\n".join(rows)


def entries_of(path: str, data: bytes) -> "polib.POFile":
    """Reads the entries of a catalogue."""
    text = decoded(path, data)
    check_lines(path, text)
    try:
        with tempfile.NamedTemporaryFile(suffix=".po") as copy:
            # polib forgets the last entry before a last line that is an empty comment of another kind
            copy.write(joined(text).encode() + b"\n#\n")
            copy.flush()
            return polib.pofile(copy.name, encoding="utf-8")
    except (OSError, ValueError, IndexError) as error:
        line = re.search(r"line (\d+)", str(error))
        raise Failure(f"{shown(path)}:{line[1] if line else 1}: {str(error).split(': ')[-1].split(' in po file')[0]}") from None


def read_po(path: str, data: bytes, original: str) -> Document:
    del original
    file = entries_of(path, data)
    names = {name.casefold(): value.strip() for name, value in file.metadata.items()}
    header = Header(1, names.get("x-original", ""), names.get("x-source-language", ""), names.get("language", ""))
    return Document([unit_of(entry) for entry in file], header)


def unit_of(entry: "polib.POEntry") -> Unit:
    text = entry.msgstr or None
    state = states.OBSOLETE if entry.obsolete else states.PLURAL if entry.msgid_plural else states.FUZZY if entry.fuzzy else ""
    if state == states.PLURAL:
        text = "\n".join(entry.msgstr_plural.values()) or None
    return Unit(entry.msgctxt or "", entry.msgid, text, entry.linenum or 1, state=state, said=state)
