"""XLIFF 1.2 and 2: arguments are inline codes, states say what is finished."""
from typing import Callable, Iterator, Optional

from . import states
from .common import NOT_XML, Document, Failure, Header, Languages, Unit, printable, shown
from .messages import pieces
from .xml_tree import SPACE_KEPT, Element, read_xml, xml_bytes

XLIFF1, XLIFF2 = "urn:oasis:names:tc:xliff:document:1.2", "urn:oasis:names:tc:xliff:document:2.0"
MIXED = ("source", "target", "note", "data", "ph")


def all_notes(unit: Unit) -> list[str]:
    inherited = [f"inherited from {unit.inherited[0]}: {unit.inherited[1]}"] if unit.inherited else []
    return [printable(note) for note in [*unit.notes, *inherited]]


def fill(
    element: Element, text: str, codes: list[str], code: Callable[[Element, str, str], None], control: Callable[[Element, str], None]
) -> None:
    """Writes a text into an element, its arguments as inline codes, numbered by their places in the source, and the characters that
    XML can't have by `control`."""
    free: dict[str, list[int]] = {}
    for number in range(len(codes), 0, -1):
        free.setdefault(codes[number - 1], []).append(number)
    written = 0
    for is_code, piece in pieces(text):
        if is_code:
            code(element, str(free[piece].pop() if free.get(piece) else len(codes) + written + 1), piece)
            written += 1
            continue
        at = 0
        for found in NOT_XML.finditer(piece):
            element.add_text(piece[at : found.start()])
            control(element, found[0])
            at = found.end()
        element.add_text(piece[at:])


def codes_of(text: Optional[str]) -> list[str]:
    return [piece for is_code, piece in pieces(text or "") if is_code]


def write_xliff1(units: list[Unit], languages: Languages) -> bytes:
    def code(element: Element, number: str, piece: str) -> None:
        element.add("ph", id=number).add_text(piece)

    root = Element("xliff", {"xmlns": XLIFF1, "version": "1.2"})
    named = {"original": languages.original, "source-language": languages.source, "target-language": languages.target}
    body = root.add("file", datatype="x-icu-resource-bundle", **named).add("body")
    for unit in units:
        element, codes = body.add("trans-unit", id=unit.id, resname=unit.id, **SPACE_KEPT), codes_of(unit.source)
        fill(element.add("source"), unit.source or "", codes, code, Element.add_text)
        if unit.target is not None:
            fill(element.add("target", state="translated"), unit.target, codes, code, Element.add_text)
        for note in all_notes(unit):
            element.add("note").add_text(note)
    return xml_bytes(root, MIXED)


def write_xliff2(units: list[Unit], languages: Languages) -> bytes:
    def control(element: Element, character: str) -> None:
        element.add("cp", hex=f"{ord(character):04X}")

    root = Element("xliff", {"xmlns": XLIFF2, "version": "2.0", "srcLang": languages.source, "trgLang": languages.target})
    file = root.add("file", id="f1", original=languages.original)
    for count, unit in enumerate(units, 1):
        element, codes, data = file.add("unit", id=f"u{count}", name=unit.id, **SPACE_KEPT), codes_of(unit.source), {}

        def code(parent: Element, number: str, piece: str, data: dict[str, str] = data) -> None:
            parent.add("ph", id=number, dataRef=data.setdefault(piece, f"d{len(data) + 1}"))

        notes, originals = element.add("notes"), element.add("originalData")
        segment = element.add("segment", state="initial" if unit.target is None else "translated")
        fill(segment.add("source"), unit.source or "", codes, code, control)
        if unit.target is not None:
            fill(segment.add("target"), unit.target, codes, code, control)
        for piece, name in data.items():
            originals.add("data", id=name).add_text(piece)
        for note in all_notes(unit):
            notes.add("note").add_text(note)
        element.children = [part for part in element.children if part.children]
    return xml_bytes(root, MIXED)


def root_of(path: str, data: bytes, namespace: str) -> Element:
    root = read_xml(path, data)
    if (root.namespace, root.name) != (namespace, "xliff"):
        raise Failure(f"{shown(path)}:{root.line}: no {{{namespace}}}xliff")
    return root


def content(path: str, element: Element, text_of: dict[str, Callable[[Element], str]]) -> str:
    """Returns the text of an element whose inline elements have texts by their names."""
    parts = [element.text]
    for child in element.children:
        if child.name not in text_of:
            raise Failure(f"{shown(path)}:{child.line}: the inline element {shown(child.name)} isn't known")
        parts += [text_of[child.name](child), child.tail]
    return "".join(parts)


def original_of(file: Element) -> str:
    """Returns the name of the file that was exported; tools put folders in front of it."""
    return file.get("original").replace("\\", "/").rpartition("/")[2]


def files_of(root: Element, original: str) -> list[Element]:
    """Returns the parts of a file that are of an original; all of them if none is, so that a name which is another one is seen."""
    files = [one for one in root.children if one.name == "file" and one.namespace == root.namespace]
    return [one for one in files if original_of(one) in ("", original)] or files


def units_in(element: Element, name: str, is_kept: bool = False) -> Iterator[tuple[Element, bool]]:
    """Yields the units in an element, and whether they or a group around them say that they aren't translated."""
    for child in element.children:
        if child.namespace != element.namespace:
            continue
        kept = child.get("translate", "no" if is_kept else "yes") == "no"
        if child.name == name:
            yield child, kept
        elif child.name in ("group", "body"):
            yield from units_in(child, name, kept)


def read_xliff1(path: str, data: bytes, original: str) -> Document:
    root, units, header = root_of(path, data, XLIFF1), [], Header()
    for file in files_of(root, original):
        header = Header(file.line, original_of(file), file.get("source-language"), file.get("target-language"))
        units += [xliff1_unit(path, unit, kept) for unit, kept in units_in(file, "trans-unit")]
    return Document(units, header)


def xliff1_unit(path: str, unit: Element, kept: bool) -> Unit:
    def inner(element: Element) -> str:
        return content(path, element, texts)

    texts = {**dict.fromkeys(("ph", "it", "bpt", "ept", "g", "mrk", "sub"), inner), "x": lambda element: element.get("equiv-text")}
    source, target = unit.find("source"), unit.find("target")
    text, state, said = None, "", ""
    if target is not None:
        text = inner(target)
        of_tool = next((value for name, value in unit.attributes.items() if name.endswith((" status", " conf"))), "")
        state, said = states.of_xliff1(target.get("state"), target.get("state-qualifier"), unit.get("approved"), of_tool)
        if text == "" and said not in states.FINISHED:
            text = None
    if kept and text is not None:
        state, said = states.KEPT, "translate=no"
    language = target.get("xml:lang") if target else ""
    return Unit(unit.get("id"), None if source is None else inner(source), text, unit.line, state=state, said=said, language=language)


def read_xliff2(path: str, data: bytes, original: str) -> Document:
    root, units, header = root_of(path, data, XLIFF2), [], Header()
    for file in files_of(root, original):
        header = Header(file.line, original_of(file), root.get("srcLang"), root.get("trgLang"))
        are_used = any(one.name == "segment" and "state" in one.attributes for one in file.walk())
        units += [xliff2_unit(path, unit, kept, are_used) for unit, kept in units_in(file, "unit", file.get("translate") == "no")]
    return Document(units, header)


def xliff2_unit(path: str, unit: Element, kept: bool, are_used: bool) -> Unit:
    parts = [part for part in unit.children if part.name in ("segment", "ignorable") and part.namespace == unit.namespace]
    segments = [part for part in parts if part.name == "segment"]
    text = xliff2_text(path, unit, parts, "target")
    found = [states.of_segment(one.get("state"), one.get("subState"), are_used) for one in segments]
    state, said = next((one for one in found if one[0]), ("", ""))
    if text == "" and not any(one.get("state") in states.FINISHED for one in segments):
        text = None
    if kept and text is not None:
        state, said = states.KEPT, "translate=no"
    targets = filter(None, (part.find("target") for part in segments))
    language = next((one.get("xml:lang") for one in targets if one.get("xml:lang")), "")
    return Unit(unit.get("name"), xliff2_text(path, unit, parts, "source"), text, unit.line, state=state, said=said, language=language)


def xliff2_text(path: str, unit: Element, parts: list[Element], name: str) -> Optional[str]:
    """Joins the sources or targets of a unit's segments; what is between segments may have a source only."""

    def original(attribute: str, otherwise: str) -> Callable[[Element], str]:
        return lambda element: data.get(element.get(attribute), element.get(otherwise))

    def pair(element: Element) -> str:
        return original("dataRefStart", "dispStart")(element) + inner(element) + original("dataRefEnd", "dispEnd")(element)

    def inner(element: Element) -> str:
        return content(path, element, texts)

    texts: dict[str, Callable[[Element], str]] = {"cp": character, "mrk": inner, "pc": pair, "sm": lambda _: "", "em": lambda _: ""}
    texts |= dict.fromkeys(("ph", "sc", "ec"), original("dataRef", "disp"))
    originals = [one for part in unit.children if part.name == "originalData" for one in part.children]
    data = {one.get("id"): content(path, one, {"cp": character}) for one in originals}
    found = []
    for number, part in enumerate(parts, 1):
        element = part.find(name)
        if element is None and part.name == "ignorable":
            element = part.find("source")
        if element is None:
            return None
        order = element.get("order") if name == "target" else ""
        found.append((int(order) if order.isdecimal() and len(order) < 6 else number, inner(element)))
    return "".join(text for _, text in sorted(found, key=lambda one: one[0])) if found else None


def character(element: Element) -> str:
    """Returns the character of a `cp`."""
    code = element.get("hex")
    return chr(int(code, 16)) if 4 <= len(code) <= 6 and code.isalnum() and code.isascii() and is_hex(code) else ""


def is_hex(code: str) -> bool:
    return all(digit in "0123456789abcdefABCDEF" for digit in code) and int(code, 16) < 0x110000
