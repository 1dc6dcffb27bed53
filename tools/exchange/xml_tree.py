"""Reads and writes XML over expat, in linear time and with the line of each element.

A document type is refused, since it could name entities and files, and so is what only a hostile file has: very many attributes of one
element, and very deep elements."""
import re
from dataclasses import dataclass, field
from typing import Iterator, Optional
from xml.parsers import expat

from .common import Failure, decoded, shown

ATTRIBUTE_LIMIT, DEPTH_LIMIT = 100, 100
SPACE_KEPT = {"xml:space": "preserve"}
XML_NAMESPACE = "http://www.w3.org/XML/1998/namespace"
IN_TEXT = {"&": "&amp;", "<": "&lt;", ">": "&gt;", "\r": "&#13;"}
IN_ATTRIBUTE = {**IN_TEXT, '"': "&quot;", "\n": "&#10;", "\t": "&#9;"}


@dataclass
class Element:
    """An element; `name` has no namespace, `tail` is the text after it, and `comments` are in front of it."""

    name: str
    attributes: dict[str, str]
    namespace: str = ""
    line: int = 0
    children: list["Element"] = field(default_factory=list)
    text: str = ""
    tail: str = ""
    comments: list[str] = field(default_factory=list)

    def add(self, name: str, /, **attributes: str) -> "Element":
        self.children.append(Element(name, attributes, self.namespace))
        return self.children[-1]

    def add_text(self, text: str) -> None:
        if self.children:
            self.children[-1].tail += text
        else:
            self.text += text

    def get(self, name: str, otherwise: str = "") -> str:
        return self.attributes.get(name, otherwise)

    def find(self, name: str) -> Optional["Element"]:
        return next((one for one in self.children if one.name == name and one.namespace == self.namespace), None)

    def walk(self) -> Iterator["Element"]:
        """Yields the elements of the same namespace, from this one on."""
        waiting = [self]
        while waiting:
            element = waiting.pop()
            if element.namespace == self.namespace:
                yield element
            waiting.extend(reversed(element.children))


class Reader:
    """Builds the elements of a document."""

    def __init__(self, path: str):
        self.path, self.open = path, [Element("", {})]
        self.pieces: list[str] = []
        self.comments: list[str] = []
        self.parser = expat.ParserCreate(namespace_separator=" ")
        self.parser.buffer_text = True
        self.parser.StartElementHandler, self.parser.EndElementHandler = self.start, self.end
        self.parser.CharacterDataHandler, self.parser.CommentHandler = self.pieces.append, self.comments.append
        self.parser.StartDoctypeDeclHandler, self.parser.XmlDeclHandler = self.doctype, self.declaration

    def refuse(self, what: str) -> None:
        raise Failure(f"{shown(self.path)}:{self.parser.CurrentLineNumber}: {what}")

    def doctype(self, *_: object) -> None:
        self.refuse("a document type")

    def declaration(self, _version: str, encoding: Optional[str], _standalone: int) -> None:
        if (encoding or "UTF-8").upper() not in ("UTF-8", "UTF8", "US-ASCII", "ASCII"):
            self.refuse(f"the encoding {shown(str(encoding))}, and not UTF-8")

    def flush(self) -> None:
        """Puts the text that was read after the last child, or into the open element."""
        text = "".join(self.pieces)
        self.pieces.clear()
        if self.open[-1].children:
            self.open[-1].children[-1].tail = text
        else:
            self.open[-1].text = text

    def start(self, tag: str, attributes: dict[str, str]) -> None:
        if len(attributes) > ATTRIBUTE_LIMIT:
            self.refuse(f"an element of more than {ATTRIBUTE_LIMIT} attributes")
        if len(self.open) > DEPTH_LIMIT:
            self.refuse(f"more than {DEPTH_LIMIT} elements one inside of the other")
        self.flush()
        namespace, _, name = tag.rpartition(" ")
        attributes = {key.replace(XML_NAMESPACE + " ", "xml:"): value for key, value in attributes.items()}
        element = Element(name, attributes, namespace, self.parser.CurrentLineNumber, comments=self.comments[:])
        self.comments.clear()
        self.open[-1].children.append(element)
        self.open.append(element)

    def end(self, _tag: str) -> None:
        self.flush()
        self.comments.clear()
        self.open.pop()


def read_xml(path: str, data: bytes) -> Element:
    """Returns the root of a document in UTF-8."""
    decoded(path, data)
    reader = Reader(path)
    try:
        reader.parser.Parse(data, True)
    except expat.ExpatError as error:
        raise Failure(f"{shown(path)}:{error.lineno}: {expat.ErrorString(error.code)}") from None
    return reader.open[0].children[0]


def escaped(text: str, letters: dict[str, str]) -> str:
    return re.sub("[" + "".join(letters) + "]", lambda found: letters[found[0]], text)


def lay_out(element: Element, level: int, mixed: tuple[str, ...]) -> None:
    """Puts children in separate lines, down to the elements that have texts."""
    if element.children and element.name not in mixed:
        element.text = "\n" + "  " * (level + 1)
        for child in element.children:
            lay_out(child, level + 1, mixed)
            child.tail = element.text
        element.children[-1].tail = "\n" + "  " * level


def put(element: Element, parts: list[str]) -> None:
    parts += [f"<!-- {comment.replace('--', '- -')} -->\n  " for comment in element.comments]
    attributes = "".join(f' {name}="{escaped(value, IN_ATTRIBUTE)}"' for name, value in element.attributes.items())
    if element.children or element.text:
        parts += [f"<{element.name}{attributes}>", escaped(element.text, IN_TEXT)]
        for child in element.children:
            put(child, parts)
        parts.append(f"</{element.name}>")
    else:
        parts.append(f"<{element.name}{attributes}/>")
    parts.append(escaped(element.tail, IN_TEXT))


def xml_bytes(root: Element, mixed: tuple[str, ...], quote: str = "'") -> bytes:
    """Returns a document; the elements named by `mixed` have texts, whose white space counts."""
    lay_out(root, 0, mixed)
    parts = [f"<?xml version={quote}1.0{quote} encoding={quote}UTF-8{quote}?>\n"]
    put(root, parts)
    return "".join([*parts, "\n"]).encode()
