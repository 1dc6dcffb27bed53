"""Completes keys, types, locales, and arguments and plural categories of messages."""

from __future__ import annotations

import re
from typing import NamedTuple, Optional

from . import messages
from .navigate import message_source, short, source_of
from .scanner import QUOTED, SPACE, TOKEN, TYPES, Items, key_source, scan
from .workspace import Document, Workspace

KEY, TYPE, LOCALE, ARGUMENT, CATEGORY = 5, 25, 18, 6, 20  # kinds of the protocol
IN_TYPE = re.compile(r":[ \t]*(\w*)\Z")
IN_PARENT = re.compile(r'%%(?:Parent|ALIAS)\s*(?::\s*string\s*)?\{\s*"?([\w-]*)\Z')
IN_SELECTOR = re.compile(r"\{\s*(\w+)\s*,\s*(plural|selectordinal)\s*,(?:[^{}]|\{[^{}]*\})*?(\w*)\Z")
IN_ARGUMENT = re.compile(r"\{(\w*)\Z")
WORD = re.compile(rf'[^"{{}},:\\/{SPACE}]*\Z')


class Place(NamedTuple):
    """The place of a completion: the line up to there, the token, and the offsets of both."""

    offset: int
    before: str
    in_quotes: bool
    token_start: int


def place_of(document: Document, position: dict) -> Place:
    text, offset = document.text.content, document.text.offset(position)
    start, in_quotes = offset, False
    for found in TOKEN.finditer(text):
        which = found.lastindex
        if not which or found.start(which) >= offset:
            break
        if found.end() >= offset:
            start = found.start(which)
            in_quotes = which == QUOTED and not (found.end() == offset and found[QUOTED].endswith('"') and offset - start > 1)
    return Place(offset, text[max(0, offset - 200) : offset], in_quotes, start)


def entry(document: Document, place: Place, word: str, label: str, kind: int, new: str, **more: str) -> dict:
    span = document.text.range(place.offset - len(word), place.offset)
    return {"label": label, "kind": kind, "textEdit": {"range": span, "newText": new}, **more}


def completions(workspace: Workspace, document: Document, position: dict) -> list[dict]:
    place = place_of(document, position)
    if found := IN_PARENT.search(place.before):
        module = workspace.module_of(document.path)
        names = sorted(set(module.files if module else ()) - {document.locale})
        return [entry(document, place, found[1], name, LOCALE, name) for name in names]
    if place.in_quotes:
        return in_message(workspace, document, place)
    if found := IN_TYPE.search(place.before):
        return [entry(document, place, found[1], name, TYPE, name) for name in TYPES]
    return keys(workspace, document, place)


def keys(workspace: Workspace, document: Document, place: Place) -> list[dict]:
    """Offers the keys that the root has in the table at the place, and this text lacks."""
    module = workspace.module_of(document.path)
    if not module or not module.root or module.root == document.path:
        return []
    word = WORD.search(place.before)[0]
    start = place.offset - len(word)
    text = document.text.content
    # the word as the key of an entry shows which table it is in, while the text doesn't compile
    items = scan(f"{text[:start]} _{{}} {text[place.offset:]}")
    item = items.at(start + 1)
    if item is None or item == 0 or items.starts[item] != start + 1:
        return []
    parent = items.parents[item]
    if items.kinds[parent] != "table":
        return []
    root = workspace.items(module.root)
    there = root.find(items.path(parent))
    if there is None:
        return []
    own = {items.keys[child] for child in items.children(parent)}
    root_text = workspace.content(module.root).content
    return [
        key_entry(document, place, word, root, child, root_text)
        for child in root.children(there)
        if root.keys[child] not in own and not root.keys[child].startswith("%%")
    ]


def key_entry(document: Document, place: Place, word: str, root: Items, child: int, root_text: str) -> dict:
    key, kind = root.keys[child], root.kinds[child]
    typed = ":" + kind if kind in ("int", "intvector", "bin", "alias") else ""
    body = ' { "" }' if kind == "string" else " {}"
    detail = short(source_of(root_text, root, child))
    return entry(document, place, word, key, KEY, key_source(key) + typed + body, detail=kind, documentation=detail)


def in_message(workspace: Workspace, document: Document, place: Place) -> list[dict]:
    """Offers the arguments that the root's message has, and the plural categories of the language."""
    if found := IN_SELECTOR.search(place.before):
        samples = messages.numbers(document.locale, found[2])
        names = {name: f"such as {sample}" for name, sample in samples.items()} or {"other": "all numbers"}
        return [entry(document, place, found[3], name, CATEGORY, f"{name} {{}}", detail=said) for name, said in names.items()]
    if not (found := IN_ARGUMENT.search(place.before)):
        return []
    names = root_arguments(workspace, document, place.token_start)
    return [entry(document, place, found[1], name, ARGUMENT, name) for name in names]


def root_arguments(workspace: Workspace, document: Document, offset: int) -> list[str]:
    """Returns the names of the arguments that the message at an offset has in the root, or else here."""
    items = document.items()
    item = items.at(offset)
    module = workspace.module_of(document.path)
    if item is None:
        return []
    found: Optional[tuple[int, str]] = None
    if module and module.root:
        root = workspace.items(module.root)
        there = root.find(items.path(item))
        found = message_source(workspace.content(module.root).content, root, there) if there is not None else None
    found = found or message_source(document.text.content, items, item)
    return list(dict.fromkeys(it.name for it in messages.arguments(messages.parse(found[1] if found else "")) if it.name))
