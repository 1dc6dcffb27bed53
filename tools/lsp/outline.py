"""Answers requests about the shape of texts: symbols and foldings."""

from __future__ import annotations

from .scanner import Items
from .text import Text
from .workspace import Check, Document, Workspace, uri_of

SYMBOLS = {"table": 19, "array": 18, "string": 15, "int": 16, "intvector": 18, "alias": 13, "bin": 14}
MOST_SYMBOLS = 300


def named_items(items: Items) -> list[int]:
    """Returns the items of tables, but not the bundle."""
    return [item for item in range(1, len(items.keys)) if items.kinds[items.parents[item]] != "array"]


def document_symbols(document: Document) -> list[dict]:
    """Returns the outline of a text: the bundle, with the items of tables below each other."""
    items, text = document.items(), document.text
    if not items.keys:
        return []
    made = {}
    for item in [0, *named_items(items)]:
        symbol = {
            "name": items.keys[item] or " ",
            "kind": SYMBOLS.get(items.kinds[item], 13) if item else 3,
            "detail": items.kinds[item],
            "range": text.range(items.starts[item], items.closes[item]),
            "selectionRange": text.range(items.starts[item], items.ends[item]),
            "children": [],
        }
        made[item] = symbol
        parent = items.parents[item]
        if parent in made:
            made[parent]["children"].append(symbol)
    return [made[0]]


def workspace_symbols(workspace: Workspace, query: str, check: Check) -> list[dict]:
    """Returns the keys of the roots and the open texts whose paths have a text in them, in any case."""
    open_paths = [document.path for document in workspace.documents.values() if workspace.is_served(document)]
    found: list[dict] = []
    for path in dict.fromkeys([*workspace.roots(), *(path for path in open_paths if path)]):
        check()
        items = workspace.items(path)
        text = None
        for item in named_items(items):
            name = "/".join(items.path(item))
            if query.casefold() in name.casefold():
                text = text or workspace.content(path)
                found.append(symbol_of(path, name, items, item, text))
            if len(found) >= MOST_SYMBOLS:
                return found
    return found


def symbol_of(path: str, name: str, items: Items, item: int, text: Text) -> dict:
    place = {"uri": uri_of(path), "range": text.range(items.starts[item], items.ends[item])}
    return {"name": name, "kind": SYMBOLS.get(items.kinds[item], 13), "location": place, "containerName": items.keys[0]}


def foldings(document: Document) -> list[dict]:
    """Returns the bodies that span lines; the line of a closing brace stays."""
    items, text = document.items(), document.text
    found = []
    for item in range(len(items.keys)):
        start = text.position(items.opens[item])["line"]
        end = text.position(items.closes[item])["line"] - 1
        if end > start:
            found.append({"startLine": start, "endLine": end})
    return found
