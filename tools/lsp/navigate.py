"""Answers requests that lead from one text to others: hover, definition, references, rename."""

from __future__ import annotations

from typing import Iterator, NamedTuple, Optional

from . import messages
from .protocol import BAD_PARAMETERS, FAILED, Failure
from .scanner import BARE, QUOTED, TOKEN, Items, key_source, text_value
from .text import Text
from .workspace import Check, Document, Path, Workspace, uri_of

MOST_SHOWN = 300


class Spot(NamedTuple):
    """The item at a position, and whether the position is on its key."""

    item: int
    path: Path
    on_key: bool


def spot_at(document: Document, position: dict) -> Optional[Spot]:
    items, offset = document.items(), document.text.offset(position)
    item = items.at(offset)
    if item is None or item == 0:
        return None
    return Spot(item, items.path(item), items.starts[item] <= offset <= items.ends[item])


def source_of(text: str, items: Items, item: int) -> str:
    """Returns the body of an item, without its braces if it is one text."""
    source = text[items.opens[item] : items.closes[item]]
    if source.startswith("{") and items.kinds[item] not in ("table", "array"):
        source = source[1:].removesuffix("}").strip()
    return source


def short(source: str) -> str:
    line = " ".join(source.split())
    return line if len(line) <= MOST_SHOWN else line[:MOST_SHOWN] + " .."


def code(text: str) -> str:
    """Writes a text as code of Markdown, whatever backquotes it has."""
    fence = "`"
    while fence in text:
        fence += "`"
    return f"{fence} {text} {fence}" if "`" in text else f"`{text}`"


def message_source(text: str, items: Items, item: int) -> Optional[tuple[int, str]]:
    """Returns where the text between the quotes of a string begins, and the text, if the string is one quoted piece."""
    if items.kinds[item] != "string":
        return None
    start = items.opens[item] + (text[items.opens[item]] == "{")
    pieces = [found for found in TOKEN.finditer(text, start, items.closes[item]) if found.lastindex in (QUOTED, BARE)]
    if len(pieces) != 1 or pieces[0].lastindex != QUOTED:
        return None
    return pieces[0].start(QUOTED) + 1, pieces[0][QUOTED][1:].removesuffix('"')


def hover(workspace: Workspace, document: Document, position: dict) -> Optional[dict]:
    spot = spot_at(document, position)
    if not spot:
        return None
    items, text = document.items(), document.text
    name = "/".join(spot.path)
    lines = [f"**{code(name)}** ({items.kinds[spot.item]})", ""]
    steps = workspace.trace(document.path, name) if document.path else []
    for path in workspace.trail(document.path, steps) if document.path else []:
        there = workspace.items(path)
        item = there.find(spot.path)
        locale = path.rpartition("/")[2].removesuffix(".txt")
        value = code(short(source_of(workspace.content(path).content, there, item))) if item is not None else "-"
        lines.append(f"- {code(locale)}: {value}")
    message = message_source(text.content, items, spot.item)
    parts = messages.parse(message[1]) if message else []
    arguments = list(messages.arguments(parts))
    if arguments:
        kinds = (f"{{{it.name}{', ' + it.kind if it.kind else ''}}}" for it in arguments)
        lines += ["", "Arguments: " + ", ".join(code(kind) for kind in dict.fromkeys(kinds))]
        for choice, shown in messages.examples(parts, document.locale)[:20]:
            lines.append(f"- {choice}: {code(short(shown))}")
    if steps:
        said = [f"{step.locale}: {step.said}" for step in steps]
        lines += ["", "```text", *said, "```"]
    start, end = items.starts[spot.item], items.ends[spot.item] if spot.on_key else items.closes[spot.item]
    return {"contents": {"kind": "markdown", "value": "\n".join(lines)}, "range": text.range(start, end)}


def location(workspace: Workspace, path: str, start: int, end: int, text: Optional[Text] = None) -> dict:
    return {"uri": uri_of(path), "range": (text or workspace.content(path)).range(start, end)}


def definition(workspace: Workspace, document: Document, position: dict) -> list[dict]:
    """Leads from an alias to its target, and from another item to the next text on its trail that has it."""
    spot = spot_at(document, position)
    if not spot or not document.path:
        return []
    items = document.items()
    if items.kinds[spot.item] == "alias" and not spot.on_key:
        return alias_target(workspace, document.path, "/".join(spot.path))
    for path in workspace.trail(document.path)[1:]:
        there = workspace.items(path)
        item = there.find(spot.path)
        if item is not None:
            return [location(workspace, path, there.starts[item], there.ends[item])]
    return []


def alias_target(workspace: Workspace, path: str, name: str) -> list[dict]:
    """Follows an alias as the trace of its lookup does, for one level."""
    module = workspace.module_of(path)
    for step in workspace.trace(path, name):
        if step.level == 2 and ", and decides;" in step.said and module and step.locale in module.files:
            target = module.files[step.locale]
            there = workspace.items(target)
            item = there.find(tuple(step.path.split("/")))
            if item is not None:
                return [location(workspace, target, there.starts[item], there.ends[item])]
    return []


def named_by(alias: str, own: Path) -> Path:
    """Returns the path that an alias names: without one it is the alias's own."""
    segments = alias.split("/")
    if alias.startswith("/"):
        segments = segments[2:] if segments[1:2] == ["LOCALE"] else segments[3:]
    else:
        segments = segments[1:]
    return tuple(segments) if any(segments) else own


class Use(NamedTuple):
    """A place that names a key: the key itself, or its segment in the text of an alias."""

    path: str
    start: int
    end: int
    is_key: bool


def uses(workspace: Workspace, document: Document, path: Path, check: Check) -> Iterator[Use]:
    """Yields the places that name a key, in all texts of the module."""
    module = workspace.module_of(document.path)
    for file in dict.fromkeys([document.path or "", *(module.files.values() if module else ())]):
        check()
        items = workspace.items(file)
        item = items.find(path)
        if item is not None:
            yield Use(file, items.starts[item], items.ends[item], True)
        if "alias" in items.kinds:
            yield from alias_uses(file, workspace.content(file).content, items, path)


def alias_uses(file: str, text: str, items: Items, path: Path) -> Iterator[Use]:
    for item, kind in enumerate(items.kinds):
        if kind != "alias":
            continue
        source = source_of(text, items, item)
        alias, own = text_value(source), items.path(item)
        target = named_by(alias, own)
        if target[: len(path)] != path or target == own and not alias.endswith("/".join(own)):
            continue
        tail = "/".join(target[len(path) :])
        end = text.rindex(source, items.opens[item], items.closes[item]) + len(source.removesuffix('"')) - len(tail) - bool(tail)
        if text[end - len(path[-1]) : end] == path[-1]:
            yield Use(file, end - len(path[-1]), end, False)


def references(workspace: Workspace, document: Document, params: dict, check: Check) -> list[dict]:
    spot, declared = spot_at(document, params["position"]), (params.get("context") or {}).get("includeDeclaration", True)
    if not spot:
        return []
    found, texts = [], {}
    for use in uses(workspace, document, spot.path, check):
        if use.path == document.path and use.is_key and not declared:
            continue
        if use.path not in texts:
            texts = {use.path: workspace.content(use.path)}
        found.append(location(workspace, use.path, use.start, use.end, texts[use.path]))
    return found


def key_at(document: Document, position: dict) -> Spot:
    """Returns the key at a position that can be renamed."""
    spot = spot_at(document, position)
    if not spot or not spot.on_key:
        raise Failure(BAD_PARAMETERS, "there is no key here")
    items = document.items()
    if items.kinds[items.parents[spot.item]] == "array" or spot.path[-1].startswith("%%"):
        raise Failure(BAD_PARAMETERS, "this key can't be renamed")
    return spot


def prepare_rename(document: Document, position: dict) -> dict:
    spot, items = key_at(document, position), document.items()
    return {"range": document.text.range(items.starts[spot.item], items.ends[spot.item]), "placeholder": spot.path[-1]}


def rename(workspace: Workspace, document: Document, params: dict, check: Check) -> dict:
    """Renames a key in all texts of the module, and in the aliases that name it."""
    spot, new = key_at(document, params["position"]), params["newName"]
    if not new or not all(" " <= character <= "~" for character in new) or "/" in new:
        raise Failure(BAD_PARAMETERS, "a key has characters of ASCII, from a space to a tilde, and no slash")
    changes: dict[str, list[dict]] = {}
    texts: dict[str, Text] = {}
    for use in uses(workspace, document, spot.path, check):
        items = workspace.items(use.path)
        if use.is_key and items.find((*spot.path[:-1], new)) is not None and new != spot.path[-1]:
            raise Failure(FAILED, f"{use.path.rpartition('/')[2]} has {new} already")
        text = texts.setdefault(use.path, workspace.content(use.path))
        edit = {"range": text.range(use.start, use.end), "newText": key_source(new) if use.is_key else new}
        changes.setdefault(uri_of(use.path), []).append(edit)
    return {"changes": changes}
