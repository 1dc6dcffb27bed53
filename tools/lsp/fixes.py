"""Proposes changes of a text: a fix for each warning that has one, missing keys, and what a parent has too."""

from __future__ import annotations

import re
from typing import Callable, NamedTuple, Optional

from . import messages
from .navigate import Spot, message_source, spot_at
from .scanner import BARE, QUOTED, TOKEN, Items, key_source
from .text import Text
from .workspace import Check, Document, Path, Workspace

QUOTES = "'’‘‚‹›\"„“”«»`"
NAMES = re.compile(r"\{([^{}]*)\}")
PATH = re.compile(r"'([^']*)'")
STEP = "    "


class Edit(NamedTuple):
    start: int
    end: int
    new: str


class Fix(NamedTuple):
    title: str
    edits: list[Edit]


def pieces(text: str, offset: int) -> list[re.Match]:
    """Returns the pieces side by side around an offset: those up to the next punctuation."""
    line = text.rfind("\n", 0, offset) + 1
    found: list[re.Match] = []
    for token in TOKEN.finditer(text, line):
        if token.lastindex not in (QUOTED, BARE):
            if token.start() >= offset or not token.lastindex:
                break
            found = []
        else:
            found.append(token)
    return found


def joined(text: str, start: int, end: int) -> str:
    """Returns a text in quotes that spans some pieces."""
    inner = " ".join(
        found[QUOTED][1:].removesuffix('"') if found.lastindex == QUOTED else found[BARE]
        for found in TOKEN.finditer(text, start, end)
        if found.lastindex in (QUOTED, BARE)
    )
    return f'"{inner}"'


def join_quotes(text: str, start: int, end: int, said: str) -> Optional[Fix]:
    found = pieces(text, start)
    if len(found) < 2:
        return None
    first, last = found[0].start(found[0].lastindex), found[-1].end()
    return Fix("Put all of the text in one pair of quotes", [Edit(first, last, joined(text, first, last))])


def close_quote(text: str, start: int, end: int, said: str) -> Optional[Fix]:
    line = text[start : text.find("\n", start) if "\n" in text[start:] else len(text)]
    tail = re.search(r"[\s,}]*\Z", line).start()
    return Fix('Close the quote', [Edit(start + tail, start + tail, '"')])


def quote_key(text: str, start: int, end: int, said: str) -> Optional[Fix]:
    found = pieces(text, start)
    if not found:
        return None
    first, last = found[0].start(found[0].lastindex), found[-1].end()
    if text[first] == ";":
        return Fix("Remove the semicolon", [Edit(first, first + 1, "")])
    return Fix("Put the key in quotes", [Edit(first, last, joined(text, first, last))])


def own_quotes(text: str, start: int, end: int, said: str) -> Optional[Fix]:
    found = pieces(text, start)
    if not found:
        return None
    first, last = found[0].start(found[0].lastindex), found[-1].end()
    inner = text[first:last].strip(QUOTES)
    return None if '"' in inner or "\\" in text[first:last] else Fix('Write the quotes as "', [Edit(first, last, f'"{inner}"')])


def close_direction(text: str, start: int, end: int, said: str) -> Optional[Fix]:
    controls = re.compile("[\u202a-\u202e\u2066-\u2069]").finditer(text, start, end)
    return Fix("Write the controls as escapes", [Edit(it.start(), it.end(), f"\\u{ord(it[0]):04X}") for it in controls])


# what a finding is turned into, by its name
SIMPLE: dict[str, Callable[[str, int, int, str], Optional[Fix]]] = {
    "joined-strings": lambda text, start, end, said: Fix("Insert a comma", [Edit(start, start, ",")]),
    "mixed-quotes": join_quotes,
    "open-quote": close_quote,
    "OpenQuote": close_quote,
    "unknown-escape": lambda text, start, end, said: Fix("Write the backslash as \\\\", [Edit(start, start, "\\")]),
    "doubled-backslash": lambda text, start, end, said: Fix("Write an escape, with one backslash", [Edit(start, start + 1, "")]),
    "suspicious-key": quote_key,
    "other-quotes": own_quotes,
    "open-direction": close_direction,
}
SIMPLE["BadEscape"] = SIMPLE["unknown-escape"]


def message_fix(rule: str, said: str, source: str, locale: str) -> Optional[Fix]:
    """Returns the fix of a message; its offsets are those of the source between the quotes."""
    found = list(messages.arguments(messages.parse(source)))
    plural = [it for it in found if it.kind in ("plural", "selectordinal")]
    if rule in ("missing-other", "missing-category"):
        lacking = re.findall(r"'(\w+)'", said)[:1] if rule == "missing-category" else ["other"]
        for argument in plural if rule == "missing-category" else [it for it in found if it.branches]:
            selectors = [branch.selector for branch in argument.branches]
            if argument.branches and lacking[0] not in selectors:
                last = argument.branches[-1]
                body = source[last.opens : last.closes]
                at, new = (last.closes, f" {lacking[0]} {body}") if lacking == ["other"] else (last.start, f"{lacking[0]} {body} ")
                return Fix(f"Add a message for {lacking[0]}", [Edit(at, at, new)])
    if rule == "unused-category":
        number = {"zero": "=0", "one": "=1", "two": "=2"}.get(re.findall(r"'(\w+)'", said)[0])
        for branch in (branch for it in plural for branch in it.branches if f"'{branch.selector}'" in said and number):
            return Fix(f"Write {number}", [Edit(branch.start, branch.start + len(branch.selector), number)])
    if rule == "quoted-argument":
        name = (NAMES.search(said) or [""])[0]
        at = source.find("'" + name) if name else -1
        if at >= 0:
            return Fix("Write the apostrophe as ''", [Edit(at, at, "'")])
    if rule == "stray-brace":
        at = messages.stray_brace(source)
        return Fix("Write the brace as '}'", [Edit(at, at + 1, "'}'")]) if at is not None else None
    return None


class Proposer:
    """Makes the code actions of a document."""

    def __init__(self, workspace: Workspace, document: Document, check: Check) -> None:
        self.workspace, self.document, self.check = workspace, document, check
        self.text: Text = document.text
        self.items: Items = document.items()

    def action(self, fix: Fix, kind: str, diagnostic: Optional[dict] = None) -> dict:
        edits = [{"range": self.text.range(edit.start, edit.end), "newText": edit.new} for edit in fix.edits]
        more = {"diagnostics": [diagnostic], "isPreferred": True} if diagnostic else {}
        return {"title": fix.title, "kind": kind, **more, "edit": {"changes": {self.document.uri: edits}}}

    def actions(self, params: dict) -> list[dict]:
        context = params["context"]
        only = context.get("only") or ["quickfix", "refactor", "source"]
        found = []
        if wanted("quickfix", only):
            for diagnostic in context["diagnostics"]:
                found += self.quick_fixes(diagnostic)
        self.check()
        spot = spot_at(self.document, params["range"]["start"])
        if wanted("refactor.rewrite", only) and spot:
            found += [self.action(fix, "refactor.rewrite") for fix in self.from_parent(spot)]
        if wanted("source", only) or wanted("source.resb", only):
            found += [self.action(fix, "source.resb") for fix in self.whole_text()]
        return found

    # --- Quick fixes

    def quick_fixes(self, diagnostic: dict) -> list[dict]:
        rule, said = str(diagnostic.get("code", "")), diagnostic["message"]
        if diagnostic.get("source") != "resb":
            return []
        start, end = (self.text.offset(diagnostic["range"][side]) for side in ("start", "end"))
        fix = self.fix(rule, said, start, end)
        found = [self.action(fix, "quickfix", diagnostic)] if fix else []
        if diagnostic.get("severity") == 2 and rule != "unknown-allowed":
            allow = self.allowed(rule, start)
            found += [{**self.action(allow, "quickfix"), "diagnostics": [diagnostic]}] if allow else []
        return found

    def fix(self, rule: str, said: str, start: int, end: int) -> Optional[Fix]:
        text = self.text.content
        if rule in SIMPLE:
            return SIMPLE[rule](text, start, end, said)
        if rule == "bundle-name":
            return Fix(f"Name the bundle {self.document.locale}", [Edit(start, end, key_source(self.document.locale))])
        path = tuple(PATH.search(said)[1].split("/")) if PATH.search(said) else ()
        if rule == "missing-key":
            return self.added([path], f"Add {'/'.join(path)} from the root")
        item = self.items.at(start)
        if rule == "unused-key" and item:
            return Fix(f"Remove {self.items.keys[item]}", [self.removal(item)])
        item = self.items.find(path) if rule == "other-arguments" else item
        message = message_source(text, self.items, item) if item else None
        if not message:
            return None
        offset, source = message
        fix = self.argument_fix(path, said, source) if rule == "other-arguments" else message_fix(rule, said, source, self.document.locale)
        moved = [Edit(edit.start + offset, edit.end + offset, edit.new) for edit in fix.edits] if fix else []
        return Fix(fix.title, moved) if fix else None

    def argument_fix(self, path: Path, said: str, source: str) -> Optional[Fix]:
        """Renames the argument that the root doesn't have to the one that this message lacks."""
        module = self.workspace.module_of(self.document.path)
        if not module or not module.root:
            return None
        root = self.workspace.items(module.root)
        there = root.find(path)
        other = message_source(self.workspace.content(module.root).content, root, there) if there is not None else None
        names = {it.name for it in messages.arguments(messages.parse(other[1]))} if other else set()
        own = list(messages.arguments(messages.parse(source)))
        strange = [it for it in own if it.name not in names]
        lacking = sorted(names - {it.name for it in own})
        if len({it.name for it in strange}) != 1 or len(lacking) != 1:
            return None
        edits = [Edit(at := source.index(it.name, it.start), at + len(it.name), lacking[0]) for it in strange]
        return Fix(f"Rename the argument to {lacking[0]}", edits)

    def allowed(self, rule: str, start: int) -> Optional[Fix]:
        """Writes a comment before the entry that allows a warning."""
        item = self.items.at(start)
        while item and self.items.kinds[self.items.parents[item]] == "array":
            item = self.items.parents[item]
        if not item:
            return None
        at = self.items.starts[item]
        indent = self.indent(at)
        return Fix(f"Allow {rule} here", [Edit(at, at, f"// resb-lint: allow {rule}\n{indent}")])

    # --- Keys of the root and of parents

    def indent(self, offset: int) -> str:
        start = self.text.content.rfind("\n", 0, offset) + 1
        return re.match(r"[ \t]*", self.text.content[start:offset])[0]

    def removal(self, item: int) -> Edit:
        """Removes an entry with its comma, and its lines if nothing else is on them."""
        text, start, end = self.text.content, self.items.starts[item], self.items.closes[item]
        end = re.compile(r"\s*,|").match(text, end).end()
        line = text.rfind("\n", 0, start) + 1
        past = re.compile(r"[ \t]*\r?\n").match(text, end)
        if past and not text[line:start].strip(" \t"):
            return Edit(line, past.end(), "")
        return Edit(start, end, "")

    def added(self, paths: list[Path], title: str) -> Optional[Fix]:
        """Inserts the root's entries at some paths, each at the end of its table; of a missing table all of it."""
        module = self.workspace.module_of(self.document.path)
        if not module or not module.root or not self.items.keys:
            return None
        root, text = self.workspace.items(module.root), self.workspace.content(module.root).content
        new: dict[int, list[str]] = {}
        places = {self.place_for(path) for path in paths}
        found = ((root.find(path), parent) for parent, path in places)
        for there, parent in sorted((there, parent) for there, parent in found if there is not None):
            if self.items.kinds[parent] == "table":
                new.setdefault(parent, []).append(text[root.starts[there] : root.closes[there]])
        edits = [self.insertion(parent, sources) for parent, sources in new.items()]
        return Fix(title, edits) if edits else None

    def place_for(self, path: Path) -> tuple[int, Path]:
        """Returns the innermost item on a path that this text has, and the path with one key more."""
        item = 0
        for depth, key in enumerate(path):
            inner = self.items.child(item, key)
            if inner is None:
                return item, path[: depth + 1]
            item = inner
        return self.items.parents[item], path

    def insertion(self, parent: int, sources: list[str]) -> Edit:
        text, brace = self.text.content, self.items.closes[parent] - 1
        if not text.startswith("}", brace):
            brace += 1
        outer = self.indent(self.items.starts[parent])
        at = brace
        while at > 0 and text[at - 1] in " \t":
            at -= 1
        is_line = text[at - 1 : at] == "\n"
        lines = "".join(f"{outer}{STEP}{moved(source, outer + STEP)}\n" for source in sources)
        return Edit(at, brace, ("" if is_line else "\n") + lines + outer)

    def from_parent(self, spot: Spot) -> list[Fix]:
        """Copies the value that the next parent has at a path."""
        if not self.document.path:
            return []
        for path in self.workspace.trail(self.document.path)[1:]:
            there = self.workspace.items(path)
            item = there.find(spot.path)
            if item is None:
                continue
            new = self.workspace.content(path).content[there.opens[item] : there.closes[item]]
            start, end = self.items.opens[spot.item], self.items.closes[spot.item]
            if new.split() != self.text.content[start:end].split():
                name = path.rpartition("/")[2].removesuffix(".txt")
                return [Fix(f"Copy {'/'.join(spot.path)} from {name}", [Edit(start, end, moved(new, self.indent(start)))])]
            return []
        return []

    def whole_text(self) -> list[Fix]:
        """Adds what the root has and no text on the trail, and removes what the parent has too."""
        path = self.document.path
        findings = self.workspace.findings(path) if path else []
        paths: dict[str, list[Path]] = {"missing": [], "same": []}
        for finding in findings:
            paths.get(finding["finding"], []).append(tuple(finding["key"].split("/")))
        found = []
        if paths["missing"] and (fix := self.added(paths["missing"], "Add the missing keys from the root")):
            found.append(fix)
        same = [self.items.find(one) for one in paths["same"]]
        if edits := [self.removal(item) for item in same if item]:
            found.append(Fix("Remove what is the same as the parent's", edits))
        return found


def moved(source: str, indent: str) -> str:
    """Moves the lines of an entry after the first to an indentation, by the last line's."""
    first, *lines = source.split("\n")
    old = re.match(r"[ \t]*", lines[-1])[0] if lines else ""
    return "\n".join([first, *(indent + line.removeprefix(old) if line.startswith(old) else line for line in lines)])


def wanted(kind: str, only: list[str]) -> bool:
    return any(kind == one or kind.startswith(one + ".") for one in only)
