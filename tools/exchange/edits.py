"""Changes the items of a bundle text in place: everything else keeps its bytes."""
import itertools
import re
from typing import Any, Iterator, Optional

from .texts import PLAIN_NAME, Bundle, Node, Other

WRITTEN_AS_ESCAPE = re.compile('["\\\\\0-\x1f\x7f-\x9f\u2028-\u202e\u2066-\u2069\ufeff\ud800-\udfff]')
LETTERS = {'"': '"', "\\": "\\", "\n": "n", "\t": "t"}
BLANK, LINE_END = re.compile(r"[ \t]*"), re.compile(r"\r?\n|\Z")
# what may follow an item on its line and belongs to it: comments, the last of which may end the line
COMMENTS = re.compile(r"(?:[ \t]*/\*[^\n]*?\*/)*(?:[ \t]*//[^\n\r\u2029]*)?")
COLUMNS = 100


def quoted(text: str) -> str:
    return '"' + WRITTEN_AS_ESCAPE.sub(lambda found: "\\" + LETTERS.get(found[0], f"u{ord(found[0]):04x}"), text) + '"'


def plain(name: str) -> str:
    return name if PLAIN_NAME.fullmatch(name) else quoted(name)


def value_text(item: Other) -> str:
    """Returns the type and the value of an item that is neither a string nor a container."""
    value = ", ".join(map(str, item.value)) if item.kind == "intvector" else str(item.value)
    return f":{item.kind} {{ {quoted(value) if item.kind in ('alias', 'bin') else value} }}"


def item_text(item: Any, is_element: bool, indent: str, unit: str, newline: Optional[str]) -> str:
    """Returns the text of an item after its key, or of an element; a type is written if it wouldn't be guessed.

    Without a `newline` all of it is one line."""
    if isinstance(item, str):
        return quoted(item) if is_element else f" {{ {quoted(item)} }}"
    if isinstance(item, Other):
        return value_text(item)
    is_table = isinstance(item, dict)
    guessed = not is_element and item and (is_table or isinstance(item[0], str))
    head = " {" if guessed else ":table {" if is_table else ":array {"
    inner = [(plain(key), one) for key, one in item.items()] if is_table else [("", one) for one in item]
    if not item:
        return head + " }"
    if not is_table and all(isinstance(one, str) for one in item):
        flat = f"{head} {', '.join(map(quoted, item))}{',' * (len(item) == 1)} }}"
        if newline is None or len(indent) + len(flat) < COLUMNS // 2:
            return flat
    before = " " if newline is None else newline + indent + unit
    parts = [before + key + item_text(one, not is_table, indent + unit, unit, newline) + "," * (not is_table) for key, one in inner]
    return head + "".join(parts) + (" }" if newline is None else newline + indent + "}")


class Editor:
    """Collects the changes that make one tree of another in its text. `order` is a tree of the keys in the order for new ones."""

    def __init__(self, bundle: Bundle):
        self.text, self.bundle = bundle.text, bundle
        first_end = self.text.find("\n")
        self.newline = "\r\n" if first_end > 0 and self.text[first_end - 1] == "\r" else "\n"
        indents = (self.indent_of(node) for node in bundle.root.children.values())
        self.unit = next((indent for indent in indents if indent), "    ")
        self.changes: list[tuple[int, int, str]] = []

    def indent_of(self, node: Node) -> Optional[str]:
        """Returns the white space before an item that begins its line, or None."""
        start = self.blank_start(node.start)
        return self.text[start : node.start] if start == 0 or self.text[start - 1] == "\n" else None

    def blank_start(self, offset: int) -> int:
        """Returns where the blanks before an offset begin."""
        while offset > 0 and self.text[offset - 1] in " \t":
            offset -= 1
        return offset

    def line_end(self, offset: int) -> Optional[int]:
        """Returns where the line ends if only comments follow an offset on it, or None."""
        end = COMMENTS.match(self.text, offset).end()
        end = BLANK.match(self.text, end).end()
        return end if LINE_END.match(self.text, end) else None

    def replace(self, start: int, end: int, text: str) -> None:
        self.changes.append((start, end, text))

    def change(self, old: Any, new: Any, node: Node, order: Optional[Node], is_element: bool = False) -> None:
        """Changes an item to another one."""
        if isinstance(old, str) and isinstance(new, str):
            if old != new:
                self.change_string(node, new)
        elif isinstance(old, dict) and isinstance(new, dict):
            self.change_table(old, new, node, order)
        elif isinstance(old, list) and isinstance(new, list):
            self.change_array(old, new, node, order)
        elif old != new:
            indent = self.indent_of(node) or ""
            self.replace(node.body, node.end, item_text(new, is_element, indent, self.unit, self.newline))

    def change_string(self, node: Node, text: str) -> None:
        """Puts another text in place of a string's pieces. Comments between them stay."""
        if not node.pieces:
            self.replace(node.opened + 1, node.opened + 1, f" {quoted(text)} "[: -1 if self.text[node.opened + 1] == " " else None])
            return
        first, last = node.pieces[0], node.pieces[-1]
        gaps = (self.text[one.end : other.start] for one, other in zip(node.pieces, node.pieces[1:]))
        if not any(piece.comments for piece in node.pieces) and not any(gap.strip() for gap in gaps):
            self.replace(first.start, last.end, quoted(text))
            return
        for piece in node.pieces:
            kept = "".join(" " + comment for comment in piece.comments)
            self.replace(piece.start, piece.end, (quoted(text) if piece is first else "") + kept)

    def change_table(self, old: dict, new: dict, node: Node, order: Optional[Node]) -> None:
        for key, item in old.items():
            inner = node.children[key]
            if key in new:
                self.change(item, new[key], inner, order.children.get(key) if order else None)
            else:
                self.remove(inner)
        kept = [key for key in node.children if key in new]
        for before, after, keys in runs(new, old, order):
            texts = [(plain(key), new[key], order.children.get(key) if order else None) for key in keys]
            self.insert(node, self.place(node, kept, before, after), [(key, ordered(item, at)) for key, item, at in texts])

    def place(self, node: Node, kept: list[str], before: Optional[str], after: Optional[str]) -> Optional[Node]:
        """Returns the item after which new ones go: the one before them in the order, or else what is in front of the one after them.
        None is the front of a table."""
        if before is not None:
            return node.children[before]
        if after is None:
            return node.children[kept[-1]] if kept else None
        at = kept.index(after)
        return node.children[kept[at - 1]] if at else None

    def change_array(self, old: list, new: list, node: Node, order: Optional[Node]) -> None:
        children = list(node.children.values())
        for number, (one, other) in enumerate(zip(old, new)):
            self.change(one, other, children[number], order.children.get(str(number)) if order else None, True)
        for inner in children[len(new) :]:
            self.remove(inner)
        if len(new) > len(old):
            added = [("", item) for item in new[len(old) :]]
            if children and children[-1].past == children[-1].end:
                self.replace(children[-1].end, children[-1].end, ",")
            self.insert(node, children[-1] if children else None, added, True)

    def insert(self, node: Node, after: Optional[Node], items: list[tuple[str, Any]], is_array: bool = False) -> None:
        """Inserts items with their keys after another item, or at the front: in lines as the others are, or else in the same line."""
        at = after.past if after else node.opened + 1
        end = self.line_end(at)
        is_lines = end is not None or not node.children
        indent = self.inner_indent(node, after)
        newline = self.newline if is_lines else None
        parts = [key + item_text(item, is_array, indent, self.unit, newline) + "," * is_array for key, item in items]
        if not is_lines:
            text = "".join(" " + part for part in parts)
            self.replace(at, at, text if self.text[at] in " \t" else text + " ")
        elif end is None:  # all of the container is in one line
            text = "".join(self.newline + indent + part for part in parts)
            blank = BLANK.match(self.text, at).end()
            is_closed = blank == node.closed
            tail = self.newline + (self.indent_of(node) or "") if is_closed else ""
            self.replace(at, blank if is_closed else at, text + tail)
        else:
            self.replace(end, end, "".join(self.newline + indent + part for part in parts))

    def inner_indent(self, node: Node, after: Optional[Node]) -> str:
        """Returns the white space in front of a container's items."""
        near = [after] if after else []
        indents = (self.indent_of(one) for one in [*near, *itertools.islice(node.children.values(), 10)])
        found = next((indent for indent in indents if indent is not None), None)
        return found if found is not None else (self.indent_of(node) or "") + self.unit

    def remove(self, node: Node) -> None:
        """Removes an item with its comma. Its line goes if nothing is left on it; a comment stays."""
        start = self.blank_start(node.start)
        blank = BLANK.match(self.text, node.past).end()
        begins = self.indent_of(node) is not None
        ends = LINE_END.match(self.text, blank)
        if begins and ends:
            self.replace(start, ends.end(), "")
        elif begins:
            self.replace(node.start, blank, "")
        else:
            self.replace(start, node.past, "")

    def result(self) -> str:
        parts, at = [], 0
        for start, end, text in sorted(self.changes, key=lambda change: change[:2]):
            parts += [self.text[at:start], text]  # two removals may share the blanks between them
            at = max(at, end)
        return "".join([*parts, self.text[at:]])


def runs(new: dict, old: dict, order: Optional[Node]) -> Iterator[tuple[Optional[str], Optional[str], list[str]]]:
    """Yields the new keys that are side by side in the order, with the kept keys before and after them."""
    keys = [key for key in (order.children if order else ()) if key in new]
    keys += [key for key in new if key not in old and not (order and key in order.children)]
    before, waiting = None, []
    for key in keys:
        if key not in old:
            waiting.append(key)
            continue
        if waiting:
            yield before, key, waiting
            waiting = []
        before = key
    if waiting:
        yield before, None, waiting


def ordered(item: Any, order: Optional[Node]) -> Any:
    """Returns an item whose tables have their keys in the order of a text."""
    if isinstance(item, list):
        return [ordered(one, order.children.get(str(number)) if order else None) for number, one in enumerate(item)]
    if not isinstance(item, dict):
        return item
    known = [key for key in order.children if key in item] if order else []
    keys = [*known, *(key for key in item if not (order and key in order.children))]
    return {key: ordered(item[key], order.children.get(key) if order else None) for key in keys}


def edited(bundle: Bundle, new: dict, order: Optional[Node]) -> str:
    """Returns the text of a bundle with another tree."""
    editor = Editor(bundle)
    editor.change(bundle.tree, new, bundle.root, order)
    return editor.result()
