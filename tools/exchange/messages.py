"""Reads ICU's message patterns, as far as the exchange needs them: their arguments, and how a translation's arguments differ."""
import re
from typing import Iterator, Optional

from .common import NOT_XML

NESTING_LIMIT = 64


class Message:
    """The arguments of a message pattern: their names, and where they are if all are simple, as in `{0}` or `{day, date, short}`."""
    SIMPLE = re.compile(r"\{\s*(\w+)\s*(?:,\s*(\w+)\s*)?(?=[,}])")
    SELECTOR = re.compile(r"\s*(?:offset:\s*\d+(?!\d)\s*)?([^\s{}',]+)\s*(?=\{)")

    def __init__(self, text: str):
        self.text, self.names, self.spans, self.simple = text, set(), [], True
        if self.message(0, 0) != len(text):
            raise ValueError("a brace too many")

    def message(self, at: int, depth: int) -> int:
        """Reads up to the brace that ends a message inside of an argument, or to the end."""
        if depth > NESTING_LIMIT:
            raise ValueError("nested too deep")
        while found := re.compile("['{}]" if depth else "['{]").search(self.text, at):
            if found[0] == "}":
                return found.start()
            at = self.quote(found.start()) if found[0] == "'" else self.argument(found.start(), depth)
        if depth:
            raise ValueError("an open brace")
        return len(self.text)

    def quote(self, at: int) -> int:
        """Skips an apostrophe, and the text that it quotes if a brace follows it."""
        if self.text[at + 1 : at + 2] not in ("{", "}"):
            return at + (2 if self.text.startswith("''", at) else 1)
        return re.compile("(?:[^']|'')*'?").match(self.text, at + 1).end()

    def argument(self, at: int, depth: int) -> int:
        found = self.SIMPLE.match(self.text, at)
        if not found:
            raise ValueError("no argument")
        self.names.add(found[1])
        end = found.end()
        if self.text[end] == ",":
            if found[2] in ("plural", "select", "selectordinal"):
                end = self.selectors(end + 1, depth)
            elif found[2] == "choice":
                self.simple, end = False, self.message(end + 1, depth + 1)
            else:
                end = self.style(end + 1)
        self.spans.append((at, end + 1))
        return end + 1

    def selectors(self, at: int, depth: int) -> int:
        self.simple = False
        while found := self.SELECTOR.match(self.text, at):
            at = self.message(found.end() + 1, depth + 1) + 1
        found = re.compile(r"\s*\}").match(self.text, at)
        if not found:
            raise ValueError("no selector")
        return found.end() - 1

    def style(self, at: int) -> int:
        found = re.compile(r"(?:[^'{}]|'[^']*')*\}").match(self.text, at)
        if not found:
            raise ValueError("no style")
        return found.end() - 1


def message_of(text: str) -> Optional[Message]:
    """Returns the message pattern that a text is, or None if it isn't one."""
    try:
        return Message(text)
    except ValueError:
        return None


def pieces(text: str) -> Iterator[tuple[bool, str]]:
    """Yields the text between simple arguments, and the arguments. A text with another argument, or with what XML can't have, is one
    piece."""
    message, at = message_of(text), 0
    for start, end in message.spans if message and message.simple and not NOT_XML.search(text) else ():
        yield False, text[at:start]
        yield True, text[start:end]
        at = end
    yield False, text[at:]


def changed_arguments(source: str, target: str) -> Optional[str]:
    """Describes how the names of a translation's arguments differ from the source's, if they do."""
    wanted = message_of(source)
    if wanted is None:
        return None
    found = message_of(target)
    if found is None:
        return "isn't a message pattern, as its source is"
    lacks, more = sorted(wanted.names - found.names), sorted(found.names - wanted.names)
    said = [f"lacks {', '.join(f'{{{name}}}' for name in lacks)}"] * bool(lacks)
    said += [f"has {', '.join(f'{{{name}}}' for name in more)}, which its source hasn't"] * bool(more)
    return " and ".join(said) or None
