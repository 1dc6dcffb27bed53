"""Converts between offsets of Python's strings and the protocol's positions, which count lines and units of UTF-16."""

from __future__ import annotations

import bisect
import re

BREAK = re.compile("\r\n|\n|\r")


def units(piece: str) -> int:
    """Returns the length in UTF-16 units."""
    return len(piece) if piece.isascii() else len(piece.encode("utf-16-le", "surrogatepass")) // 2


def after_units(piece: str, count: int) -> int:
    """Returns the offset after this many UTF-16 units, at most the end. The middle of a pair counts as its end."""
    if piece.isascii():
        return min(count, len(piece))
    passed = 0
    for offset, character in enumerate(piece):
        if passed >= count:
            return offset
        passed += 2 if character > "\uffff" else 1
    return len(piece)


class Text:
    """A text that isn't changed, with the offsets at which its lines begin."""

    def __init__(self, content: str, starts: list[int] | None = None) -> None:
        self.content = content
        self.starts = starts or [0, *(found.end() for found in BREAK.finditer(content))]
        self._feeds: list[int] | None = None

    def line(self, number: int) -> str:
        """Returns a line without its line break."""
        end = self.starts[number + 1] if number + 1 < len(self.starts) else len(self.content)
        return self.content[self.starts[number] : end].rstrip("\r\n")

    def offset(self, position: dict) -> int:
        line = position["line"]
        if line < 0 or line >= len(self.starts):
            return 0 if line < 0 else len(self.content)
        return self.starts[line] + after_units(self.line(line), max(0, position["character"]))

    def position(self, offset: int) -> dict:
        line = bisect.bisect_right(self.starts, offset) - 1
        return {"line": line, "character": units(self.content[self.starts[line] : offset])}

    def range(self, start: int, end: int) -> dict:
        return {"start": self.position(start), "end": self.position(end)}

    def offset_of_column(self, line: int, column: int) -> int:
        """Returns the offset of a line and a column of `resb lint`, for which only a line feed ends a line."""
        if self._feeds is None:
            has_other = len(self.starts) != self.content.count("\n") + 1
            feeds = [0, *(found.end() for found in re.finditer("\n", self.content))] if has_other else self.starts
            self._feeds = feeds
        line = max(1, min(line, len(self._feeds)))
        start = self._feeds[line - 1]
        end = self._feeds[line] if line < len(self._feeds) else len(self.content)
        return start + after_units(self.content[start:end], max(0, column - 1))

    def changed(self, change: dict) -> Text:
        """Returns the text after a change of the protocol."""
        span = change.get("range")
        if span is None:
            return Text(change["text"])
        start, end = self.offset(span["start"]), self.offset(span["end"])
        return self.replaced(min(start, end), max(start, end), change["text"])

    def replaced(self, start: int, end: int, new: str) -> Text:
        """Replaces a part. Line breaks are searched only from the line of the character before it to the end of the line after it."""
        content = self.content[:start] + new + self.content[end:]
        first = bisect.bisect_right(self.starts, max(start - 1, 0)) - 1
        kept = bisect.bisect_right(self.starts, end + 1)
        shift = len(new) - (end - start)
        until = self.starts[kept] + shift if kept < len(self.starts) else len(content)
        found = [match.end() for match in BREAK.finditer(content, self.starts[first], until)]
        later = [at + shift for at in self.starts[kept + 1 :]] if shift else self.starts[kept + 1 :]
        return Text(content, self.starts[: first + 1] + found + later)
