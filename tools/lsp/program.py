"""Runs the commands of `resb`."""

from __future__ import annotations

import json
import os
import re
import shutil
import subprocess
from typing import NamedTuple, Optional

TOP = os.path.dirname(os.path.dirname(os.path.dirname(os.path.realpath(__file__))))
SECONDS = 60
STEP = re.compile(r"^  (\S+): (.*)$")
LEVEL = re.compile(r"^level \d+: '(.*)' from (\S+)$")


class Done(NamedTuple):
    status: int
    out: bytes
    error: str


class Step(NamedTuple):
    """A locale on the way of a lookup, and what the trace says of it."""

    level: int
    path: str
    locale: str
    said: str


def found_program() -> str:
    """Returns the program: $RESB, or `resb` on the PATH, or the one built in this checkout."""
    return os.environ.get("RESB") or shutil.which("resb") or os.path.join(TOP, "crates", "rb_tool", "out", "rb_tool")


def encoded(text: str) -> bytes:
    """Returns UTF-8; an unpaired surrogate becomes bytes that `resb` refuses with NotUtf8."""
    return text.encode("utf-8", "surrogatepass")


class Program:
    def __init__(self, path: str) -> None:
        self.path = path

    def start(self, *arguments: str) -> subprocess.Popen:
        pipe = subprocess.PIPE
        return subprocess.Popen([self.path, *arguments], stdin=pipe, stdout=pipe, stderr=pipe)

    def run(self, *arguments: str, data: bytes = b"") -> Done:
        return finished(self.start(*arguments), data)

    def trace(self, locale: str, path: str, files: list[str]) -> list[Step]:
        """Looks a path up, and returns the locales that the lookup came by, in its order."""
        steps, level, at = [], 0, path
        for line in self.run("look", "--trace", locale, path, *files).error.splitlines():
            if found := LEVEL.match(line):
                level, at = level + 1, found[1]
            elif (found := STEP.match(line)) and level:
                steps.append(Step(level, at, found[1], found[2]))
        return steps

    def findings(self, *files: str) -> list[dict]:
        """Returns the findings of `coverage` over texts of one module."""
        return objects(self.run("coverage", "--format", "json", *files).out)


def finished(process: subprocess.Popen, data: bytes) -> Done:
    """Waits for a process, and stops one that takes far too long."""
    try:
        out, error = process.communicate(data, SECONDS)
    except subprocess.TimeoutExpired:
        process.kill()
        out, error = process.communicate()
    return Done(process.returncode, out, error.decode("utf-8", "replace"))


def objects(lines: bytes) -> list[dict]:
    """Reads JSON values, a line each."""
    return [json.loads(line) for line in lines.splitlines() if line.startswith(b"{")]


def page(name: str) -> Optional[str]:
    """Returns the path of a page of this checkout or of the package."""
    places = (os.path.join(TOP, "docs"), os.path.join(os.path.dirname(TOP), "share", "doc", "resb", "docs"))
    return next((file for file in (os.path.join(place, name) for place in places) if os.path.exists(file)), None)
