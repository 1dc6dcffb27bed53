"""Turns the findings of `resb lint` into diagnostics with ranges, and formats by `resb fmt`."""

from __future__ import annotations

import os
import re
import subprocess
import threading
from typing import Callable, NamedTuple, Optional

from . import settings
from .program import Done, Program, encoded, finished, objects, page
from .scanner import BARE, MARK, QUOTED, TOKEN
from .text import Text
from .workspace import Document, Workspace, uri_of

MOST = 1000
SEVERITIES = {"error": 1, "warning": 2, "note": 3}
HUNK = re.compile(rb"^@@ -(\d+)(?:,(\d+))? \+\d+(?:,\d+)? @@", re.M)
END_OF_LINE = re.compile("[^\r\n]*")


def span_of(content: str, offset: int, rule: str) -> tuple[int, int]:
    """Returns the range of a finding: what is at its place, up to the end of the token and of the line."""
    if rule == "conflict-marker" or content.startswith("/", offset):
        return offset, END_OF_LINE.match(content, offset).end()
    if content.startswith("\\", offset) and rule in ("unknown-escape", "doubled-backslash", "BadEscape"):
        return offset, min(offset + 2, len(content))
    found = TOKEN.match(content, offset)
    end = found.end() if found.lastindex in (QUOTED, MARK, BARE) else offset
    line_end = END_OF_LINE.match(content, offset).end()
    if offset < line_end:
        end = min(end, line_end)
    return (offset, end) if end > offset else (max(0, offset - 1), offset)


def anchors() -> dict[str, str]:
    """Returns the address on the page of warnings for each name that it has."""
    file = page("LINT.md")
    if not file:
        return {}
    found, heading = {}, ""
    with open(file, encoding="utf-8") as lines:
        for line in lines:
            if line.startswith("#"):
                heading = re.sub(r"[^\w\- ]", "", line.lstrip("#").strip().lower()).replace(" ", "-")
            elif row := re.match(r"\| `([a-z-]+)`:", line):
                found[row[1]] = f"{uri_of(file)}#{heading}"
    return found


class Job(NamedTuple):
    """A text to lint, and the text of the root to compare it with."""

    uri: str
    name: str
    version: Optional[int]
    text: Text
    root: Optional[str]


class Linter(threading.Thread):
    """Lints documents, one after another. A change of the text that is being linted stops that run."""

    def __init__(self, program: Callable[[], Program], publish: Callable[[dict], None]) -> None:
        super().__init__(daemon=True)
        self.program, self.publish = program, publish
        self.changed = threading.Condition()
        self.waiting: dict[str, Optional[Job]] = {}
        self.running: tuple[str, Optional[subprocess.Popen]] = ("", None)
        self.pages = anchors()

    def ask(self, uri: str, job: Optional[Job]) -> None:
        """Asks for diagnostics of a document, or takes them back."""
        with self.changed:
            self.waiting[uri] = job
            name, process = self.running
            if name == uri and process:
                process.kill()
            self.changed.notify()

    def stop(self) -> None:
        """Ends the present run."""
        with self.changed:
            if self.running[1]:
                self.running[1].kill()

    def run(self) -> None:
        while True:
            with self.changed:
                while not self.waiting:
                    self.changed.wait()
                uri = next(iter(self.waiting))
                job = self.waiting.pop(uri)
                self.running = (uri, None)
            try:
                found = self.diagnostics(job) if job else []
            except OSError as error:
                found = [at_start(f"cannot run {self.program().path}: {error.strerror}; name the program in $RESB")]
            except (ValueError, KeyError) as error:
                found = [at_start(f"what {self.program().path} prints can't be read: {error!r}")]
            with self.changed:
                self.running = ("", None)
                if uri not in self.waiting:
                    version = {"version": job.version} if job and job.version is not None else {}
                    self.publish({"uri": uri, **version, "diagnostics": found})

    def diagnostics(self, job: Job) -> list[dict]:
        if os.path.basename(job.name) == settings.NAME:
            return settings_diagnostics(job, self.program().run("lint", "--list").out)
        done = self.lint(job, ["--against", job.root] if job.root else [])
        if job.root and done.error:
            done = self.lint(job, [])  # the text of the root has an error
        if done.status < 0:
            return [at_start(f"resb was ended by signal {-done.status}")]
        findings = [finding for finding in objects(done.out) if finding["file"] == job.name and "line" in finding]
        return [self.diagnostic(job.text, finding) for finding in findings[:MOST]]

    def lint(self, job: Job, root: list[str]) -> Done:
        config = settings.options(job.name)
        process = self.program().start("lint", "--all", "--format", "json", *config, "--name", job.name, *root, "-")
        with self.changed:
            self.running = (job.uri, process)
            if job.uri in self.waiting:
                process.kill()
        return finished(process, encoded(job.text.content))

    def diagnostic(self, text: Text, finding: dict) -> dict:
        rule, message = finding["rule"], finding["message"]
        start, end = span_of(text.content, text.offset_of_column(finding["line"], finding["column"]), rule)
        link = self.pages.get(rule)
        if not link and finding["severity"] == "error" and page("LANGUAGE.md"):
            link = uri_of(page("LANGUAGE.md")) + "#errors"
        return {
            "range": text.range(start, end),
            "severity": SEVERITIES[finding["severity"]],
            "code": rule,
            **({"codeDescription": {"href": link}} if link else {}),
            "source": "resb",
            "message": message,
        }


def at_start(message: str, severity: int = 1) -> dict:
    place = {"line": 0, "character": 0}
    return {"range": {"start": place, "end": place}, "severity": severity, "source": "resb", "message": message}


def settings_diagnostics(job: Job, listed: bytes) -> list[dict]:
    rules = [line.partition(":")[0] for line in listed.decode(errors="replace").splitlines()]
    problems = settings.read(job.text.content, os.path.dirname(job.name), rules)[1]
    found = []
    for problem in problems:
        end = END_OF_LINE.match(job.text.content, problem.offset).end()
        found.append({**at_start(problem.message), "range": job.text.range(problem.offset, end)})
    return found


def job_of(workspace: Workspace, document: Document) -> Optional[Job]:
    """Returns what to lint of a document, or None if it isn't served."""
    is_settings = os.path.basename(document.name) == settings.NAME
    if not is_settings and not workspace.is_served(document):
        return None
    module = workspace.module_of(document.path)
    root = module.root if module and module.root != document.path else None
    if root and not os.path.isfile(root) and not workspace.document_at(root):
        root = None
    against = workspace.file_of(root) if root else None
    return Job(document.uri, document.name, document.version, document.text, against)


# --- Formatting


class Hunk(NamedTuple):
    """Lines of a text, counted from 0, and those that take their place."""

    first: int
    past: int
    old: str
    new: str


def hunks(difference: bytes) -> list[Hunk]:
    """Reads a difference of `resb fmt --diff`: the changed lines, without those around them."""
    found: list[Hunk] = []
    heads = list(HUNK.finditer(difference))
    for head, following in zip(heads, [*heads[1:], None]):
        body = difference[difference.index(b"\n", head.start()) + 1 : following.start() if following else len(difference)]
        line = int(head[1]) - 1 if head[2] != b"0" else int(head[1])
        first, old, new, was_new = line, [], [], False
        for row in body.split(b"\n")[:-1]:
            if row[:1] == b"\\":
                last = new if was_new else old
                last[-1] = last[-1][:-1]
            elif row[:1] == b" ":
                if old or new:
                    found.append(hunk_of(first, line, old, new))
                line, old, new = line + 1, [], []
                first = line
            else:
                was_new = row[:1] == b"+"
                (new if was_new else old).append(row[1:] + b"\n")
                line += 0 if was_new else 1
        if old or new:
            found.append(hunk_of(first, line, old, new))
    return found


def hunk_of(first: int, past: int, old: list[bytes], new: list[bytes]) -> Hunk:
    return Hunk(first, past, b"".join(old).decode("utf-8", "replace"), b"".join(new).decode("utf-8", "replace"))


def whole(found: list[Hunk]) -> list[list[Hunk]]:
    """Groups changes so that each group changes only white space, and may be made without the others."""
    groups, old, new = [[]], "", ""
    for hunk in found:
        groups[-1].append(hunk)
        old, new = old + "".join(hunk.old.split()), new + "".join(hunk.new.split())
        if old.replace("\ufeff", "") == new:
            groups.append([])
            old = new = ""
    return groups[:-1] if not groups[-1] else groups


def edits(workspace: Workspace, document: Document, span: Optional[dict] = None) -> list[dict]:
    """Formats a text, or what a range touches. A text with an error stays as it is."""
    text = document.text
    done = workspace.program.run("fmt", "--diff", *settings.options(document.name), "-", data=encoded(text.content))
    found = []
    for group in whole(hunks(done.out)):
        first, past = text.offset_of_column(group[0].first + 1, 1), text.offset_of_column(group[-1].past, 1)
        if span and (text.offset(span["end"]) < first or text.offset(span["start"]) > line_end(text, past)):
            continue
        for hunk in group:
            found.append({"range": text.range(*lines(text, hunk)), "newText": hunk.new})
    return found


def line_end(text: Text, offset: int) -> int:
    end = text.content.find("\n", offset)
    return end if end >= 0 else len(text.content)


def lines(text: Text, hunk: Hunk) -> tuple[int, int]:
    """Returns the offsets at which the lines of a change begin and end."""
    start = text.offset_of_column(hunk.first + 1, 1)
    return start, start + len(hunk.old)
