"""Knows the open documents, the modules of texts, and the items of each text."""

from __future__ import annotations

import fnmatch
import glob
import os
import tempfile
import urllib.parse
from dataclasses import dataclass, field
from typing import Callable, Iterator, NamedTuple, Optional

from . import settings
from .program import Program, Step, encoded
from .scanner import Items, scan
from .text import Text

LANGUAGES = ("resb", "icu-resource-bundle")
SKIPPED = {"node_modules", "target", "out"}
FOLDERS = 20_000
Path = tuple[str, ...]


def path_of(uri: str) -> Optional[str]:
    parts = urllib.parse.urlsplit(uri)
    return urllib.parse.unquote(parts.path) if parts.scheme == "file" else None


def uri_of(path: str) -> str:
    return "file://" + urllib.parse.quote(os.path.abspath(path))


class Module(NamedTuple):
    """The texts of one module, by their locales."""

    files: dict[str, str]
    root: Optional[str]

    def locale_of(self, path: str) -> str:
        return "root" if path == self.root else os.path.splitext(os.path.basename(path))[0]


@dataclass
class Document:
    """An open text. `read` has its items as they were when they were last asked for."""

    uri: str
    path: Optional[str]
    language: str
    version: Optional[int]
    text: Text
    read: tuple[Optional[Text], Items] = field(default=(None, Items()))

    def items(self) -> Items:
        if self.read[0] is not self.text:
            self.read = (self.text, scan(self.text.content))
        return self.read[1]

    @property
    def name(self) -> str:
        return self.path or self.uri

    @property
    def locale(self) -> str:
        return os.path.splitext(os.path.basename(self.name))[0]


class Workspace:
    def __init__(self, program: Program) -> None:
        self.program = program
        self.folders: list[str] = []
        self.documents: dict[str, Document] = {}
        self.parents: list[str] = []  # options of `look` and `coverage` that name explicit parents
        self.modules: dict[settings.Pattern, tuple[tuple, Module]] = {}
        self.found: tuple[tuple, list[dict]] = ((), [])  # what `coverage` found last, and over which texts
        self.scans: dict[str, tuple[tuple[int, int], Items]] = {}
        self.unsaved = tempfile.TemporaryDirectory(prefix="resb-lsp-")
        self.copies: dict[str, tuple[Text, str]] = {}

    def document_at(self, path: str) -> Optional[Document]:
        return self.documents.get(uri_of(path)) or next((it for it in self.documents.values() if it.path == path), None)

    def content(self, path: str) -> Text:
        """Returns a text as its editor has it, or else its file's."""
        document = self.document_at(path)
        if document:
            return document.text
        try:
            with open(path, encoding="utf-8", errors="replace", newline="") as file:
                return Text(file.read())
        except OSError:
            return Text("")

    def items(self, path: str) -> Items:
        """Returns the items of a text. Those of a file are kept until it changes."""
        document = self.document_at(path)
        if document:
            return document.items()
        try:
            state = os.stat(path)
        except OSError:
            return Items()
        mark = (state.st_mtime_ns, state.st_size)
        if self.scans.get(path, (None,))[0] != mark:
            self.scans[path] = (mark, scan(self.content(path).content))
        return self.scans[path][1]

    def file_of(self, path: str) -> str:
        """Returns a file with the text as its editor has it: a copy, if it is open."""
        document = self.document_at(path)
        if not document:
            return path
        text, copy = self.copies.get(path, (None, ""))
        if text is not document.text:
            copy = copy or os.path.join(tempfile.mkdtemp(dir=self.unsaved.name), os.path.basename(path))
            with open(copy, "wb") as file:
                file.write(encoded(document.text.content))
            self.copies[path] = (document.text, copy)
        return copy

    # --- Modules

    def settings_of(self, path: str) -> Iterator[settings.Pattern]:
        """Yields the modules of the settings files in the folders above a file, the nearest first."""
        folder = os.path.dirname(path)
        while True:
            file = os.path.join(folder, settings.NAME)
            if os.path.isfile(file) or self.document_at(file):
                yield from settings.read(self.content(file).content, folder)[0]
            above = os.path.dirname(folder)
            if above == folder or folder in self.folders:
                return
            folder = above

    def module_of(self, path: Optional[str]) -> Optional[Module]:
        """Returns the module of a text: the settings name it, or its folder has a root.txt."""
        if not path or not path.endswith(".txt"):
            return None
        for pattern in self.settings_of(path):
            if any(matches(path, one) for one in pattern.patterns) or path == pattern.root:
                return self.module_with(pattern)
        root = os.path.join(os.path.dirname(path), "root.txt")
        if os.path.isfile(root) or self.document_at(root):
            return self.module_with(settings.Pattern((os.path.join(glob.escape(os.path.dirname(path)), "*.txt"),), root))
        return None

    def module_with(self, pattern: settings.Pattern) -> Module:
        """Returns the module of a pattern. It is read again when a file comes or goes, which changes the time of its folder."""
        times = tuple(time_of(os.path.dirname(one)) for one in pattern.patterns)
        known = self.modules.get(pattern)
        if not known or known[0] != times or None in times:
            known = self.modules[pattern] = (times, read_module(pattern))
        return known[1]

    def is_served(self, document: Document) -> bool:
        return document.language in LANGUAGES or self.module_of(document.path) is not None

    def roots(self) -> list[str]:
        """Returns the texts of the root below the workspace's folders, and of the modules of open documents."""
        found = {}
        for top in self.folders:
            for number, (folder, names, files) in enumerate(os.walk(top)):
                names[:] = sorted(name for name in names if not name.startswith(".") and name not in SKIPPED)
                if number >= FOLDERS:
                    break
                if "root.txt" in files:
                    found[os.path.join(folder, "root.txt")] = None
                if settings.NAME in files:
                    patterns = settings.read(self.content(os.path.join(folder, settings.NAME)).content, folder)[0]
                    found.update((one.root, None) for one in patterns if one.root)
        modules = (self.module_of(document.path) for document in self.documents.values())
        found.update((module.root, None) for module in modules if module and module.root)
        return list(found)

    # --- Lookups

    def trace(self, path: str, items: str) -> list[Step]:
        """Traces the lookup of a path of items from a text's locale, over those texts of its module that the lookup asks for.

        It begins with the texts of the shorter names and the root; whichever text the trace misses is given to the next turn."""
        module = self.module_of(path)
        if not module:
            return []
        locale = module.locale_of(path)
        given = {name: file for name, file in module.files.items() if locale == name or locale.startswith(name + "_")}
        if "root" in module.files:
            given["root"] = module.files["root"]
        while True:
            bundles = [f"{name}={self.file_of(file)}" for name, file in given.items()]
            steps = self.program.trace(locale, items, [*self.parents, *bundles])
            more = {step.locale for step in steps if step.locale in module.files} - set(given)
            if not more or not steps:
                return [step._replace(said=self.real_names(step.said, given)) for step in steps]
            given.update((name, module.files[name]) for name in more)

    def real_names(self, said: str, given: dict[str, str]) -> str:
        for file in given.values():
            said = said.replace(self.file_of(file), os.path.basename(file))
        return said

    def trail(self, path: str, steps: Optional[list[Step]] = None) -> list[str]:
        """Returns the texts that a lookup from a text asks, in their order, with the text itself first."""
        module = self.module_of(path)
        if not module:
            return [path]
        steps = self.trace(path, "") if steps is None else steps
        names = [step.locale for step in steps if step.level == 1]
        return list(dict.fromkeys([path, *(module.files[name] for name in names if name in module.files)]))

    def findings(self, path: str) -> list[dict]:
        """Returns what `coverage` says of a text beside those that it inherits from."""
        module = self.module_of(path)
        if not module or not module.root:
            return []
        opened = ((file, document.text) for file in module.files.values() if (document := self.document_at(file)))
        state = (path, *opened, *map(time_of, module.files.values()))
        if self.found[0] != state:
            self.found = (state, self.covered(path, module, module.root))
        return self.found[1]

    def covered(self, path: str, module: Module, root: str) -> list[dict]:
        trail = self.trail(path)
        if root not in trail:
            trail.append(root)
        with tempfile.TemporaryDirectory(dir=self.unsaved.name) as folder:  # texts of one folder are one module
            files = [os.path.join(folder, module.locale_of(file) + ".txt") for file in trail]
            for link, file in zip(files, trail):
                os.symlink(self.file_of(file), link)
            found = self.program.findings(*self.parents, *files)
        return [finding for finding in found if module.locale_of(path) in finding["locales"]]


def matches(path: str, pattern: str) -> bool:
    """Matches folder by folder, as glob does: a star is no slash."""
    names, wanted = path.split("/"), pattern.split("/")
    return len(names) == len(wanted) and all(map(fnmatch.fnmatchcase, names, wanted))


def time_of(path: str) -> Optional[int]:
    try:
        return os.stat(path).st_mtime_ns
    except OSError:
        return None


def read_module(pattern: settings.Pattern) -> Module:
    paths = [path for one in pattern.patterns for path in sorted(glob.glob(one)) if path != pattern.root]
    files = {os.path.splitext(os.path.basename(path))[0]: path for path in paths}
    root = pattern.root or files.get("root")
    if root:
        files["root"] = root
    return Module(files, root)


Check = Callable[[], None]
