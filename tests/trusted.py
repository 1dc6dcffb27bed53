#!/usr/bin/env python3
"""Counts the lines of definitions that a reader must believe: those that public contracts cite, and those that these cite in turn.

usage: tests/trusted.py [--inner]

Prints three numbers for each crate, and at last for all: how many lines the contracts of the core's calls reach, how many more those of
all other calls, and how many more those of laws. The core is texts, files, items, names, lookups, requests and the lines of `serve`
without limits. Limits, extended requests, drafts of releases, open locales, trees, JSON that is read, formatting, messages, commands
and the library are in trusted.json. With --inner it prints the files of specs/ that are in the wrong place, with status 1 if there is
any: what no public contract reaches serves only proofs and private functions, and is in specs/inner/.

A line counts if it is not blank, no comment and no `use`. Public are the items that a crate's lib.rt names, with the methods of its types
and traits. Of a `module _` block its head counts, and those of its definitions that are reached. Not counted are definitions of the
toolchain's library, and those that only say why a recursion ends, what memory a type owns, or how its value comes from its fields if
these are private: all that a caller learns of the value is in the clauses of the type's calls, which are proved for that value.
"""

import collections
import json
import pathlib
import re
import sys

from support.contracts import CRATES, exported, lines_of

# Parts of crates beyond the core: all, or some types, functions and clauses (FUNCTION.CLAUSE).
BEYOND = json.loads(pathlib.Path(__file__).with_suffix(".json").read_text(encoding="utf-8"))
# Ghost items that a reader needn't believe, as the view of a type whose fields are private.
NOT_SHOWN = ("size_decreases", "also_owns")
HEAD = re.compile(r"(abbrev|unfoldable|pub|data|record|mutual)\b")
NAMED = re.compile(r"^\s*(?:(?:abbrev|unfoldable|pub|data|record)\s+)+(\S+)")
BOUND = re.compile(r"^\s+(?:pub\s+)?([^\s:(){}]+) :(?:\s|$)")
WORD = re.compile(r"[^\s(){},;\[\]λ→×]+")
IMPORT = re.compile(r"^\s*(?:ghost )?use Rattle\.(\w+)\.specs\.([\w.]+?)(?:\.\{([^}]*)\}| as (\S+))?\s*;?\s*$", re.M)


class Definition:
    """One definition, or several that are mutual: its lines, the head of the block that it is in, and the words in them."""

    def __init__(self, file, lines, head):
        self.file = file
        self.head = head
        self.lines = [line for line in lines if line.strip() and not line.strip().startswith("--")]
        self.names = {match[1] for match in map(NAMED.match, self.lines) if match}
        self.names |= {match[1] for match in map(BOUND.match, self.lines) if match}
        self.words = set(WORD.findall("\n".join(head + self.lines)))


class Scope:
    """Returns what the `use` lines of a file name."""

    def __init__(self, text):
        self.names = {}
        self.modules = {}
        for match in IMPORT.finditer(text):
            self.take(*match.groups())

    def take(self, crate, module, names, alias):
        if alias:
            self.modules[alias] = (crate, module)
        for name in (names or "").split(","):
            name, _, other = name.strip().partition(" as ")
            # an operator's parts stand between its places
            for word in filter(None, (other or name).split("◌")):
                self.names[word] = (crate, module, name)

    def finds(self, word):
        if word in self.names:
            return self.names[word]
        front, dot, rest = word.partition(".")
        if dot and front in self.modules:
            return (*self.modules[front], rest)
        if dot and front in self.names:
            return self.names[front]
        return None


def read_specs():
    """Returns all definitions by crate, module and name, and the scopes of their files."""
    found, scopes = {}, {}
    for file in sorted(CRATES.glob("r*b*/specs/**/*.antt")):
        if file.name in ("Lib.antt", "inner.antt"):
            continue
        crate, module = place_of(file)
        text = file.read_text()
        scopes[file] = Scope(text)
        for definition in blocks(file, text):
            for name in definition.names:
                found[crate, module, name] = definition
    return found, scopes


def blocks(file, text):
    """Yields the definitions of a file: those at its left edge, and those within a `module _` block, each with the block's head."""
    lines, head, started = [], [], []
    for line in text.splitlines():
        inner = line.removeprefix("  ") if head else line
        if line and not line.startswith(" "):
            head = [line] if line.startswith("module _") else []
            inner = line
        if line.startswith(("use ", "module _")) or HEAD.match(inner):
            if lines:
                yield Definition(file, lines, started)
            lines, started = [], head
        if lines or HEAD.match(inner):
            lines.append(inner)
    if lines:
        yield Definition(file, lines, started)


def is_beyond(crate, owner, function, clause):
    beyond = BEYOND.get(crate, set())
    return beyond == "all" or bool({owner, function, f"{function}.{clause}"} & set(beyond))


def contracts(crate, of_laws, with_private):
    """Yields each clause of a crate's public calls, or of its laws: its text, the scope of its file, and whether it is beyond the core."""
    names, modules = exported(CRATES / crate)
    for file in sorted((CRATES / crate / "src").glob("**/*.rt")):
        if (file.stem in modules) != of_laws:
            continue
        text = file.read_text()
        structs = re.findall(r"^pub struct (\w+)[^{;]*\{([^}]*)\}", text, re.M)
        opaque = {name for name, fields in structs if not re.search(r"\bpub\b", fields)}
        scope, name, is_shown = Scope(text), "", False
        for line, owner, function, is_public in lines_of(CRATES / crate, file):
            if function:
                name, is_shown = function["name"], is_public or (with_private and function["access"] == "pub(crate) ")
            clause = re.match(r"\s*(ensures|requires)\*? *(\w*)(.*)", line)
            shown = re.match(r"\s*ghost (?!use|invariant|inverse|coded)(\w+)(.*)", line)
            if clause and is_shown:
                yield clause[3], scope, is_beyond(crate, owner or None, name, clause[2])
            elif shown and owner in names and (with_private or shown[1] not in NOT_SHOWN and not (shown[1] == "view" and owner in opaque)):
                yield shown[2], scope, is_beyond(crate, owner, None, None)


def cited(words, scope, own, found):
    for word in words:
        place = scope.finds(word) or (*own, word.partition(".")[0])
        if place in found:
            yield found[place]


def place_of(file):
    crate = file.relative_to(CRATES).parts[0]
    return crate, ".".join(file.relative_to(CRATES / crate / "specs").with_suffix("").parts)


def reach(of_laws, found, scopes, is_core=False, with_private=False):
    """Returns the definitions that the contracts of calls, of the core's calls, or of laws, reach."""
    seen, todo = set(), []
    for crate in sorted(path.parts[-3] for path in CRATES.glob("r*b*/src/lib.rt")):
        for text, scope, beyond in contracts(crate, of_laws, with_private):
            if not (is_core and beyond):
                todo += cited(WORD.findall(text), scope, (crate, ""), found)
    while todo:
        definition = todo.pop()
        if definition not in seen:
            seen.add(definition)
            todo += cited(definition.words, scopes[definition.file], place_of(definition.file), found)
    return seen


def counted(definitions):
    counts = collections.Counter()
    for definition in definitions:
        counts[place_of(definition.file)[0]] += len(definition.lines)
    for file, head in {(definition.file, *definition.head) for definition in definitions if definition.head}:
        counts[place_of(file)[0]] += 1
    return counts


def print_count(core, calls, laws):
    core, calls, laws = counted(core), counted(calls - core), counted(laws - calls)
    for crate in sorted(core | calls | laws):
        print(f"{crate} {core[crate]} {calls[crate]} {laws[crate]}")
    print(f"all {core.total()} {calls.total()} {laws.total()}")


def print_inner(reached, private, files):
    """Prints the files in the wrong place. What only measures and calls within the crate reach may be in either place."""
    reached, private = ({definition.file for definition in found} for found in (reached, private))
    inner = {file for file in files if "inner" in file.relative_to(CRATES).parts}
    wrong = [f"reached: {file.relative_to(CRATES)}" for file in files if file in reached & inner]
    wrong += [f"not reached: {file.relative_to(CRATES)}" for file in files if file not in reached | private | inner]
    print("".join(f"{line}\n" for line in wrong), end="")
    return bool(wrong)


def main():
    found, scopes = read_specs()
    calls, laws = reach(False, found, scopes), reach(True, found, scopes)
    if sys.argv[1:] == ["--inner"]:
        private = reach(False, found, scopes, with_private=True)
        sys.exit(1 if print_inner(calls | laws, private, scopes) else 0)
    print_count(reach(False, found, scopes, is_core=True), calls, laws)


main()
