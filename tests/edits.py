#!/usr/bin/env python3
"""Tries mutants: edits that change what a function means. The prover must refuse each one.

A mutant is a file NAME.edit with a line `file: src/x.rt` and then pairs of lines `old: TEXT` and `new: TEXT`; each `old` text occurs in
that file exactly once. A crate's mutants are in three folders:

  crates/CRATE/must-fail/  tried by `rt ci` itself, one by one
  crates/CRATE/gate/       tried by this script in each run of tests/all.sh (--gate)
  crates/CRATE/edits/      tried by this script before a release, and after a change of the crate's contracts

Mutants of different functions share one check, since the goals of a function depend on what other functions promise and not on their
bodies. A mutant counts as refused if a goal of a function that it changes isn't proved: `search` found nothing, or a proof by hand
doesn't show what is left. It doesn't count that a function calls another one that isn't proved, nor that a proof by hand names what the
mutant removed. A mutant that isn't refused together with others is tried alone before it is reported. A mutant that changes no function
(a constant, for instance) is tried alone, and any function's goal counts.

A mutant is checked over the libraries in crates/*/out/rlib, which `rt ci` and `rt check` leave there. Only the functions that it changes, and what
these call, are checked (`rattle check --only`), the first time from nothing. A mutant of a constant is checked at the functions whose text names the
constant. The caller has to know that the crates are proved without a mutant: `rt ci` shows it.

Prints a line for each mutant that isn't refused, and at the end `N refused, M not`. Ends with status 1 if one is not. Reads the work
tree only.

usage: edits.py [--gate | --all] [--jobs N] [--within MINUTES] [CRATE ..]   (default: edits/ of all crates)
  --gate        tries the mutants in gate/, and no others
  --all         tries those of gate/, edits/ and must-fail/
  --jobs N      runs N checks side by side (default: 1; each takes one processor and 1 to 3 GB)
  --within M    begins no crate's mutants after this many minutes; they are counted as not tried
The variable RT names the command `rt`, if it is another one.
"""
import argparse
import functools
import os
import pathlib
import re
import shutil
import subprocess
import sys
import tempfile
import time
from concurrent.futures import ThreadPoolExecutor
from dataclasses import dataclass, field

from support.contracts import CRATES
from support.program import loaded, run

RT = os.environ.get("RT", "rt")
# A proof by hand that names what the text no longer has says nothing of a contract.
NAMES = re.compile(r"has no field|is not in scope|has no `|was not admitted|is no name|expected the end|operand is missing")
TRAIT = re.compile(r"(?:pub )?trait (\w+)")
FN = re.compile(r'( *)(?:pub(?:\([^)]*\))? )?(?:const )?(?:unsafe )?(?:extern "C" )?fn (\w+)')
IMPL = re.compile(r"impl(?:<[^{]*?>)? (?:(.+) for )?(.+?) \{$")


@dataclass(frozen=True)
class Function:
    """A function of the source: its module, the type whose impl it is in, its name, and its lines."""

    module: tuple
    owner: str
    name: str
    first: int
    last: int

    def path(self):
        return "::".join([*self.module, *[self.owner] * bool(self.owner), self.name])

    def is_named(self, path):
        """Returns whether a path as `tree::Entries::get` or `tree::fn::Entries::get::map` names the function or a closure in it."""
        names = [it for it in path if it != "fn"]
        if self.owner:
            # a type's own functions are in the module of the type
            return any(self.owner in of and name == self.name for of, name in zip(names, names[1:]))
        front = len(self.module)
        return tuple(names[:front]) == self.module and names[front : front + 1] == [self.name]


@dataclass
class Edit:
    label: str
    texts: list  # (file, old, new)
    functions: set = field(default_factory=set)
    is_loose: bool = False  # changes something outside every function
    fault: str = ""


def functions_of(path, text):
    """Returns the functions of a file in the layout of `rt fmt`, where a function ends at a brace as far in as its first line."""
    module = tuple(it for it in re.sub(r"^src/|\.rt$", "", path).split("/") if it not in ("lib", "main"))
    lines, found, owner, owner_end = text.split("\n"), [], "", -1
    for at, line in enumerate(lines):
        head = IMPL.match(line) or TRAIT.match(line)
        if head:
            # an impl for () has no owner
            owner = (re.findall(r"\w+", re.sub(r"<.*", "", head[head.lastindex]).split("::")[-1]) or [""])[-1]
            owner_end = closing(lines, at, "")
        start = FN.match(line)
        if start:
            found.append(Function(module, owner if start[1] and at <= owner_end else "", start[2], at, closing(lines, at, start[1])))
    return found


def closing(lines, at, indent):
    """Returns the line at which an item that begins at a line ends."""
    if lines[at].rstrip().endswith((";", "}")) and lines[at].count("{") == lines[at].count("}"):
        return at
    for i in range(at + 1, len(lines)):
        if lines[i] == f"{indent}}}":
            return i
        # a trait's method without a body
        if lines[i].endswith(";") and re.match(rf"{indent}    (requires|ensures)\b", lines[i]):
            return i
    return len(lines) - 1


def read_edit(label, path, crate):
    edit, file, old, texts = Edit(label, []), "", "", {}
    for word, text in re.findall(r"^(file|old|new):[ ]?(.*)$", path.read_text(encoding="utf-8"), re.M):
        if word == "file":
            file = text.strip()
        elif word == "old":
            old = text
        elif file and old:
            edit.texts.append((file, old, text))
            old = ""
    for file, old, new in edit.texts:
        if not (crate / file).is_file():
            edit.fault = f"there is no file {file}"
            return edit
        text = texts.setdefault(file, (crate / file).read_text(encoding="utf-8"))
        if text.count(old) != 1:
            edit.fault = f"an 'old:' text stands {text.count(old)} times in {file}"
            return edit
        line, functions = text[: text.index(old)].count("\n"), functions_of(file, text) if file.startswith("src/") else ()
        function = max((it for it in functions if it.first <= line <= it.last), key=lambda it: it.first, default=None)
        edit.functions |= {(file, function)} if function else set()
        edit.is_loose = edit.is_loose or not function
        texts[file] = text.replace(old, new)
    if not edit.texts:
        edit.fault = "it has no pair of 'old:' and 'new:'"
    return edit


def groups_of(edits):
    """Puts edits into as few groups as first fit gives, where no function is changed twice in a group."""
    groups = []
    for edit in edits:
        keys = {(file, it.owner, it.name) for file, it in edit.functions}
        for taken, group in groups if not edit.is_loose else []:
            if not taken & keys and not group[0].is_loose:
                taken |= keys
                group.append(edit)
                break
        else:
            groups.append((keys, [edit]))
    return [group for _, group in groups]


@functools.lru_cache(maxsize=None)
def rtlib():
    """Loads the toolchain's module beside `rt`, which knows how a crate is checked."""
    made = loaded("rtlib", pathlib.Path(shutil.which(RT)).resolve().parent / "rtlib.py")
    made.guarded()
    return made


def users_of(edit, crate):
    """Returns the functions whose text names the constant that a mutant changes, or none if it changes another item."""
    words, found = set(), set()
    for file, old, _ in edit.texts:
        text = (CRATES / crate / file).read_text(encoding="utf-8")
        words |= set(re.findall(r"\b(?:const|static) (\w+):", text[: text.index(old) + len(old)])[-1:])
    for path in (CRATES / crate / "src").rglob("*") if words else ():
        if path.is_file():
            file, text = str(path.relative_to(CRATES / crate)), path.read_text(encoding="utf-8")
            for function in functions_of(file, text):
                body = "\n".join(text.split("\n")[function.first : function.last + 1])
                found |= {(file, function)} if any(re.search(rf"\b{it}\b", body) for it in words) else set()
    return found


class Copy:
    """A copy of one crate, in which mutants are tried over the libraries that `rt ci` left."""

    def __init__(self, folder, crate):
        self.name, self.crate, self.kept = crate, pathlib.Path(folder, crate), pathlib.Path(folder, "kept")
        for part in ("src", "specs", "proofs"):
            if (CRATES / crate / part).is_dir():
                shutil.copytree(CRATES / crate / part, self.crate / part)

    def check(self, edits):
        files = {file: (self.crate / file).read_text(encoding="utf-8") for edit in edits for file, _, _ in edit.texts}
        try:
            for file, old, new in (text for edit in edits for text in edit.texts):
                path = self.crate / file
                path.write_text(path.read_text(encoding="utf-8").replace(old, new, 1), encoding="utf-8")
            return self.run(edits)
        finally:
            for file, text in files.items():
                (self.crate / file).write_text(text, encoding="utf-8")

    def run(self, edits):
        only = set().union(*({it.path() for _, it in edit.functions} or {""} for edit in edits))
        named = next(it for it in rtlib().crates_below(str(CRATES.parent)) if it.name == self.name)
        words = [rtlib().RATTLE, "check", *named.words(["--jobs", "1"], keeps=False), "--incremental", str(self.kept)]
        for paths in (only, {it.rpartition("::")[0] for it in only}, {""}):
            flags = [it for path in sorted(paths) for it in ("--only", path)] if "" not in paths else []
            done = run([*rtlib().guarded(), *words, *flags], cwd=self.crate, stderr=subprocess.STDOUT, timeout=None)
            # 2: a path names no function, as happens for the methods of an impl
            if done.status != 2:
                break
        return done.stdout.decode(errors="replace")


def reached(said):
    """Returns whether a check came to a verdict on the functions, with every text read."""
    unread = any(re.match(r"(\./)?src/\S+:\d+:\d+: error: (`[^`]*`: )?.*", it) and NAMES.search(it) for it in said.split("\n"))
    return not unread and bool(re.search(r"^(logic=(not-)?proved|only=\d+ proved=)", said, re.M))


def answered(names, error):
    """The path of the function whose goals a file of proofs answers. Functions that call each other share one, `+NAME`, in which the
    name of each goal begins with its function's."""
    goal = re.match(r"`([\w.]+)-", error)
    if names[-1].startswith("+") and goal:
        return (*names[:-1], *goal[1].split("."))
    return tuple(names)


def refusals(said, crate):
    """Returns what is refused at a goal itself: paths of functions, and places in the source."""
    paths, places = set(), set()
    for line in said.split("\n"):
        function = re.match(r"fn (\S+): (?:no proof|not proved)(.*)", line)
        proof = re.match(r"(?:\./)?proofs/(\S+)/(?:Answers|Proof|Invariants)\.antt:\d+:\d+: error: (.*)", line)
        place = re.match(r"(?:note: )?(?:\./)?(src/\S+?):(\d+):\d+: (?:error: )?.*(?:it is not proved that|not proved)", line)
        if function and "did not prove" in function[2]:
            paths.add(tuple(function[1].removeprefix(f"{crate}::").split("::")))
        elif proof and not NAMES.search(proof[2]):
            paths.add(answered(proof[1].split("/"), proof[2]))
        elif place:
            places.add((place[1], int(place[2]) - 1))
    return paths, places


def is_refused(edit, said, crate):
    """Returns whether a goal of a function that a mutant changes is refused, or of any function if it changes none."""
    paths, places = refusals(said, crate)
    return edit.is_loose and bool(paths or places) or any(
        any(function.is_named(it) for it in paths) or any(at == file and function.first <= line <= function.last for at, line in places)
        for file, function in edit.functions)


def why_not(edit, said, crate):
    if not reached(said):
        lines = [it for it in said.split("\n") if "error" in it] or said.strip().split("\n")[-1:]
        return f"it did not reach the prover: {lines[0][:200]}"
    if re.search(r"^(logic=proved|only=(\d+) proved=\2$)", said, re.M):
        return "the crate is still proved"
    paths, _ = refusals(said, crate)
    others = ", ".join(sorted({"::".join(it) for it in paths})[:3])
    if others:
        return f"no goal of a function that it changes is refused, though some of {others} are"
    error = next((it for it in said.split("\n") if ": error: " in it), "")
    return f"no goal of a function that it changes is refused{': ' + error[:160] if error else ''}"


def trial(copy, edits, crate):
    """Tries mutants together, and in halves if together they do not reach the prover; returns each with whether it is refused."""
    said = copy.check(edits)
    if reached(said) or len(edits) == 1:
        return [(it, is_refused(it, said, crate) and reached(said), said) for it in edits]
    half = len(edits) // 2
    return trial(copy, edits[:half], crate) + trial(copy, edits[half:], crate)


def tried(crate, groups):
    """Tries groups of mutants, and alone those that were not refused together; returns what is known of each by its label."""
    with tempfile.TemporaryDirectory(prefix="edits-") as folder:
        copy = Copy(folder, crate)
        together = [it for group in groups for it in trial(copy, group, crate)]
        again = [it for it, refused, _ in together if not refused and [it] not in groups]
        last = together + [it for one in again for it in trial(copy, [one], crate)]
    return {it.label: (refused, said) for it, refused, said in last}, len(again)


def try_crate(crate, edits, end):
    """Tries a crate's mutants, and prints those that are not refused; returns how many are refused, are not, and were not tried in time."""
    if time.monotonic() > end:
        print(f"{crate}: {len(edits)} not tried, as the time is over", flush=True)
        return 0, 0, len(edits)
    good = [it for it in edits if not it.fault]
    for edit in (it for it in good if it.is_loose):
        users = users_of(edit, crate)
        edit.functions, edit.is_loose = edit.functions | users, not users
    groups = groups_of(good)
    last, again = tried(crate, groups)
    for edit in edits:
        if edit.fault or not last[edit.label][0]:
            print(f"{edit.label}: {edit.fault or why_not(edit, last[edit.label][1], crate)}", flush=True)
    refused = sum(it for it, _ in last.values())
    print(f"{crate}: {refused} of {len(edits)} refused, in {len(groups)} checks and {again} alone", flush=True)
    return refused, len(edits) - refused, 0


def edits_of(crate, folders):
    paths = (path for name in folders for path in sorted((CRATES / crate / name).glob("*.edit")))
    return [read_edit(str(path.relative_to(CRATES)), path, CRATES / crate) for path in paths]


def parsed():
    said = argparse.ArgumentParser(description=__doc__, formatter_class=argparse.RawDescriptionHelpFormatter)
    which = said.add_mutually_exclusive_group()
    which.add_argument("--gate", dest="folders", action="store_const", const=("gate",), default=("edits",))
    which.add_argument("--all", dest="folders", action="store_const", const=("gate", "edits", "must-fail"))
    said.add_argument("--jobs", type=int, default=1)
    said.add_argument("--within", type=float, default=float("inf"))
    said.add_argument("crates", nargs="*")
    return said.parse_args()


def main():
    given = parsed()
    listed = re.findall(r"^([^#:\s]+)[^#:\n]*:", (CRATES.parent / "crates.txt").read_text(encoding="utf-8"), re.M)
    unknown = [it for it in given.crates if it not in listed]
    if unknown:
        sys.exit(f"edits: no crate {unknown[0]}")
    rtlib()  # sets a signal handler, which only the main thread may do
    tasks = [(crate, edits) for crate in given.crates or listed if (edits := edits_of(crate, given.folders))]
    # the checks of one crate share what they keep, so crates run side by side
    with ThreadPoolExecutor(max(1, given.jobs)) as pool:
        end = time.monotonic() + 60 * given.within
        found = list(pool.map(lambda task: try_crate(*task, end), tasks))
    refused, others, left = map(sum, zip((0, 0, 0), *found))
    print(f"{refused} refused, {others} not" + (f", {left} not tried" if left else ""))
    return 1 if others else 0


if __name__ == "__main__":
    sys.exit(main())
