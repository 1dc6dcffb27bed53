#!/usr/bin/env python3
"""Lists the functions that take longest to prove.

usage: functions.py [--most N] [CRATE..]
       functions.py --self-test

Reads the times at which a check wrote the modules of a crate (crates/CRATE/out/incremental): a module took as long as has passed since
the one before. So the seconds are those on the clock of a check by one job, as `bin/resb` makes; compare them only within one build.
A cycle of functions that are proved together has a `+` before its name.
"""
import collections
import os
import pathlib
import re
import sys
import tempfile

CRATES = pathlib.Path(__file__).resolve().parent.parent / "crates"
MODULE = re.compile(r"Rattle-(\w+)[.-](?:proofs|specs)\.(.+?)(?:\.decls)?\.oantt")
# The modules that the prover makes of one function; what comes before such a word is the function.
KIND = re.compile(r"(?:Lts|Code|Mir|Symbol|Tie|Proof|Named|Kinds|Reads|Met|Layout|Rows|Contract|Answers|Invariants|Given|Goals|Author"
                  r"|TheLinks?|TheLaws|TheReach|Statement|Walk)\b")


def function_of(module):
    """Returns the function that a module belongs to, or None for a lemma, a definition or another crate's module."""
    found = MODULE.fullmatch(module)
    if not found:
        return None
    words = found[2].split(".")
    ends = [n for n, word in enumerate(words) if n and KIND.match(word)]
    return ".".join(words[: ends[0]]) if ends else None


def seconds_by_function(folder):
    """Returns the seconds of each function of a crate, given the folder of its modules, and those of all modules together."""
    files = sorted((file.stat().st_mtime, file.name) for file in folder.rglob("*.oantt"))
    spent = collections.Counter()
    for (before, _), (after, name) in zip(files, files[1:]):
        spent[function_of(name) or ""] += after - before
    whole = sum(spent.values())
    del spent[""]
    return spent, whole


def table(folders, most):
    """Returns the lines of the table for the folders of some crates."""
    rows, whole = [], 0.0
    for name, folder in folders:
        spent, all_of_it = seconds_by_function(folder)
        rows += [(seconds, name, function) for function, seconds in spent.items()]
        whole += all_of_it
    rows.sort(reverse=True)
    lines = [f"{seconds:8.1f} {100 * seconds / whole:5.1f}%  {name} {function}" for seconds, name, function in rows[:most]]
    shown = sum(row[0] for row in rows[:most])
    return [*lines, f"{shown:8.1f} {100 * shown / whole:5.1f}%  of {whole:.0f} s, {len(rows)} functions"] if whole else ["nothing is proved"]


def stored(names):
    """Returns the name and the folder of modules of each crate that has one."""
    found = sorted((file.parents[1].name, file) for file in CRATES.glob("*/out/incremental"))
    return [(name, folder) for name, folder in found if not names or name in names]


def self_test():
    with tempfile.TemporaryDirectory() as made:
        modules = [
            ("Rattle-words-specs.Words.oantt", 10),
            ("Rattle-words-proofs.line.Line.read.Lts.oantt", 13),
            ("Rattle-words-proofs.line.Line.read.Proof.oantt", 14),
            ("Rattle-words-proofs.Lemmas.oantt", 15),
            ("Rattle-words-proofs.tree.+tree.Answers.decls.oantt", 20),
            ("Rattle.below.std.proofs.vec.oantt", 21),
        ]
        for name, time in modules:
            file = pathlib.Path(made, name)
            file.touch()
            os.utime(file, (time, time))
        found = table([("words", pathlib.Path(made))], 9)
        wanted = ["     5.0  45.5%  words tree.+tree", "     4.0  36.4%  words line.Line.read", "     9.0  81.8%  of 11 s, 2 functions"]
        assert found == wanted, found
        assert table([("none", pathlib.Path(made, "none"))], 9) == ["nothing is proved"]


def main(words):
    if words == ["--self-test"]:
        return self_test()
    most = int(words[words.index("--most") + 1]) if "--most" in words else 40
    names = [word for word in words if not word.startswith("--") and word != str(most)]
    print(*table(stored(names), most), sep="\n")
    return None


if __name__ == "__main__":
    main(sys.argv[1:])
