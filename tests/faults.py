#!/usr/bin/python3
"""Plants the faults of faults.jsonl in what only tests cover (printing, files, statuses), and finds which test fails first for each. By hand.

usage: faults.py [--jobs N] [PROGRAM [WORD ..]]   (default: crates/rb_tool/out/rb_tool, and all faults; WORD: those whose name has one of these)

A line of faults.jsonl has the fault, the key of TESTS, and the first test that finds it with five random cases a test. A fault of the program has the
commands that have it and what it does to them, as Perl has it: a stand-in runs the program and changes its output, its status or a file that it left. One
of a tool has the file, and the old and the new text, which are changed in a copy. The test that found a fault before is tried first; whichever finds it
must pass with a stand-in that changes nothing. The file is written again with the tests that find them now. Ends with status 1 if a fault isn't found.
"""
import argparse
import functools
import json
import os
import pathlib
import re
import shutil
import subprocess
import sys
import tempfile
from concurrent.futures import ThreadPoolExecutor

from support.program import PROGRAM, TOP, rows

ROWS = TOP / "tests" / "faults.jsonl"
# the tests that run a command: files, and parts of commands/
TESTS = {
    "lint": "lint commands[lint] commands[lint_options] commands[lint_root]", "coverage": "commands[coverage] coverage", "diff": "commands[diff] diff",
    "json": "commands[json] json", "read": "json commands[compile]", "compile": "commands[compile] commands[batch] json histories",
    "text": "commands[text] bundles", "check": "commands[check] bundles", "get": "commands[get] bundles", "look": "commands[look] traces",
    "fmt": "commands[fmt] fmt", "serve": "commands[serve] limits", "help": "completions", "files": "files", "exchange": "exchange exchange_damages",
    "convert": "exchange_convert", "icu2text": "icu2text",
}
SLOW = " and ".join(f"not {word}" for word in (
    "attack", "damaged_files", "edits_while", "files_in_hex", "inherit", "large", "little", "long_line", "longest", "made_files", "many", "memory", "race",
    "random_commands", "readers_that_end", "replies", "shared_items"))


def stand_in(folder, program, row):
    path, match = pathlib.Path(folder, "resb"), row["commands"].replace("{", "\\{")
    text = (TOP / "tests" / "faults.pl").read_text(encoding="utf-8")
    for word, value in (("CODE", row["change"]), ("MATCH", match), ("FOLDER", folder), ("PROGRAM", f"'{program}'")):
        text = text.replace(word, value)
    path.write_text(text, encoding="utf-8")
    path.chmod(0o755)
    return path


def copy(folder, row):
    """Returns a copy of the tools and their tests with a fault."""
    for name in ("tools", "tests", "examples"):
        shutil.copytree(TOP / name, os.path.join(folder, "top", name), symlinks=True)
    path = pathlib.Path(folder, "top", row["file"])
    text = path.read_text(encoding="utf-8")
    assert text.count(row["old"]) == 1, row
    path.write_text(text.replace(row["old"], row["new"]), encoding="utf-8")
    return os.path.join(folder, "top")


def failing(top, program, names):
    """Returns the name of the first of some tests that fails, or None."""
    words = [sys.executable, "-m", "pytest", "-x", f"--program={program}", "--hypothesis-profile", "smoke", "-k", SLOW, *names]
    done = subprocess.run(words, cwd=top, capture_output=True, text=True, check=False)
    found = re.search(r"^(?:FAILED|ERROR) (?:tests/)?test_(.+?)(?: - .*)?$", done.stdout, flags=re.M)
    if not found and done.returncode not in (0, 4, 5):  # 4, 5: a test has another name by now
        sys.exit(f"pytest ends with status {done.returncode}:\n{done.stdout}{done.stderr}")
    return found and found[1]


@functools.cache
def passes(program, test):
    """Checks that a test passes with a stand-in that changes nothing."""
    with tempfile.TemporaryDirectory() as folder:
        return failing(TOP, stand_in(folder, program, {"commands": ".", "change": "1"}), [f"tests/test_{test}"]) is None


def finder(program, row):
    """Returns the name of the test that finds a fault, or None."""
    all_of_them = [re.sub(r"(\w+)(\[\w+\])?", lambda it: f"tests/test_{it[1]}.py" + (f"::test_command{it[2]}" if it[2] else ""), name)
                   for name in TESTS[row["tests"]].split()]
    with tempfile.TemporaryDirectory() as folder:
        top, faulty = (copy(folder, row), program) if "file" in row else (TOP, stand_in(folder, program, row))
        found = failing(top, faulty, [f"tests/test_{row['found by']}"]) if row["found by"] else None
        found = found or failing(top, faulty, all_of_them)
    return found if found and passes(program, found) else None


def main():
    options = argparse.ArgumentParser()
    options.add_argument("--jobs", type=int, default=1)
    options.add_argument("program", nargs="?", default=PROGRAM)
    options.add_argument("words", nargs="*")
    given = options.parse_args()
    faults = rows(ROWS.name)
    tried = [row for row in faults if not given.words or any(word in row["fault"] for word in given.words)]
    missed = 0
    with ThreadPoolExecutor(given.jobs) as pool:
        for row, test in zip(tried, pool.map(lambda row: finder(os.path.abspath(given.program), row), tried)):
            row["found by"], missed = test or row["found by"], missed + (test is None)
            print(f"{row['fault']}: {test or 'NOT FOUND'}", flush=True)
    ROWS.write_text("".join(json.dumps(row, ensure_ascii=False) + "\n" for row in faults), encoding="utf-8")
    return int(missed > 0)


if __name__ == "__main__":
    sys.exit(main())
