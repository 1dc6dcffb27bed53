#!/usr/bin/env python3
"""Compares lookups of libresb with libicu's over bundles of ICU's data, which genrb makes files of.

usage: trees.py PROGRAM [QUESTIONS [TREE..]]: PROGRAM is tests/library/lookups.c, built. Asks 20,000 questions in all, over the trees
lang, region, curr, unit and zone.
"""
import pathlib
import subprocess
import sys
import tempfile

sys.path.insert(0, str(pathlib.Path(__file__).resolve().parent.parent))
from support import icu  # noqa: E402
from support.program import Skipped  # noqa: E402


def main() -> int:
    program, questions, *trees = sys.argv[1:2] + (sys.argv[2:] or ["20000"])
    trees = trees or ["lang", "region", "curr", "unit", "zone"]
    status = 0
    with tempfile.TemporaryDirectory() as folder:
        try:
            package = icu.package(folder)
            for tree in trees:
                files = icu.files(package, folder, tree)
                done = subprocess.run([program, files, str(int(questions) // len(trees))], check=False, capture_output=True, text=True)
                lines = done.stdout.splitlines()
                for line in lines[:20] + lines[20:][-1:]:
                    print(f"{tree}: {line}")
                status |= done.returncode
        except Skipped as missing:
            print(f"lookups beside libicu: skipped: {missing}")
    return status


sys.exit(main())
