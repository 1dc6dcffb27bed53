#!/usr/bin/env python3
"""Compiles a crate's program with nothing proved, and stores it.

usage: unproved.py OUT   in the crate's folder

The toolchain makes an unproved program only for a run by `rt try`, in a temporary folder. This takes the program from there.
The program checks each sum, index and access as it runs, so it is some ten times as slow as the proved one.
Ends with status 1, and what the toolchain wrote, if there is no program.
"""
import glob
import os
import subprocess
import sys
import tempfile
import time

# Lines for `serve`, so that the run takes a second and the program isn't removed at once.
LINES = b"\n" * 40_000


def take(paths, out):
    """Links the first of these files that is still there to a path, and returns whether there was one."""
    for path in paths:
        try:
            os.link(path, out)
        except OSError:
            continue  # the run has just ended
        return True
    return False


def take_of_run(find, out, lines=b"", arguments=(), crate="."):
    """Runs a crate with nothing proved, and ends the run once `find` returns files of its temporary folder, the first of which it moves to `out`.
    Returns whether there was one; if not, writes what the toolchain wrote."""
    with tempfile.TemporaryDirectory(prefix="unproved-", dir=os.path.dirname(out)) as folder, tempfile.TemporaryFile() as log:
        with open(f"{folder}/lines", "wb") as file:
            file.write(lines)
        with open(f"{folder}/lines", "rb") as given:
            run = subprocess.Popen(["rt", "try", "--seconds", "600", *arguments], cwd=crate, stdin=given, stdout=subprocess.DEVNULL,
                                   stderr=log, env={**os.environ, "TMPDIR": folder})
        is_taken = False
        while not is_taken and run.poll() is None:
            is_taken = take(find(folder), f"{folder}/taken")
            time.sleep(0.01)
        if is_taken:
            run.terminate()
            os.replace(f"{folder}/taken", out)
        run.wait()
        if not is_taken:
            log.seek(0)
            sys.stderr.buffer.write(log.read())
        return is_taken


def programs(folder):
    return glob.glob(f"{glob.escape(folder)}/*/*/program")


def build(out):
    return take_of_run(programs, out, LINES, ["--", "serve"])


if __name__ == "__main__":
    sys.exit(not build(os.path.abspath(sys.argv[1])))
