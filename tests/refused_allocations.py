#!/usr/bin/env python3
"""Refuses each allocation of `resb serve` in turn, by a preloaded library.

usage: refused_allocations.py PROGRAM

refused/plain.jsonl and refused/extended.jsonl have lines with their replies, and with the reply if the line took effect before. Without
`--keep-serving` the replies before the refused allocation must be whole, nothing follows them, and standard error names `Memory`. With
it the line that memory ran out for has the reply `Memory`; sent once more, it must be answered as before it took effect or after, and
the lines after it as if nothing had been refused.
"""
import os
import subprocess
import sys
import tempfile

from support.program import TOP, rows
from support.server import Server

MEMORY = b'{"error":"Memory"}\n'
# Options of `serve`, and the file with the lines.
TRIALS = [([], "plain"), (["--keep-serving"], "plain"), (["--steps", "10000"], "plain"), (["--extended"], "extended"),
          (["--extended", "--keep-serving"], "extended")]


def rows_of(name):
    """Returns the rows of a file: a line, its reply, and its reply if it took effect before."""
    return [(row[0].encode(), f"{row[1]}\n".encode(), f"{row[-1]}\n".encode()) for row in rows(f"refused/{name}.jsonl")]


class Refusing(Server):
    """A server one of whose allocations is refused, which is asked line by line."""

    def __init__(self, words, library, refused, count):
        super().__init__(words, stderr=subprocess.PIPE, env={**os.environ, "LD_PRELOAD": library, "REFUSE": str(refused), "COUNT": count})

    def ask(self, line):
        """Returns the reply to a line, or nothing if the server has ended."""
        try:
            return super().ask(line)
        except (AssertionError, BrokenPipeError):
            return b""

    def fault(self, asked, keeps):
        """Returns what is wrong with the replies or the end, or None."""
        found, is_refused, wrong = [], False, None
        for line, reply, again in asked:
            found.append(self.ask(line))
            wanted = reply, b""
            if found[-1] == MEMORY and keeps and not is_refused:
                found.append(self.ask(line))
                is_refused, wanted = True, (reply, again)
            if found[-1] not in wanted:
                wrong = f"{line} is answered {found[-1]}"
            if wrong or not found[-1]:
                break
        end, ends = (self.end(), self.errors), [(1, b"Memory\n"), (0, b"")] if found[-1] else [(1, b"Memory\n")]
        # memory may run out before it serves
        if end in ends + [(2, b"error: out of memory\n")] * (found == [b""]) and self.replies == [reply for reply in found if reply]:
            return wrong
        return wrong or f"it ends with {end} after {self.replies[-2:]}"


def refuse_all(words, asked, library, count):
    """Refuses each allocation of a server in turn, after a run that counts them. Returns how many there are, and the first fault or None."""
    most = refused = 0
    while True:
        wrong = Refusing(words, library, refused, count).fault(asked, "--keep-serving" in words)
        if refused == 0:
            with open(count, encoding="utf-8") as file:
                most = int(file.read())
        if wrong or refused == most:
            return most, wrong and f"allocation {refused} of {most}: {wrong}"
        refused += 1


def main(program):
    with tempfile.TemporaryDirectory() as made:
        library = f"{made}/refuse.so"
        subprocess.run(["cc", "-O2", "-shared", "-fPIC", "-o", library, TOP / "tests" / "refused" / "refuse.c"], check=True)
        for options, name in TRIALS:
            asked, words = rows_of(name), ["serve", *options]
            most, wrong = refuse_all([os.path.abspath(program), *words], asked, library, f"{made}/count")
            if wrong:
                sys.exit(f"{' '.join(words)}: {wrong}")
            if not most:
                print("skipped: the program, as one of which nothing is proved, allocates by no function of the C library")
                return
            print(f"ok: {' '.join(words)}: each of {most} allocations refused in turn over {len(asked)} lines")


if __name__ == "__main__":
    main(sys.argv[1])
