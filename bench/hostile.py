"""Cases of inputs that are built to be expensive, each beside plain input of its size: files by `check`, texts by `compile` and `lint --root`, and
requests by `serve`. The makers are in tests/support/hostile.py; notes/hostile.md has what was measured, and why each is allowed what it is.

A row of hostile.jsonl says what it is "of": a "form" of one size, files to "check" or ones that "overlap" in other sizes, a "text" to compile or one to
"lint" beside itself as the root, or lines that end with a "lookup". It has the name, the maker, the status (0 if left out), and what is allowed: as a
multiple of the time of plain input, for lookups in milliseconds; for "lint" the "most" memory as a multiple of the length. Lookups have the MB of each
"size", how many lines are measured, and limits.
"""
import itertools
import json
import os
import pathlib

from measuring import MB, Case, Goal, measured, seconds
from support import files, hostile

ROWS = [json.loads(line) for line in pathlib.Path(__file__).with_suffix(".jsonl").read_text(encoding="utf-8").splitlines()]


def rows_of(kind):
    return [row for row in ROWS if row["of"] == kind]


def made(words):
    """Returns a maker of tests/support/ by its name, or what it returns for arguments, among which may be the names of others."""
    if not isinstance(words, list):
        return getattr(hostile, words, None) or getattr(files, words, None) or words.encode()
    name, *arguments = words
    return made(name)(*(word if isinstance(word, int) else made(word) for word in arguments))


def check_case(bench, name, data, allowed, status=0, is_form=False):
    """The check of a file beside that of a plain table. A small plain file is measured without the program's start, which takes as long; a form, with it."""
    plain, made = bench.put("plain.res", hostile.plain_table(len(data))), bench.put("made.res", data)
    start = 0 if is_form else min(seconds([bench.program, "--version"]) for _ in range(5))
    goals = [Goal("time", allowed), *[Goal("times", 8)] * (len(data) >= 15 * MB and not is_form)]
    return Case("hostile", f"check of {name}, {len(data) / MB:.2g} MB", lambda: seconds([bench.program, "check", made], status=status),
                lambda: max(seconds([bench.program, "check", plain]) - start, len(data) / MB * 1e-3), "a plain table", goals=goals,
                memory=[[bench.program, "check", made]], size=len(data), runs=3)


def text_case(bench, name, make, size, words, allowed, most, status=0):
    made, plain = bench.put("made/root.txt", make(size)), bench.put("plain/root.txt", hostile.plain_text(size))
    ours, theirs = ([bench.program, *(path if word == "@" else word for word in words)] for path in (made, plain))
    goals = [Goal("time", allowed), *[Goal("times", most)] * (size >= 4 * MB)]
    return Case("hostile", f"{name}, {size / MB:.2g} MB", lambda: seconds(ours, status=status), lambda: seconds(theirs), "plain text", goals=goals, memory=[ours],
                size=size)


class Lines:
    """Lines that are served after others: the time and the memory of one more."""

    def __init__(self, bench, prepared, line, count, limits=()):
        self.words, self.count = [bench.program, "serve", *limits], count
        self.files = bench.put("before.jsonl", prepared), bench.put("after.jsonl", prepared + line * count)

    def milliseconds(self):
        before, after = (min(seconds(self.words, file) for _ in range(3)) for file in self.files)
        return 1e3 * max(0.0, after - before) / self.count

    def memory(self):
        before, after = (measured(self.words, source=file).memory for file in self.files)
        return after - before


def request_cases(bench):
    for row in rows_of("lookup"):
        for size in row["sizes"]:
            served = Lines(bench, *made(row["make"])(int(size * MB)), row["count"], row.get("limits", ()))
            yield Case("requests", f"{row['name']}, {size:g} MB", served.milliseconds, unit="ms", goals=[Goal("ms", row["allowed"])], runs=1)
    for size in (MB // 20, MB // 10, MB * 3 // 10):
        served = Lines(bench, *hostile.shared_keys(int(size)), 1)
        yield Case("requests", f"memory of a reply whose keys share their bytes, {size / MB:g} MB", served.memory, unit="MB besides", goals=[Goal("MB besides", 4)], runs=1)
    for size in (MB, 8 * MB, 48 * MB):
        served = Lines(bench, *hostile.other_members(int(size)), 1)
        yield Case("requests", f"members that nobody asked for, {size / MB:g} MB", served.milliseconds, unit="ms", goals=[Goal("ms", 1e-5 * size + 10)], runs=1)
        yield Case("requests", f"memory of these, {size / MB:g} MB", served.memory, unit="MB besides", goals=[Goal("MB besides", 3 * size / MB + 4)], runs=1)
    for count in (1_000, 10_000, 100_000):
        install = b'{"op":"install","app":"app%d","locale":"de","text":"de{a{\\"b\\"}}"}\n'
        served = Lines(bench, b"", b"".join(install % i for i in range(count)), 1)
        yield Case("requests", f"{count:,} applications of one small bundle", lambda served=served, count=count: 1e3 * served.memory() / count, unit="KB each",
                   goals=[Goal("KB each", 0.7)], runs=1)


def cases(bench):
    for row in rows_of("form"):
        yield check_case(bench, row["name"], made(row["make"]), row["allowed"], row.get("status", 0), True)
    for kind, sizes in (("check", (1, 4, 16)), ("overlap", (4, 16, 62))):
        for row, size in itertools.product(rows_of(kind), sizes):
            yield check_case(bench, row["name"], made(row["make"])(int(size * MB)), row["allowed"])
    for row, size in itertools.product(rows_of("text"), (1, 4, 8)):
        size = min(size, 6) if row["make"] == "falling_keys" else size
        words = ["compile", "@", os.path.join(bench.folder, "out.res")]
        yield text_case(bench, row["name"], made(row["make"]), int(size * MB), words, row["allowed"], 40, row.get("status", 0))
    for row, size in itertools.product(rows_of("lint"), (1, 4, 8)):
        yield text_case(bench, row["name"], made(row["make"]), int(size * MB), ["lint", "--root", "@", "@"], 5, row["most"])
    yield from request_cases(bench)
