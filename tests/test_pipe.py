"""Replies of `resb serve` through pipes: a caller that waits for its reply gets it before it sends more, lines that are written ahead are answered in
few writes, and 100,000 odd lines are answered alike with one more member that counts for nothing, and by another build (`--beside PROGRAM`).

The odd lines have members twice, escapes, lone surrogates, numbers out of range, nesting of 126 to 129 levels, trailing bytes, white space, members that
aren't strings, and bytes that aren't UTF-8, beside requests and lookups that are answered.
"""
import os
import random

import pytest
from support.program import Skipped, run
from support.server import Server

AHEAD, MOST_WRITES = 1000, 60  # lines, of which some 8 KB are held at once
BAD_LINE = b'{"error":"BadLine"}\n'
INSTALL = b'{"op":"install","app":"shop","locale":"de","text":"de{a{\\"b\\"}}"}'
DONE = b'{"ok":true}\n'
LOOK = b'{"op":"look","app":"shop","locale":"de_AT","path":"a"}'
FOUND = b'{"actual":"de","type":"string","valid":"de","value":"b"}\n'


@pytest.fixture
def server(program):
    made = Server([program, "serve"])
    yield made
    assert made.end() == 0


def is_quiet(server, count):
    with server.lock:
        return not server.lock.wait_for(lambda: server.count > count, 0.1)


def test_each_line_before_the_next(server):
    for line, reply in [(INSTALL, DONE)] + [(LOOK, FOUND), (b"", BAD_LINE)] * 50:
        assert server.ask(line) == reply
    assert is_quiet(server, 101)


def test_a_line_before_the_rest_of_the_next(server):
    """A line, and a part of another, in one write: the first is answered."""
    server.send(INSTALL + b"\n" + LOOK[:9])
    assert server.await_replies(1) == [DONE] and is_quiet(server, 1)
    server.send(LOOK[9:] + b"\n" + LOOK + b"\n" + LOOK[:20])
    assert server.await_replies(3)[1:] == [FOUND] * 2 and is_quiet(server, 3)
    server.send(LOOK[20:] + b"\n")
    assert server.await_replies(4)[3] == FOUND


def test_a_long_line_behind_a_short_one(server):
    server.send(b"\n" + b"x" * 30000)
    assert server.await_replies(1) == [BAD_LINE]
    server.send(b"x" * 20000 + b"\n")
    assert server.await_replies(2) == [BAD_LINE] * 2


def test_a_last_line_without_a_line_feed(server):
    assert server.ask(INSTALL) == DONE
    server.send(LOOK)
    assert is_quiet(server, 1)
    assert server.end() == 0 and server.replies == [DONE, FOUND]


def test_lines_ahead_in_few_writes(server):
    assert server.ask(INSTALL) == DONE
    before = server.proc("io", "syscw")
    server.send((LOOK + b"\n") * AHEAD)
    assert server.await_replies(AHEAD + 1)[1:] == [FOUND] * AHEAD
    if before is None:
        raise Skipped("the system doesn't tell how many writes there are")
    assert server.proc("io", "syscw") - before <= MOST_WRITES


COUNT = 100_000
KEYS = ["op", "app", "locale", "path", "text", "file", "x", "", "\\u006fp", "a\\u0070p", "pat\\u0068", "Op", "op\\u0000"]
OPS = ["look", "install", "replace", "remove", "list", "lo\\u006fk", "Look", ""]
WORDS = ["shop", "bank", "de", "de-at", "root", "zh_Hant", "a", "a/b", "menu/0", "\\u0061", "é", "\\ud83d\\ude00", "\\n", "\\/", "\\\"", "x" * 70]
LONE = ["\\ud800", "\\udc00x", "\\ud800\\ud800", "\\uD8", "\\x", "\\"]
TEXTS = ["de{a{\\\"b\\\"}}", "de{a{\\\"\\\\u00e9\\\"} b{c:int{1}}}", "root{menu{\\\"x\\\",\\\"y\\\"}}", "de{", "", "root:table(nofallback){a{\\\"b\\\"}}"]
FILES = ["", "2000", "2000DA27", "2000da2", "zz"]
KNOWN = {"op": OPS, "text": TEXTS, "file": FILES}
NUMBERS = ["0", "-0", "1", "-1", "1.5", "1e5", "1e400", "-1e999", "00", "01", "1.", ".5", "+1", "18446744073709551616", "9" * 400, "NaN"]
VALUES = ["null", "true", "false", "[]", "{}", "[1,2]", "{\"op\":\"look\"}", "tru", "nul", "[1,]", "{,}", "'x'"]
SPACES = ["", "", "", "", " ", "\t", "\r", "  ", "\x0b", "\u00a0", "\f"]
MEMBERS = [b'"x":1', b'"x":null', b'"x":[-0.5e-3,true,{"op":"list"}]', b'"x":{"y":[],"z":{}}', b'"x":"\\ud83d\\ude00"',
           b'"x":[18446744073709551616,[[[]]]],"y":false']


def value(made, key):
    kind = made.random()
    if kind < 0.78:
        return '"' + made.choice(KNOWN.get(key, WORDS) if kind < 0.7 else LONE) + '"'
    if kind < 0.94:
        return made.choice(NUMBERS if kind < 0.86 else VALUES)
    depth = made.randint(124, 129)
    return "[" * depth + "]" * made.choice([depth, depth, depth, depth - 1, depth + 1])


def members(made):
    pairs = []
    if made.random() < 0.8:
        keys = ["op", "app", "locale", made.choice(["path", "text", "file", "text"])]
        made.shuffle(keys)
        pairs = [(key, '"' + made.choice(KNOWN.get(key, WORDS)) + '"') for key in keys]
        if made.random() < 0.7:
            return pairs
    for _ in range(made.randint(0, 4)):
        key = made.choice(KEYS)
        pairs.insert(made.randint(0, len(pairs)), (key, value(made, key)))
    return pairs


def odd_line(made):
    def gap():
        return made.choice(SPACES) if made.random() < 0.02 else ""

    if made.random() < 0.02:
        return made.choice(VALUES + NUMBERS)
    parts = [f'{gap()}"{key}"{gap()}:{gap()}{value}{gap()}' for key, value in members(made)]
    return gap() + "{" + ",".join(parts) + "}" + gap() + (made.choice(["", "x", "{}", ",", "\x00", "]"]) if made.random() < 0.03 else "")


@pytest.fixture(scope="module")
def odd_lines():
    made, lines = random.Random(1), []
    for _ in range(COUNT):
        data = odd_line(made).encode("utf-8", "surrogatepass")
        if made.random() < 0.03 and data:
            place = made.randrange(len(data))
            data = data[:place] + bytes([made.choice([0xFF, 0x80, 0xC0, 0xED, 0x00, 0x22, 0x5C])]) + data[place + 1:]
        lines.append(data.replace(b"\n", b" "))
    return lines


@pytest.fixture(scope="module")
def odd_replies(program, odd_lines):
    replies = run([program, "serve"], b"\n".join(odd_lines) + b"\n").stdout.splitlines()
    assert len(replies) == COUNT and sum(b'"error"' not in reply for reply in replies) > COUNT // 100
    return replies


def with_member(line, member):
    """Returns the line with one member more at the front of its object, if it has a brace."""
    front, brace, rest = line.partition(b"{")
    comma = b"" if rest.lstrip(b" \t\r").startswith(b"}") else b","
    return front + brace + member + comma + rest if brace else line


def same_replies(lines, wanted, program):
    for line, reply, other in zip(lines, wanted, run([program, "serve"], b"\n".join(lines) + b"\n").stdout.splitlines(), strict=True):
        assert other == reply, line


def test_ignored_members(program, odd_lines, odd_replies):
    same_replies([with_member(line, MEMBERS[at % len(MEMBERS)]) for at, line in enumerate(odd_lines)], odd_replies, program)


def test_another_build(request, odd_lines, odd_replies):
    other = request.config.getoption("--beside")
    if not other:
        pytest.skip("no other build is named by --beside")
    same_replies(odd_lines, odd_replies, os.path.abspath(other))
