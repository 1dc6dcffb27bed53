"""`resb fmt` over the texts of the repository and random ones with comments everywhere.

Each formatted text compiles to the bytes of the text that it was made from, has its comments in their order, and is left alone by a second run; a text
that `resb text` prints is formatted already; differences apply by `patch`. Then files in place: links, permissions, unreadable ones, times, and a text
that changes meanwhile.
"""
import os
import re
import shutil
import subprocess
import threading

import pytest
from hypothesis import given
from support import making
from support.program import TOP, Skipped, run

OWN = sorted(str(path.relative_to(TOP)) for path in (TOP / "examples").rglob("*.txt"))
# an escape, a quoted string, or a comment, which is the group
COMMENT = re.compile(r'\\.|"(?:\\.|[^"\\])*"|(//[^\n\r\u2029]*(?<![ \t])|/\*.*?\*/)', re.S)
UNFORMATTED, FORMATTED = b'de{a{"x"}}', b'de {\n    a { "x" }\n}\n'


def comments(text):
    """Returns the comments of a text, each without its line end and the blanks before that."""
    return [found[1] for found in COMMENT.finditer(text) if found[1]]


def check_texts(resb, texts):
    """Formats texts in place and compares each with what it was; a command takes them all, so that many cost little more than one."""
    names = [resb.put(f"{at}.txt", text) for at, text in enumerate(texts)]
    before, formatted = compiled(resb, names), [resb.output("fmt", "-", stdin=text) for text in texts]
    check_differences(resb, names, texts, formatted)
    assert resb.output("fmt", "-q", *names) == b"" and list(map(resb.get, names)) == formatted
    assert resb.output("fmt", "--check", *names) == b"" and compiled(resb, names) == before
    assert [comments(text.decode()) for text in texts] == [comments(text.decode()) for text in formatted]
    printed = [resb.put(f"p{at}.txt", resb.output("text", resb.put("p.res", data))) for at, data in enumerate(before)]
    assert resb.output("fmt", "--check", *printed) == b""


def compiled(resb, names):
    (resb.folder / "files").mkdir(exist_ok=True)
    resb.output("compile", "-q", "--to", "files", *names)
    return [resb.get("files/" + name.replace(".txt", ".res")) for name in names]


def check_differences(resb, names, texts, formatted):
    done, changed = resb("fmt", "--diff", *names), texts != formatted
    assert (done.status, done.stderr, bool(done.stdout)) == (int(changed), b"", changed)
    if changed and shutil.which("patch"):
        assert run(["patch", "--binary", "-s", "-p0"], cwd=resb.folder, stdin=done.stdout).status == 0
        assert list(map(resb.get, names)) == formatted
        for name, text in zip(names, texts):
            resb.put(name, text)


@making.times(0.08)
@given(making.sources)
def test_random_texts(shared, random):
    """Texts that are drawn together; a failure names the first one that differs."""
    check_texts(shared, [making.spelled(random, making.good_bundle(random)) for _ in range(50)])


@making.times(0.5)
@given(making.cases(making.good_bundle), making.sources)
def test_random_text(shared, bundle, random):
    """A text whose bundle is reduced after a failure."""
    check_texts(shared, [making.spelled(random, bundle)])


@pytest.mark.parametrize("name", OWN)
def test_own_text(resb, name):
    text = (TOP / name).read_bytes()
    if resb("compile", "-", "-", stdin=text).status == 0:
        check_texts(resb, [text])


def test_files_in_place(resb):
    """Files are replaced, and other things left alone."""
    plain, link = resb.folder / resb.put("plain.txt", UNFORMATTED), resb.folder / "link.txt"
    plain.chmod(0o640)
    link.symlink_to("plain.txt")
    assert resb.output("fmt", "link.txt") == b"link.txt: formatted\n"
    assert link.is_symlink() and plain.read_bytes() == FORMATTED and plain.stat().st_mode & 0o777 == 0o640
    before = plain.stat()
    resb.output("fmt", "plain.txt")
    assert (before.st_ino, before.st_mtime_ns) == (plain.stat().st_ino, plain.stat().st_mtime_ns)
    plain.write_bytes(UNFORMATTED)
    for words in (["--check"], ["--diff"], ["--check", "--diff"]):
        assert resb("fmt", *words, "plain.txt").status == 1 and plain.read_bytes() == UNFORMATTED
    done = resb("fmt", "/dev/null", "no/such.txt")
    assert done.status == 1 and b"cannot read no/such.txt" in done.stderr
    assert [path.name for path in resb.folder.iterdir() if path.name.startswith(".resb")] == []


def test_read_only_file(resb):
    """A read-only file is left alone. Root writes all files, so the program then runs as nobody."""
    plain = resb.folder / resb.put("plain.txt", UNFORMATTED)
    plain.chmod(0o444)
    resb.folder.chmod(0o777)
    try:
        done = resb("fmt", "plain.txt", **{"user": 65534} if os.geteuid() == 0 else {})
    except (OSError, subprocess.SubprocessError):
        raise Skipped("nobody can't run the program") from None
    if done.status == 2 or b"cannot read" in done.stderr:
        raise Skipped("nobody can't read the test's folder")
    assert done == (1, b"", b"cannot write plain.txt\n") and plain.read_bytes() == UNFORMATTED


def test_race(resb):
    """A text that changes meanwhile stays, or is formatted; a change after the program's last look, in about one of a hundred runs, is lost."""
    path, changed = resb.folder / "race.txt", b"de{changed{\"y\"}}"
    large = b"de{" + b"".join(b"k%d{\"x\"}" % i for i in range(40000)) + b"}"
    formatted, lost = resb.output("fmt", "-", stdin=changed), 0
    for turn in range(12):
        path.write_bytes(large)
        timer = threading.Timer(turn * 0.01, os.replace, (resb.folder / resb.put("other", changed), path))
        timer.start()
        done = resb("fmt", "race.txt")
        timer.join()
        lost += path.read_bytes() not in (changed, formatted)
        assert done.status == 0 or done.stderr == b"resb: the text changed while it was formatted: race.txt\n"
    assert lost <= 2
