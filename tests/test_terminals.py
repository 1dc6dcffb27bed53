"""Commands and tools on a pseudo-terminal beside the same ones in pipes. On a terminal, control characters and those that control the writing direction are escaped,
in items and texts as in JSON, in names and arguments as in messages, and an error of a file ends with its reason; all else is as in a pipe, where names
and the text of items are printed as they are. `json` escapes most in both.
"""
import json
import os
import pty
import re
import subprocess
import termios
import threading
import unicodedata

import pytest
from support.program import TOP, Outcome, Resb, Skipped, rows

IN_JSON = [*range(0x7F, 0xA0), *range(0x202A, 0x202F), *range(0x2066, 0x206A)]
CONTROLS = [*IN_JSON, 0x061C, 0x200E, 0x200F]
OTHERS = [0x7E, 0xA0, 0xAD, 0x61B, 0x61D, 0x65C, 0x200B, 0x200D, 0x2010, 0x2029, 0x202F, 0x2065, 0x206A, 0x1F600]
TEXT = "".join(f"a{chr(code)}" for code in [*CONTROLS, *OTHERS])
LONG = "".join(chr(CONTROLS[i % len(CONTROLS)]) + "x" * (i % 7) for i in range(40_000))
# a sequence that clears the screen, a line feed, C1's form of a sequence, and a control of the writing direction
NAME = "n\x1b[2J\n\x07\x9b1mo\u202ep\u2066q\u061cr\u200es"
TOO_LONG, NOBODY = "n" * 300, 65534


def escaped(text, form, controls):
    return "".join(form.format(ord(c)) if ord(c) in controls else c for c in text)


def spelled(text, controls=(*CONTROLS, *range(0x09), *range(0x0B, 0x20))):
    """Returns a text with its controls as JSON escapes them, except line feeds and tabs."""
    return escaped(text, "\\u{:04x}", controls)


def shown(name):
    """Returns a name with its controls as a message shows them on a terminal."""
    return escaped(name, "\\u{{{:x}}}", (*CONTROLS, *range(0x20)))


def opened():
    """Returns the two ends of a terminal that changes no byte."""
    try:
        master, slave = pty.openpty()
    except OSError as error:
        raise Skipped(f"there is no terminal: {error}") from None
    modes = termios.tcgetattr(slave)
    modes[1] &= ~termios.OPOST
    modes[3] &= ~termios.ECHO
    termios.tcsetattr(slave, termios.TCSANOW, modes)
    return master, slave


def read_all(descriptor, into):
    while True:
        try:
            data = os.read(descriptor, 65536)
        except OSError:  # what a terminal answers once no program has it open
            return
        if not data:
            return
        into.append(data)


def run(resb, words, source=b"", on_terminal=(), user=None):
    """Returns the outcome of a command as texts; of its outputs those named are on a terminal."""
    ends, parts = [opened() if name in on_terminal else os.pipe() for name in ("out", "err")], ([], [])
    process = subprocess.Popen([resb.program, *words], cwd=resb.folder, stdin=subprocess.PIPE, stdout=ends[0][1], stderr=ends[1][1], user=user)
    readers = [threading.Thread(target=read_all, args=(end[0], part)) for end, part in zip(ends, parts)]
    for reader, end in zip(readers, ends):
        os.close(end[1])
        reader.start()
    process.stdin.write(source)
    process.stdin.close()
    status = process.wait(60)
    for reader, end in zip(readers, ends):
        reader.join()
        os.close(end[0])
    return Outcome(status, *(b"".join(part).decode(errors="surrogateescape") for part in parts))


def compare(resb, words, source=b"", change=lambda text: text, named=(), has=None):
    """Compares a command on a terminal with the same one in pipes. `change` is what a terminal makes of standard output, `named` are the names that
    messages have, and `has` is in the output to pipes."""
    def with_names(text):
        for word in named:
            text = text.replace(word, shown(word))
        return text

    plain = run(resb, words, source)
    assert has is None or has in plain.stdout + plain.stderr
    assert run(resb, words, source, ("out",)) == (plain.status, with_names(change(plain.stdout)), plain.stderr)
    errors = run(resb, words, source, ("err",))
    lines, wanted = errors.stderr.split("\n"), with_names(plain.stderr).split("\n")
    assert errors[:2] == plain[:2] and len(lines) == len(wanted)
    # an error ends with a hint
    assert [line[:len(plain_line)] for line, plain_line in zip(lines, wanted)] == wanted and list(map(shown, lines)) == lines


def compare_cause(resb, words, line, cause, user=None):
    """Checks that a line is printed in a pipe, and on a terminal with its cause."""
    for on_terminal, wanted in ((), line), (("out",), line), (("err",), f"{line}: {cause}"):
        status, _, errors = run(resb, words, b"", on_terminal, user)
        assert (status > 0, errors) == (True, f"{wanted}\n"), on_terminal


@pytest.fixture
def folder(resb):
    """The program in a folder with a bundle whose items have each control."""
    resb.put("root.txt", 'root{s{"%s"}l{"%s","x"}t{k{"%s"}}a:alias{"/LOCALE/s"}}' % (TEXT, TEXT, TEXT))
    resb.put("other.txt", 'root{s{"%s"}}' % TEXT[1:])
    resb.output("compile", "-q", "root.txt", "root.res")
    return resb


def commands(kind):
    """Returns the rows of console/terminals.jsonl of a kind: commands over items that spell controls out, whether one "has" the text in a pipe, and whether
    it escapes most there; commands with the odd NAME in their messages; and those over files that can't be read or written, with the line and the cause."""
    filled = json.loads(json.dumps(rows("console/terminals.jsonl")).replace("TOO_LONG", TOO_LONG).replace("NAME", json.dumps(NAME)[1:-1]))
    return [row for row in filled if row.pop("of") == kind and ("/dev/full" not in row["words"] or os.path.exists("/dev/full"))]


def named_by_words(value):
    return " ".join(value)[:60] if isinstance(value, list) else ""


@pytest.mark.parametrize("words, has, is_escaped", [row.values() for row in commands("items")], ids=named_by_words)
def test_items(folder, words, has, is_escaped):
    compare(folder, words, change=spelled, has=spelled(TEXT, IN_JSON) if is_escaped else TEXT if has else None)


def test_replies(folder):
    compare(folder, ["fmt", "-"], folder.get("root.txt"), change=spelled, has=TEXT)
    look = b'{"op":"look","app":"shop","locale":"root","path":"%s"}\n'
    source = folder.output("lines", "shop", "root.txt") + b"".join(look % path for path in (b"s", b"l", b"t", b"", b"none")) + b"\xc2\x9b\n"
    compare(folder, ["serve"], source, change=spelled, has=TEXT)


def test_replies_in_pieces(resb):
    """Replies that are written in pieces, whose ends are inside each control at some place."""
    lines = []
    for i in range(3):
        request = {"app": f"a{i}", "locale": "root"}
        lines += [{"op": "install", "text": 'root{a{"%s%s"}}' % ("x" * i, LONG), **request}, {"op": "export", **request}]
        lines += [{"op": op, "path": "", **request} for op in ("tree", "look")]
    compare(resb, ["serve", "--extended"], "".join(f"{json.dumps(line)}\n" for line in lines).encode(), change=spelled, has=LONG)


def test_texts(resb):
    name = resb.put(NAME + "texts.txt", "// \x1b[31m%s\r\nroot{a{\"%s\"\"%s\"}b{\"{0\"}}" % (TEXT, TEXT, TEXT))
    compare(resb, ["fmt", "--diff", name], change=lambda out: spelled(out.replace(name, shown(name))), has=TEXT)
    compare(resb, ["fmt", "--check", name], named=[NAME], has=NAME)
    github = NAME.replace("\n", "%0A")
    for form in ("text", "github", "json", "sarif"):
        compare(resb, ["lint", "--color", "never", "--format", form, name], change=lambda out: out.replace(github, shown(github)), named=[NAME])


def columns(text):
    return sum(2 if unicodedata.east_asian_width(c) in "WF" else 0 if unicodedata.category(c) in ("Mn", "Me", "Cf", "Cc") else 1 for c in text)


def snippet(line, column, on_terminal):
    """Returns the lines that show a column, which counts UTF-16 units, with at most 60 characters before it and from it on."""
    units = line.encode("utf-16-le")
    before, after = units[:2 * column - 2].decode("utf-16-le"), units[2 * column - 2:].decode("utf-16-le")
    before, after = "…" * (len(before) > 60) + before[-60:], after[:60] + "…" * (len(after) > 60)
    before, after = (text.replace("\t", "    ") for text in (before, after))
    before, after = (shown(text) if on_terminal else text for text in (before, after))
    return before + after, " " * columns(before) + "^"


# lines with a closing brace that is too much, at `¦`, where the caret is to be
LINES = ['a { "{0} ¦}" }', '\ta { "日本語 {0} e\u0301 ｶﾅ😀 ¦}" }', '  a { "\x1b[31m {0}\u202e ¦}" }\r', 'a { "{0} %s ¦} %s" }' % ("é" * 200, "x" * 200), 'a { "{0} %s ¦}" }' % ("y" * 49)]


@pytest.mark.parametrize("line", LINES, ids=range(len(LINES)))
def test_lines_of_findings(resb, line):
    """`lint --format full`, the default on a terminal, shows the line and the place of each finding."""
    before, after = line.split("¦")
    column, text = len(before.encode("utf-16-le")) // 2 + 1, before + after
    resb.put("de.txt", f"de {{\n{text}\n}}\n")
    name = "stray-brace"
    message = "a closing brace closes no argument; is an opening brace missing?"
    for on_terminal, words in (((), ["--format", "full"]), (("out",), ["--color", "never"])):
        shown_line, caret = snippet(text.rstrip("\r"), column, bool(on_terminal))
        wanted = f"warning[{name}]: {message}\n     --> de.txt:2:{column}\n    2 | {shown_line}\n      | {caret}\n\n"
        found = run(resb, ["lint", *words, "--allow", "open-direction", "de.txt"], b"", on_terminal)
        assert found == (0, wanted, "")


def test_colors(resb, monkeypatch):
    """Colours are on a terminal, except with NO_COLOR, or as `--color` says; they are in no other format than `text` and `full`."""
    resb.put("de.txt", 'de { a { "x" } a { "y" } b { "{0}}" } }')
    def colored(form, on_terminal, color=()):
        out, plain = (run(resb, ["lint", *form, *words, "de.txt"], b"", on_terminal).stdout for words in (color, ("--color", "never")))
        assert re.sub("\x1b\\[[0-9;]*m", "", out) == plain and "\x1b" not in plain
        return "\x1b[1;31merror\x1b[0m" in out

    monkeypatch.delenv("NO_COLOR", raising=False)
    for form in ([], ["--format", "text"], ["--format", "full"]):
        assert [colored(form, on) for on in ((), ("out",), ("err",))] == [False, True, False]
        assert [colored(form, on, ("--color", word)) for word in ("always", "never", "auto") for on in ((), ("out",))] == [True, True, False, False, False, True]
    assert not colored(["--format", "json"], ("out",), ("--color", "always"))
    monkeypatch.setenv("NO_COLOR", "1")
    assert not colored([], ("out",)) and colored([], ("out",), ("--color", "always"))
    monkeypatch.setenv("NO_COLOR", "")
    assert colored([], ("out",))
    status, _, errors = run(resb, ["lint", "--color", "red", "de.txt"])
    assert (status, errors) == (2, "resb: --color is auto, always or never\n")


@pytest.mark.parametrize("form", ["table", "list", "csv", "json"])
def test_modules(resb, form):
    module = [resb.put(f"{NAME}m/{locale}.txt", f'{locale}{{a{{"x"}}{more}}}') for locale, more in (("root", 'b{"y"}'), ("de", ""))]
    compare(resb, ["coverage", "--format", form, *module], named=[NAME])


def test_folders(resb):
    for folder in "old", "new":
        resb.put(f"{folder}/{NAME}.txt", 'root{a{"%s"}}' % folder)
    compare(resb, ["diff", "old", "new"], named=[NAME], has=NAME)
    compare(resb, ["diff", "--stat", "old", "new"], named=[NAME], has=NAME)
    plain, shell = (run(resb, ["diff", "--json", "old", "new"], b"", on).stdout for on in ((), ("out",)))
    assert list(map(json.loads, shell.splitlines())) == list(map(json.loads, plain.splitlines())) and spelled(shell) == shell


RES, BAD = NAME + ".res", NAME + "bad.res"
@pytest.fixture
def named(folder):
    data = folder.get("root.res")
    for path, content in ((RES, data), (BAD, data[:40]), (NAME + ".txt", 'root{a{"x"}')):
        folder.put(path, content)
    return folder


@pytest.mark.parametrize("words", [row["words"] for row in commands("names")], ids=lambda words: " ".join(words).replace(NAME, "NAME"))
def test_names(named, words):
    """Messages with the name of a file, an argument or a key."""
    compare(named, words, named=[NAME], has=NAME if words[0] == "check" and words[1] == RES else None)


def test_icu2text(named):
    tool = Resb(TOP / "tools" / "icu2text", named.folder)
    compare(tool, ["root.res"], change=spelled, has="a\u061ca\u200ea\u200f")
    for words in (["missing" + NAME], ["--to", ".", BAD], ["--" + NAME]):
        compare(tool, words, named=[NAME], has=NAME if words[0] != "--to" else None)


def test_exchange(named, monkeypatch):
    """Messages escape names also in pipes."""
    monkeypatch.setenv("RESB", named.program)
    tool, files = Resb(TOP / "tools" / "resb-exchange", named.folder), ["--source", "root.txt", "--target"]
    for form in ("json", "properties"):
        compare(tool, ["export", "--format", form, *files, "root.txt"], change=spelled, has="a\u061ca\u200ea\u200f")
    compare(tool, ["export", "--format", "json", *files, "missing" + NAME], has=shown(NAME))
    compare(tool, ["export", "--format", NAME, *files, "root.txt"])


def test_names_in_json(named):
    """Inside quotes of JSON names are escaped in a pipe and on a terminal."""
    for words in (["check", "--json", RES, BAD], ["lint", "--format", "json", NAME + ".txt"]):
        compare(named, words, has=spelled(NAME, (*CONTROLS, *range(0x20))))
    compare(named, ["look", "--trace", "root", "s", f"root={RES}"], change=spelled, named=[NAME], has=NAME)


@pytest.mark.parametrize("words, line, cause", [row.values() for row in commands("causes")], ids=named_by_words)
def test_causes(folder, words, line, cause):
    os.mkdir(folder.folder / "folder")
    os.symlink("loop.res", folder.folder / "loop.res")
    folder.put("in/de.txt", "de{}")
    compare_cause(folder, words, line, cause)


def test_denied(folder):
    """Files that may not be read. Run by root, which may read any file, the commands run as nobody."""
    user = NOBODY if os.geteuid() == 0 else None
    folder.put("secret.res", "")
    for path, mode in (("", 0o755), ("root.txt", 0o644), ("root.res", 0o644), ("secret.res", 0)):
        (folder.folder / path).chmod(mode)
    os.mkdir(folder.folder / "closed", 0o555)
    try:
        if run(folder, ["check", "root.res"], user=user).status:
            raise Skipped("nobody can't read the test's folder")
    except OSError:
        raise Skipped("nobody can't run the program") from None
    compare_cause(folder, ["check", "secret.res"], "cannot read secret.res", "permission denied", user)
    for file in "secret.res", "closed/a.res":
        compare_cause(folder, ["compile", "root.txt", file], f"cannot write {file}", "permission denied", user)
