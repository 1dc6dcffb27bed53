"""Tries to make `compile`, `fmt` and `diff` destroy a file, or hang at one: the known ways one by one; random folders of files, bundles, texts, links,
pipes and devices under random command lines, limits and signals; and, by hand, folders, links and files that change while `compile` runs.

After a command only the file that OUT leads to may have changed, under all of its names, and it is whole, the older one or the right new one; no text
and no input has changed, except by `fmt` in its white space; owner, group and mode are as before; nothing is missing, and nothing is new except OUT.
After a signal a file that was written in place may be half written, if the new one is whole beside it (notes/attacks.md).
"""
import collections
import contextlib
import os
import pathlib
import random
import shutil
import signal
import stat
import subprocess
import sys
import threading
import time

import pytest
from hypothesis import given
from support import making
from support.files import OLDER
from support.program import TOP, limited_output, run

TEXTS = {name: f'{name}{{a{{"{name}"}}}}'.encode() for name in ("de", "fr", "it")}
TEXTS["big"] = b"big{" + b"".join(b'k%d{"a string of some length"}' % i for i in range(1500)) + b"}"
NOBODY, UNFINISHED = 65534, ".resb-unfinished-"


@pytest.fixture(scope="module")
def bundles(program):
    """The file of each text."""
    return {name: run([program, "compile", "-", "-"], data).stdout for name, data in TEXTS.items()}


def bare(data):
    """Returns the bytes that formatting keeps."""
    return b"".join(data.split())


# ---- the ways that once took a file


def refuses(resb, status, message, *words):
    assert resb(*words)[::2] == (status, message.encode())


def put(resb, **files):
    """Writes files, whose names have two underscores in place of a slash, and one in place of a full stop."""
    for name, data in files.items():
        resb.put(name.replace("__", "/").replace("_", "."), data)


def test_names_of_one_file(resb, bundles):
    """Two texts whose files are one, by `.`, a link, a link to a folder, or a further name."""
    put(resb, src__a__b_txt=TEXTS["de"], src__a__b_genrb=TEXTS["fr"], src__x__d_txt=TEXTS["de"], src__y__d_txt=TEXTS["fr"])
    twice, path, pair = "resb: two texts have one file: %s and %s\n", resb.folder, ("src/a/b.txt", "src/a/./b.genrb")
    refuses(resb, 2, twice % pair, "compile", "--to", "out", "--from", "src", *pair)
    assert not (path / "out").exists()
    os.makedirs(path / "linked/y")
    os.symlink("y", path / "linked/x")
    pair = "src/x/d.txt", "src/y/d.txt"
    refuses(resb, 2, twice % pair, "compile", "--to", "linked", "--from", "src", *pair)
    assert os.listdir(path / "linked/y") == []
    refuses(resb, 0, "", "compile", "--to", "apart", "--from", "src", *pair)
    put(resb, de_txt=TEXTS["de"], fr_txt=TEXTS["fr"], o__x=b"", two__de_res=bundles["it"])
    os.symlink("fr.res", path / "o/de.res")
    refuses(resb, 2, twice % ("de.txt", "fr.txt"), "compile", "--to", "o", "de.txt", "fr.txt")
    refuses(resb, 2, twice % ("fr.txt", "de.txt"), "compile", "--to", "o/", "fr.txt", "de.txt")
    assert not (path / "o/fr.res").exists()
    os.link(path / "two/de.res", path / "two/fr.res")
    refuses(resb, 2, twice % ("de.txt", "fr.txt"), "compile", "--to", "two", "de.txt", "fr.txt")
    assert resb.get("two/de.res") == bundles["it"]


def test_files_that_are_no_bundles(resb, bundles):
    foreign, older = "resb: OUT isn't a bundle file, and --force isn't given: %s\n", bytearray(bundles["it"])
    older[16] = 2  # the version that genrb writes
    put(resb, de_txt=TEXTS["de"], EN_TXT=b"en{}", en_Txt=b"en{}", notes=b"mine", new=b"", older_res=bytes(older), out__de_res=b"mine")
    for name in ("EN.TXT", "en.Txt"):
        for words in [], ["--force"]:
            refuses(resb, 2, f"resb: OUT is a bundle text: {name}\n", "compile", *words, "de.txt", name)
        assert resb.get(name) == b"en{}"
    refuses(resb, 2, foreign % "notes", "compile", "de.txt", "notes")
    refuses(resb, 1, foreign % "out/de.res", "compile", "--to", "out", "de.txt")
    assert (resb.get("notes"), resb.get("out/de.res")) == (b"mine", b"mine")
    for words in (["de.txt", "new"], ["de.txt", "older.res"], ["--force", "de.txt", "notes"]):
        refuses(resb, 0, "", "compile", *words)
        assert resb.get(words[-1]) == bundles["de"]
    refuses(resb, 0, "", "compile", "--force", "--to", "out", "de.txt")


def rights(path):
    """Returns what an access list says of a file, and its attribute, where its file system stores them."""
    shown = subprocess.run(["getfacl", "-n", "-p", path], capture_output=True, check=True).stdout if shutil.which("getfacl") else None
    return shown, [os.getxattr(path, name) for name in os.listxattr(path) if name == "user.note"]


@pytest.mark.skipif(os.geteuid() != 0, reason="files of another owner, which only root can make")
@pytest.mark.parametrize("name, words", [("de.txt", ["fmt", "de.txt"]), ("o.res", ["compile", "de.txt", "o.res"]),
                                         ("o.res", ["compile", "--to", ".", "-q", "o.txt"])])
def test_another_owner(resb, bundles, name, words):
    """Files of another owner, whose caller may write them, keep owner, rights and attributes."""
    put(resb, de_txt=TEXTS["de"], o_txt=TEXTS["fr"], o_res=bundles["it"])
    path, before = resb.folder / name, resb.get(name)
    os.chown(path, NOBODY, 65533)
    path.chmod(0o640)
    with contextlib.suppress(OSError):
        os.setxattr(path, "user.note", b"1")
    if shutil.which("setfacl"):
        subprocess.run(["setfacl", "-m", "u:1:rw", path], check=True)
    granted, state = rights(path), path.stat()
    refuses(resb, 0, "", *words)
    now = path.stat()
    assert resb.get(name) != before and (now.st_uid, now.st_gid, now.st_mode) == (NOBODY, 65533, state.st_mode) and rights(path) == granted
    assert [other for other in os.listdir(resb.folder) if UNFINISHED in other] == []


def test_further_names(resb, bundles):
    """Files with a further name keep it."""
    put(resb, de_txt=TEXTS["de"], o_res=bundles["it"], text_res=TEXTS["fr"], long_res=bundles["big"], big_txt=TEXTS["big"])
    for name in ("de.txt", "o.res", "text.res", "long.res"):
        os.link(resb.folder / name, resb.folder / f"other {name}")
    refuses(resb, 0, "", "compile", "de.txt", "o.res")
    refuses(resb, 0, "", "fmt", "de.txt")
    for name in ("de.txt", "o.res"):
        assert resb.get(f"other {name}") == resb.get(name) and os.path.samefile(resb.folder / name, resb.folder / f"other {name}")
    assert resb.get("de.txt") != TEXTS["de"]
    refuses(resb, 0, "", "compile", "--force", "de.txt", "text.res")
    assert resb.get("other text.res") == TEXTS["fr"]
    # a shorter file, and one for which there is no space
    refuses(resb, 0, "", "compile", "de.txt", "long.res")
    assert resb.get("other long.res") == bundles["de"]
    assert resb("compile", "big.txt", "long.res", preexec_fn=limited_output(8192))[::2] == (2, b"cannot write long.res\n")
    assert resb.get("other long.res") == bundles["de"]


def test_folders_of_what_is_no_file(resb):
    """`diff` of folders with names that aren't UTF-8, and with what is no file."""
    put(resb, old__a_txt=TEXTS["de"], new__a_txt=TEXTS["fr"], new__x=b"", old__z_txt=TEXTS["it"], new__z_txt=TEXTS["it"])
    differs, old = b'a.txt: - a "de"\na.txt: + a "fr"\n', os.fsencode(resb.folder / "old")
    open(old + b"/b\xff.bin", "wb").close()
    (resb.folder / "new/sub.txt").mkdir()
    for name in "new/q.txt", "old/q.res":
        os.mkfifo(resb.folder / name)
    assert resb("diff", "old", "new") == (1, differs, b"")
    open(old + b"/b\n\xff\xc3\xa9.TXT", "wb").close()
    os.symlink("nowhere", resb.folder / "new/gone.res")
    put(resb, old__q_txt=TEXTS["it"])
    errors = b"cannot read old/b\n\\xff\xc3\xa9.TXT\ncannot read new/gone.res\ncannot read new/q.txt\n"
    assert resb("diff", "old", "new") == (2, differs, errors)


PRINTING = [["fmt", "--diff", "de.txt"], ["fmt", "--check", "de.txt"], ["fmt", "-"], ["--help"], ["help"], ["help", "fmt"], ["fmt", "--help"], ["--version"],
            ["text", "o.res"], ["json", "o.res"], ["get", "o.res", ""], ["lines", "shop", "de.txt"], ["lint", "--list"], ["explain"],
            ["diff", "o.res", "de.txt"], ["check", "o.res"], ["compile", "de.txt", "-"]]


def test_readers_that_end(resb, bundles):
    """A command whose reader has ended prints no message."""
    put(resb, de_txt=TEXTS["big"], o_res=bundles["big"])
    for command in [*([resb.program, *words] for words in PRINTING), [sys.executable, TOP / "tools" / "icu2text", "o.res"]]:
        read, written = os.pipe()
        os.close(read)
        done = run(command, TEXTS["big"], stdout=written, cwd=resb.folder)
        os.close(written)
        assert done.stderr == b"" and (command[0] == resb.program or done.status == 2), command


def test_edits_while_formatting(resb):
    """At most a quarter of the edits is lost that are saved up to 2 ms after the new file of `fmt` is there."""
    lost, turns, end = 0, 0, time.monotonic() + 3
    while time.monotonic() < end:
        turns += 1
        edit = b'big{edited{"%d"}}' % turns
        put(resb, de_txt=TEXTS["de"], edit=edit)
        process = subprocess.Popen([resb.program, "fmt", "-q", "de.txt"], cwd=resb.folder, stderr=subprocess.DEVNULL)
        while process.poll() is None and not any(UNFINISHED in name for name in os.listdir(resb.folder)):
            pass
        moment = time.perf_counter() + random.random() * 0.002
        while time.perf_counter() < moment:
            pass
        os.replace(resb.folder / "edit", resb.folder / "de.txt")
        process.wait(20)
        lost += bare(resb.get("de.txt")) != bare(edit)
    assert lost * 4 <= turns + 8


# ---- random folders and commands

NAMES = ["a.res", "b.res", "c", "d.txt", "e.txt", "f.rb", "l1", "l2", "l3.res", "sub/g.res", "sub/h", "sub/de.res", "no/i.res", "x" * 251 + ".res"]
SPECIAL = ["-", "/dev/stdin", "/dev/stdout", "/dev/fd/0", "/dev/fd/1", "/dev/fd/3", "/proc/self/fd/1", "/dev/null", "", ".", "sub", "sub/", "./a.res",
           "sub/../b.res", "de.txt", "fr.txt", "it.rb", "big.txt", "a.res/"]
Seen = collections.namedtuple("Seen", "mode owner group data file")


def build(chance, folder, bundles):
    for name in ("sub", "closed"):
        (folder / name).mkdir(parents=True)
    for name, data in TEXTS.items():
        (folder / f"{name}.{'rb' if name == 'it' else 'txt'}").write_bytes(data)
    for name in (name for name in NAMES if not name.startswith("no/")):
        kind, path = chance.random(), folder / name
        if kind < 0.35:
            path.write_bytes(chance.choice((b"", b"older", *TEXTS.values(), *bundles, *bundles)))
            path.chmod(chance.choice((0o644, 0o600, 0o444)))
        elif kind < 0.6:
            path.symlink_to(chance.choice((*NAMES, *SPECIAL[1:], "../d.txt", "../a.res", str(folder / "b.res"), "nowhere")) or "x")
        elif kind < 0.68:
            with contextlib.suppress(OSError):
                os.link(folder / chance.choice(("de.txt", "it.rb", "a.res", "b.res", "f.rb")), path)
        elif kind < 0.72 and os.geteuid() == 0:
            os.mknod(path, stat.S_IFCHR | 0o666, os.makedev(1, 3))
    if chance.random() < 0.1:
        (folder / "sub").chmod(0o555)


def paths_in(folder):
    return [os.path.join(place, name) for place, folders, names in os.walk(folder) for name in folders + names]


def seen(folder):
    """Returns what is in a folder: of each name its mode, owner and group, its bytes or where it leads, and which file it is."""
    found = {}
    for path in map(pathlib.Path, paths_in(folder)):
        state = path.lstat()
        data = os.fsencode(os.readlink(path)) if path.is_symlink() else path.read_bytes() if path.is_file() else b""
        found[os.path.relpath(path, folder)] = Seen(state.st_mode, state.st_uid, state.st_gid, data, state.st_ino)
    return found


def followed(path):
    """Returns what a name leads to, up to a descriptor: those of this process are other ones."""
    for _ in range(40):
        path = os.path.normpath(path)
        if path.startswith(("/dev", "/proc")) or not os.path.islink(path):
            break
        path = os.path.join(os.path.dirname(path), os.readlink(path))
    return path


def command(chance):
    choose, kind = chance.choice, chance.random()
    texts = [choose(("de.txt", "fr.txt", "it.rb", "big.txt", choose(NAMES))) for _ in range(choose((1, 2, 3)))]
    if kind < 0.2:
        return ["fmt", *choose(([], [], ["--check"], ["--diff"], ["-q"])), *texts]
    if kind < 0.4:
        return ["compile", "--to", choose(("sub", ".", "", "nowhere", "closed", "l1", "./sub/")), *texts]
    source = choose(("de.txt", "fr.txt", "it.rb", "big.txt", "-", "-", choose(NAMES), choose(SPECIAL)))
    return ["compile", source, choose((*NAMES, *SPECIAL)), *["--force"] * (kind > 0.85)]


class Attack:
    """A command over a folder, with files as its standard input and output, and sometimes a signal."""

    def __init__(self, program, folder, chance, bundles):
        self.program, self.folder, self.chance, self.files = program, folder, chance, set(bundles)
        self.words, self.as_user = command(chance), os.geteuid() == 0 and chance.random() < 0.4
        self.source = self.plain(chance.choice(("de.txt", "it.rb", "f.rb", "a.res", "")))
        self.target = chance.choice((str(folder.parent / "out"), str(folder.parent / "out"), self.plain("a.res"), self.plain("c"), os.devnull))

    def plain(self, name):
        """Returns the path of a file of the folder, or of the null device if there is no such file."""
        path = self.folder / name
        return str(path) if path.is_file() and not path.is_symlink() else os.devnull

    def prepare(self):
        most = self.chance.choice((None, None, 0, 40, 8192))

        def limits():
            if most is not None:
                limited_output(most)()
            if self.as_user:
                os.setgroups([])
                os.setgid(NOBODY)
                os.setuid(NOBODY)

        return limits

    def run(self):
        if os.geteuid() == 0:
            for path in [self.folder, *paths_in(self.folder)]:
                if self.chance.random() < (0.8 if self.as_user else 0.3):
                    os.chown(path, NOBODY, NOBODY, follow_symlinks=False)
        with open(self.source, "rb") as source, open(self.target, "r+b" if self.target.startswith(str(self.folder)) else "wb") as target:
            # all names of the file that is standard output
            printed = [path for path in paths_in(self.folder) if os.path.samestat(os.lstat(path), os.fstat(target.fileno()))]
            self.printed = {os.path.relpath(path, self.folder) for path in printed}
            self.before = seen(self.folder)
            process = subprocess.Popen([self.program, *self.words], cwd=self.folder, stdin=source, stdout=target, stderr=subprocess.DEVNULL,
                                       preexec_fn=self.prepare())
            is_signalled = self.chance.random() < 0.3
            if is_signalled:
                time.sleep(self.chance.random() * 0.003)
                process.send_signal(self.chance.choice((signal.SIGTERM, signal.SIGINT, signal.SIGKILL)))
            self.status = process.wait(60)
        self.is_killed = is_signalled and self.status < 0

    def compare(self):
        after = seen(self.folder)
        half = [new.data for name, new in after.items() if name not in self.before and UNFINISHED in name] if self.is_killed else []
        assert set(self.before) - set(after) == set(), "a name is gone"
        # a text may have a further name, under which it is a bundle file
        others = {old.file for name, old in self.before.items() if not name.endswith(".txt")}
        for name, old in self.before.items():
            if after[name][:4] != old[:4] and name not in self.printed:
                self.compare_file(name, old, after[name], half, name.endswith(".txt") and old.file not in others)
        for name in set(after) - set(self.before):
            assert self.is_killed and os.path.basename(name).startswith(UNFINISHED) or after[name].data in self.files, f"{name} is new, and no whole file"
        if self.status == 0 and self.words[0] == "compile" and self.words[1] != "--to":
            self.compare_written()

    def compare_file(self, name, old, new, half, is_text):
        """Compares a changed file; `half` are the new files beside those that a signal left half written, though it may also come later."""
        has_force = "--force" in self.words
        assert stat.S_ISREG(old.mode) and new.mode == old.mode, f"{name} was {old.mode:o} and is {new.mode:o}"
        assert (new.owner, new.group) == (old.owner, old.group) or has_force, f"{name} was {old.owner}'s and is {new.owner}'s"
        if self.words[0] == "fmt":
            assert any(bare(data) == bare(old.data) for data in (new.data, *half)), f"{name} had {old.data[:80]!r} and has {new.data[:80]!r}"
            return
        assert new.data in self.files or any(data in self.files for data in half), f"{name} has {new.data[:80]!r}, no whole file"
        assert not is_text and (old.data not in TEXTS.values() or has_force) and name not in self.inputs(), f"{name}, a text, has changed"
        assert self.status == 0 or self.is_killed or self.words[1] == "--to", f"{name} has changed, and the status is not 0"

    def inputs(self):
        texts = self.words[3:] if self.words[1] == "--to" else self.words[1:2]
        real = {os.path.realpath(self.folder / (text or "in")) for text in texts if text not in ("-", "/dev/stdin", "/dev/fd/0")}
        if len(real) < len(texts):
            real.add(os.path.realpath(self.source))
        return {os.path.relpath(path, self.folder) for path in real}

    def compare_written(self):
        path = followed(os.path.join(self.folder, self.words[2]))
        if self.words[2] == "-" or path in ("/dev/stdout", "/dev/fd/1", "/proc/self/fd/1") or os.path.realpath(self.target) == os.path.realpath(path):
            path = self.target
        if os.path.isfile(path) and not path.startswith(("/dev", "/proc")):
            data = pathlib.Path(path).read_bytes()
            assert any(data.startswith(whole) for whole in self.files), f"{path} has {data[:80]!r}, and the status is 0"


@making.times(2)
@given(making.sources)
def test_random_commands(shared, bundles, chance):
    folder = shared.folder / "in"
    shutil.rmtree(folder, ignore_errors=True)
    build(chance, folder, bundles.values())
    attack = Attack(shared.program, folder, chance, bundles.values())
    attack.run()
    try:
        attack.compare()
    except AssertionError as wrong:
        raise AssertionError(f"{attack.words} with {attack.source} to {attack.target}, status {attack.status}, in {folder}: {wrong}") from None


# ---- changes while a command runs

LONG = b"root{" + b"".join(b'key%06d{"value"}' % i for i in range(40_000)) + b"}"
VICTIM = b'victim{a{"keep me"}}'
SECONDS = 5


def linked(target, name):
    """Makes a link beside a name, and gives it the name at once."""
    other = f"swap{random.randrange(1 << 30)}"
    os.symlink(target, other)
    os.replace(other, name)


def placed(data, name):
    other = f"swap{random.randrange(1 << 30)}"
    written(other, data)
    os.replace(other, name)


def written(name, data, mode="wb"):
    with open(name, mode) as out:
        out.write(data)


def is_kept(name):
    return lambda resb: resb.get(name) == VICTIM


def is_older_or_new(resb):
    return resb.get("o.res") in (OLDER, resb.get("wanted.res"))


# what `compile` is given, the files that are there, the steps that are taken over and over, and what must hold after each run
RACES = {
    "OUT is a file, nothing, or a link to a text": (
        ["long.txt", "o.res"], {}, [(linked, "victim.txt", "o.res"), (os.unlink, "o.res"), (placed, OLDER, "o.res")], is_kept("victim.txt")),
    "OUT is nothing, or a second name of a text": (
        ["long.txt", "o.res"], {}, [(os.link, "victim.txt", "o.res"), (os.unlink, "o.res")], is_kept("victim.txt")),
    "the folder of --to is renamed, and a link to the folder of the texts has its name for a while": (
        ["--to", "d", "long.txt"], {"d/other": b"", "texts/long.txt": VICTIM},
        [(os.rename, "d", "d2"), (os.symlink, "texts", "d"), (os.unlink, "d"), (os.rename, "d2", "d")], is_kept("texts/long.txt")),
    "OUT is replaced by an older file": (["long.txt", "o.res"], {"o.res": OLDER}, [(placed, OLDER, "o.res")], is_older_or_new),
    "the text grows and is cut": (
        ["grows.txt", "o.res"], {"grows.txt": LONG, "o.res": OLDER},
        [*[(written, "grows.txt", b"/* more */" * 1000, "ab")] * 2, (os.truncate, "grows.txt", len(LONG) // 2), (written, "grows.txt", LONG)],
        lambda resb: resb.get("o.res") == OLDER or resb("check", "o.res").status == 0),
    "IN is a text, or a link to OUT": (
        ["in.txt", "o.res"], {"in.txt": LONG, "o.res": OLDER}, [(linked, "o.res", "in.txt"), (placed, LONG, "in.txt")], is_older_or_new),
}


@pytest.mark.hand
@pytest.mark.parametrize("words, files, steps, is_whole", RACES.values(), ids=RACES)
def test_race(resb, monkeypatch, words, files, steps, is_whole):
    """A folder changes while a command runs in it, over and over."""
    monkeypatch.chdir(resb.folder)
    for name, data in {"long.txt": LONG, "victim.txt": VICTIM, **files}.items():
        resb.put(name, data)
    resb.output("compile", "-q", "long.txt", "wanted.res")
    is_done, end = threading.Event(), time.monotonic() + SECONDS

    def change():
        while not is_done.is_set():
            for step, *names in steps:
                with contextlib.suppress(OSError):
                    step(*names)
                time.sleep(random.random() * 0.004)

    changer = threading.Thread(target=change)
    changer.start()
    try:
        while time.monotonic() < end:
            resb("compile", *words, timeout=60)
            assert is_whole(resb)
    finally:
        is_done.set()
        changer.join()
    assert is_whole(resb)
