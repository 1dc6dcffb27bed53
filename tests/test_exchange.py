"""Tests `tools/resb-exchange`: strings go out and come in again without a change of a byte, over generated bundles and some of ICU's;
texts are changed in place; refused files leave nothing; and other readers (xmllint, polib, javaproperties, json, csv, msgfmt,
translate-toolkit and Java's Properties) read what it writes. genrb's XLIFF has the same strings.

`-m hand` takes every bundle of ICU's package through each format, in some minutes.
"""
import argparse
import contextlib
import csv
import functools
import importlib.util
import io
import json
import os
import random
import re
import shutil
import subprocess
import sys

import pytest
from support import icu
from support.exchange import Exchange, need_modules
from support.program import TOP, need, rows, run

FORMATS = ["xliff1", "xliff2", "po", "properties", "json", "csv"]
if not importlib.util.find_spec("polib"):
    FORMATS.remove("po")
TREES_OF_ICU = ("main", "brkitr", "coll", "curr", "lang", "rbnf", "region", "translit", "unit", "zone")
SEED, TREES = 11, 4
KEYS = ["a.b", "c/d", "e=f", "g h", "~", "~1", "0", "#k", "!k", 'q"q', "b\\b", ":c", " lead", "trail ", "k:v", "'", "<&>", "[x]", "%%P"]
PLAIN = ["Open", "Öffnen", " lead", "trail ", "two\nlines", "tab\there", '"quoted"', "back\\slash", "\\n", "it's", "<b>&amp;</b>", "=1+1"]
PLAIN += ["{0} of {1}", "{n, plural, one {# file} other {# files}}", "'{0}'", "{", "}", "{a}{b}{a}", "\U0001F600", "#c", "a,b;c"]
PLAIN += ["]]>", "\n"]
CONTROL = ["\x00", "\x01\x1f", "\r", "a\r\nb", "\x7f\x85", "\u2028\u2029", "\ufeff", "\ufffe\uffff", "\v\f", "{0, date, \x01}"]
LONE, EMPTY = ["\ud800", "x\udfffy"], [""]
# what each format can't have, as the formats themselves say
ALLOWED = {
    "xliff1": PLAIN + EMPTY + ["\r", "a\r\nb", "\x7f\x85", "\u2028\u2029", "\ufeff"],
    "xliff2": PLAIN + EMPTY + CONTROL + LONE,
    "po": PLAIN + ["\x7f\x85", "\u2028\u2029", "\ufeff"],
    "properties": PLAIN + EMPTY + CONTROL + LONE,
    "json": PLAIN + EMPTY + CONTROL + LONE,
    "csv": PLAIN + EMPTY + [one for one in CONTROL if "\0" not in one],
}
REFUSED = {"xliff1": ["\x01", "\ud800", "\uffff"], "po": ["", "\r", "\ud800", "\x01"], "csv": ["\0", "\udc00"]}


def escaped(text):
    """Returns a quoted text in which each unit is an escape."""
    data = text.encode("utf-16-be", "surrogatepass")
    return '"' + "".join(f"\\u{data[at]:02x}{data[at + 1]:02x}" for at in range(0, len(data), 2)) + '"'


def item_text(item):
    if isinstance(item, str):
        return "{" + escaped(item) + "}"
    if isinstance(item, int):
        return f":int{{{item}}}"
    if isinstance(item, tuple):
        return f":{item[0]}{{{item[1]}}}"
    if isinstance(item, list):
        return ":array{" + ",".join(f":string{item_text(one)}" if isinstance(one, str) else item_text(one) for one in item) + "}"
    return ":table{" + "".join(f"// about\n{escaped(key)}{item_text(one)}" for key, one in item.items()) + "}"


def bundle_text(name, tree):
    return name + item_text(tree).removeprefix(":table")


def generated(pick, texts, depth):
    kind = pick.randrange(10)
    if depth and kind < 2:
        return {pick.choice(KEYS): generated(pick, texts, depth - 1) for _ in range(pick.randrange(5))}
    if depth and kind < 4:
        return [generated(pick, texts, depth - 1) for _ in range(pick.randrange(5))]
    others = [pick.randrange(100), ("bin", "00ff"), ("alias", '"/LOCALE/x"'), ("intvector", "1,-2")]
    return pick.choice(texts) if kind < 8 else pick.choice(others)


def changed(pick, texts, item):
    """Returns a translation of an item: some entries are missing, some strings are others, some items have another type."""
    if isinstance(item, dict):
        kept = {key: changed(pick, texts, one) for key, one in item.items() if pick.random() < 0.7}
        return kept | ({"own": pick.choice(texts)} if pick.random() < 0.3 else {})
    if isinstance(item, list):
        return [changed(pick, texts, one) for one in item[: pick.randrange(len(item) + 2)]]
    return pick.choice(texts) if isinstance(item, str) and pick.random() < 0.9 else pick.choice([item, 7])


def listed_strings(item, path=()):
    """Returns the strings of a tree by their ids, as docs/EXCHANGE.md defines these."""
    if isinstance(item, str) and not (len(path) == 1 and path[0].startswith("%%")):
        return {"/".join(key.replace("~", "~0").replace("/", "~1") for key in path): item}
    found = {}
    children = item.items() if isinstance(item, dict) else enumerate(item) if isinstance(item, list) else ()
    for key, inner in children:
        found |= listed_strings(inner, (*path, str(key)))
    return found


def read_by_others(kind, path):
    """Returns the translations in a file, by its own format's reader."""
    with open(path, encoding="utf-8", newline="") as file:
        if kind == "json":
            return {one["id"]: one["target"] for one in json.load(file)}
        if kind == "csv":
            return {row["id"]: row["target"] if row["state"] == "translated" else None for row in csv.DictReader(file)}
        if kind == "properties":
            import javaproperties
            return javaproperties.load(file)
        if kind == "po":
            import polib
            return {one.msgctxt: one.msgstr or None for one in polib.pofile(path)}
    from lxml import etree
    unit, name = ("trans-unit", "id") if kind == "xliff1" else ("unit", "name")
    found = {}
    for element in etree.parse(path).iter("{*}" + unit):
        data = {one.get("id"): one.text for one in element.iter("{*}data")}
        target = element.find(".//{*}target")
        found[element.get(name)] = None if target is None else xml_text(target, data)
    return found


# what translate-toolkit's reader of properties changes: it leaves the escapes of control characters, and ends lines at U+2028 and U+2029
UNREAD_BY_TOOLKIT = re.compile("[\0-\x08\x0b\x0e-\x1f\u2028\u2029]")


def read_by_toolkit(kind, path):
    """Returns the translations in a file, by translate-toolkit's reader of its format."""
    from translate.storage import csvl10n, properties, pypo, xliff
    if kind == "po":
        return {unit.getcontext(): unit.target for unit in pypo.pofile.parsefile(path).units if not unit.isheader()}
    if kind == "xliff1":
        units = xliff.xlifffile.parsefile(path).units
        return {unit.xmlelement.get("id"): unit.target for unit in units}
    if kind == "properties":
        store = properties.javautf8file()
        with open(path, "rb") as file:
            store.parse(file.read())
        # it leaves the escapes of keys
        return {re.sub(r"\\(.)", r"\1", unit.name): unit.source for unit in store.units if unit.name}
    header, *units = csvl10n.csvfile.parsefile(path).units
    assert header.id == "id"
    return {unit.id: unit.target for unit in units}


def xml_text(element, data):
    parts = [element.text or ""]
    for child in element:
        code = chr(int(child.get("hex"), 16)) if child.get("hex") else data.get(child.get("dataRef"), child.text)
        parts += [code, child.tail or ""]
    return "".join(parts)


class Folder(Exchange):
    """A folder with texts, and what is run in it."""

    def __init__(self, program, path):
        super().__init__(program, path)
        self.put("en.txt", 'en{\n// said first\nhello{"Hello, {name}!"} days{"Mon","Tue"} n:int{5} empty:table{}}')
        self.put("de.txt", 'de{\n// Gruß\nhello{"Hallo, {name}!"} n:int{7}}')

    def export(self, kind, source="en.txt", target="de.txt", *more):
        files = ("--source", source, "--target", target, "-o", "out")
        status, _, said = self.tool("export", "--format", kind, *files, *more)
        assert (status, said) == (0, "")

    def export_tree(self, kind, tree):
        self.put("both.txt", bundle_text("de", tree))
        self.export(kind, "both.txt", "both.txt")

    def bring(self, kind, *more, source="en.txt", into="de.txt", file="out"):
        return self.tool("import", "--format", kind, "--source", source, "--into", into, file, *more)

    def translate(self, texts, *more, **files):
        self.put("in.json", json.dumps([{"id": name, "target": text} for name, text in texts.items()]))
        return self.bring("json", *more, file="in.json", **files)

    def unpack_icu(self, tree, *names):
        """Writes the texts of ICU's own bundles."""
        words = ["--force", "--to", self.folder, "--package", icu.package(self.folder), "--tree", tree, *names]
        assert run([sys.executable, TOP / "tools" / "icu2text", *words])[::2] == (0, b"")

    def round_trip(self, kind, source, target):
        before = self.get(target)
        self.export(kind, source, target)
        status, printed, said = self.bring(kind, source=source, into=target)
        assert (status, printed) == (0, "")
        assert said.startswith(f"{target}: 0 set")
        assert self.get(target) == before


@pytest.fixture
def at(program, tmp_path):
    return Folder(program, tmp_path)


def bring_into_empty(at, kind, source, target):
    """Brings all strings of a file into an empty target, and returns the tree of that."""
    at.put("new.txt", "de { }")
    at.export(kind, source, target)
    status, _, said = at.bring(kind, "--values", source=source, into="new.txt")
    assert status == 0, said
    return at.tree("new.txt")


@pytest.mark.parametrize("kind", FORMATS)
@pytest.mark.parametrize("number", range(TREES))
def test_generated_trees(at, kind, number):
    pick = random.Random(f"{SEED} {kind} {number}")
    texts = ALLOWED[kind]
    source = {key: generated(pick, texts, 3) for key in pick.sample(KEYS, 8)} | {"all": texts}
    target = changed(pick, texts, source) | ({"all": texts[::-1]} if number % 2 else {})
    at.put("source.txt", bundle_text("en", source))
    at.put("target.txt", bundle_text("de:table(nofallback)" if number % 3 == 0 else "de", target))
    at.round_trip(kind, "source.txt", "target.txt")


@pytest.mark.parametrize("kind", FORMATS)
def test_all_strings_come_into_an_empty_text(at, kind):
    texts = ALLOWED[kind]
    tree = {"all": texts, "t": {key: "v" for key in KEYS if key != "%%P"}, "deep": [{"k": texts[0]}, [texts[1]]]}
    at.put("source.txt", bundle_text("de", tree))
    assert bring_into_empty(at, kind, "source.txt", "source.txt") == tree_with_units(tree)


def tree_with_units(item):
    """Returns a tree as `resb json` prints it: strings with unpaired surrogates are lists of units."""
    if isinstance(item, dict):
        return {":" * key.startswith(":") + key: tree_with_units(one) for key, one in item.items()}
    if isinstance(item, list):
        return [tree_with_units(one) for one in item]
    if re.search("[\ud800-\udfff]", item):
        data = item.encode("utf-16-le", "surrogatepass")
        return {":units": [data[i] | data[i + 1] << 8 for i in range(0, len(data), 2)]}
    return item


@pytest.mark.parametrize("kind", FORMATS)
def test_other_readers(at, kind):
    needed = {"xliff1": "lxml", "xliff2": "lxml", "properties": "javaproperties"}.get(kind)
    need_modules(*[needed] * bool(needed))
    tree = {"all": ALLOWED[kind], "t": {key: "v" for key in KEYS}}
    at.export_tree(kind, tree)
    assert read_by_others(kind, at.path("out")) == listed_strings(tree)


@pytest.mark.parametrize("kind", FORMATS)
def test_missing_strings(at, kind):
    at.export(kind)
    found = {name: text for name, text in read_by_others(kind, at.path("out")).items() if text is not None}
    assert found == {"hello": "Hallo, {name}!"}
    assert b"said first" in at.get("out")
    at.put("root.txt", 'root{days{"M","T"}}')
    at.export(kind, "en.txt", "de.txt", "--base", "root.txt")
    assert "inherited" in at.text("out")


@pytest.mark.parametrize("kind", FORMATS)
def test_some_of_icu(at, kind):
    at.unpack_icu("unit", "en", "de", "ja")
    at.round_trip(kind, "en.txt", "ja.txt" if kind == "json" else "de.txt")


@pytest.mark.parametrize("kind", [kind for kind in FORMATS if kind in ("po", "xliff1", "properties", "csv")])
def test_translate_toolkit(at, kind):
    need_modules("translate")
    texts = [one for one in ALLOWED[kind] if kind != "properties" or not UNREAD_BY_TOOLKIT.search(one)]
    tree = {"all": texts, "t": {key: "v" for key in KEYS}}
    at.export_tree(kind, tree)
    assert read_by_toolkit(kind, at.path("out")) == listed_strings(tree)


def test_java(at):
    need("java")
    tree = {"all": ALLOWED["properties"], "t": {key: "v" for key in KEYS}}
    at.export_tree("properties", tree)
    done = run(["java", TOP / "tests" / "exchange" / "Reader.java", at.path("out")])
    assert (done.status, done.stderr) == (0, b"")
    read = (line.split(" ") for line in done.stdout.decode().splitlines())
    found = {key: value for key, value in ([bytes.fromhex(one).decode("utf-16-be", "surrogatepass") for one in line] for line in read)}
    assert found == listed_strings(tree)


def test_genrb(at):
    """genrb's XLIFF has a source for each string; numbers, aliases and vectors have a restype. It reads an escaped backslash, as the
    texts here have it, as one that begins an escape."""
    need("genrb")
    need_modules("lxml")
    from lxml import etree

    texts = [one for one in PLAIN if not re.search("[\r\n\t\\\\]", one)]
    tree = {"all": texts, "m": {"open": "Open", "sub": {"a": "A", "n": 5}}, "deep": [["x", "y"], {"z": "Z"}], "b": ("bin", "00ff")}
    tree |= {"v": ("intvector", "1,-2"), "l": ("alias", '"/LOCALE/x"'), "empty": {}}
    at.put("en.txt", bundle_text("en", tree))
    at.export("xliff1", "en.txt", "en.txt")
    subprocess.run(["genrb", "-q", "-x", "-l", "en", "en.txt"], cwd=at.folder, check=True)
    units = etree.parse(at.path("en.xlf")).iter("{*}trans-unit")
    others = ("x-icu-integer", "x-icu-alias")
    theirs = [unit.findtext("{*}source") for unit in units if unit.get("restype") not in others]
    ours = read_by_others("xliff1", at.path("out"))
    assert ours == listed_strings(tree)
    assert sorted(theirs) == sorted(ours.values())


@pytest.mark.parametrize("kind, words", [
    ("po", ["msgfmt", "-c", "-o", os.devnull]), ("xliff1", ["xmllint", "--noout"]), ("xliff2", ["xmllint", "--noout"])])
def test_programs(at, kind, words):
    need(words[0])
    need_modules(*["polib"] * (kind == "po"))
    at.export_tree(kind, {"all": ALLOWED[kind], "t": {key: "v" for key in KEYS}})
    done = run([*words, at.path("out")])
    assert done.status == 0, done.stderr


# --- Changes in place: the target, what is translated, options, and the target afterwards

ONE = 'en { a { "A" } b { "B" } c { "C" } m { x { "X" } y { "Y" } } l { "1", "2", "3" } n:int { 1 } }'


@pytest.mark.parametrize("row", rows("exchange/in_place.jsonl"), ids=lambda row: row["name"])
def test_in_place(at, row):
    at.put("en.txt", ONE)
    at.put("de.txt", row["before"])
    for _ in range(1 if row["option"] == "--remove-missing" else 2):
        assert at.translate(row["texts"], row["option"])[0] == 0
        assert at.text("de.txt") == row["after"]


@pytest.mark.parametrize("row", rows("exchange/sessions.jsonl"), ids=lambda row: row["name"])
def test_session(at, row):
    """A row has "files", and steps that call the tool with "args": the "status" (0 if left out), what is "said" or parts of it ("says"), members of the
    "json" that is printed ("-") or in a file, parts that a file "has", whole "texts", and "trees" of texts."""
    need_modules(*row.get("needs", ()))
    for name, data in row.get("files", {}).items():
        at.put(name, data)
    for step in row["steps"]:
        status, printed, said = at.tool(*step["args"])
        assert (status, said) == (step.get("status", 0), step.get("said", said))
        assert [part for part in step.get("says", ()) if part not in said] == []
        for name, members in step.get("json", {}).items():
            found = json.loads(printed if name == "-" else at.get(name))
            assert {member: found[member] for member in members} == members
        assert [part for name, parts in step.get("has", {}).items() for part in parts if part not in at.text(name)] == []
        for name, text in step.get("texts", {}).items():
            assert at.text(name) == text
        for name, tree in step.get("trees", {}).items():
            assert at.tree(name) == tree


@pytest.mark.parametrize("seed", range(6))
def test_any_edit_of_generated_texts(at, seed):
    """Strings of a generated target are set and removed: the tree is the wanted one, and all comments stay."""
    pick = random.Random(seed)
    texts = ALLOWED["json"]
    source = {key: generated(pick, texts, 3) for key in pick.sample(KEYS, 9)} | {"list": texts[:6]}
    target = changed(pick, texts, source)
    at.put("en.txt", bundle_text("en", source))
    at.put("de.txt", bundle_text("de", target))
    known = [name for name in listed_strings(source) if "inner" not in name]
    chosen = {name: f"new {name}" for name in pick.sample(known, len(known) // 2)}
    at.export("json")
    ids = {one["id"] for one in json.loads(at.get("out"))}
    chosen = {name: text for name, text in chosen.items() if name in ids}
    status, _, said = at.translate(chosen, "--any-arguments", "--force", "--report", "report.json")
    assert status == 0, said
    report = json.loads(at.get("report.json"))
    found = listed_strings(plain_tree(at.tree("de.txt")))
    assert set(report["set"]) | set(report["left_out"]) == set(chosen)
    assert {name: found.get(name) for name in report["set"]} == {name: chosen[name] for name in report["set"]}
    before = listed_strings(target)
    kept = {name: text for name, text in before.items() if name not in chosen}
    assert {name: found[name] for name in kept} == kept


def plain_tree(item):
    if isinstance(item, dict):
        if set(item) == {":units"}:
            return b"".join(unit.to_bytes(2, "little") for unit in item[":units"]).decode("utf-16-le", "surrogatepass")
        if len(item) == 1 and re.match(":[a-z]", next(iter(item))):
            return 0
        return {key.removeprefix(":") if key.startswith("::") else key: plain_tree(one) for key, one in item.items()}
    return [plain_tree(one) for one in item] if isinstance(item, list) else item


# --- What is printed, and what is written


def test_an_edit_while_it_runs(at):
    """A stand-in for the program saves another target at its fourth call, when the target was read."""
    at.put("edits", f"""#!/bin/sh
echo >>calls
[ "$(wc -l <calls)" != 4 ] || printf %s 'de {{ hello {{ "by hand {{name}}" }} }}' >de.txt
exec {at.program} "$@"
""")
    os.chmod(at.path("edits"), 0o755)
    at.put("in.json", '[{"id": "hello", "target": "Na, {name}?"}]')
    call = ("import", "--format", "json", "--source", "en.txt", "--into", "de.txt", "in.json")
    found = at.process(*call, program=at.path("edits"))
    assert found == (1, "", "de.txt:1: the text changed while it was worked on; nothing is written\n")
    assert at.text("de.txt") == 'de { hello { "by hand {name}" } }'
    assert sorted(os.listdir(at.folder)) == ["calls", "de.txt", "edits", "en.txt", "in.json"]


def test_a_link_and_a_mode_stay(at):
    os.rename(at.path("de.txt"), at.path("real.txt"))
    os.chmod(at.path("real.txt"), 0o640)
    os.symlink("real.txt", at.path("de.txt"))
    assert at.translate({"hello": "Na, {name}?"})[0] == 0
    assert os.path.islink(at.path("de.txt"))
    assert os.stat(at.path("real.txt")).st_mode & 0o777 == 0o640
    assert "Na, {name}?" in at.text("real.txt")


def test_what_cannot_be_written_in_place_is_beside(at, monkeypatch):
    from exchange import common

    def fail(*_):
        raise OSError

    os.link(at.path("de.txt"), at.path("other.txt"))
    monkeypatch.setattr(common, "write_in_place", fail)
    status, _, said = at.translate({"hello": "Na, {name}?"})
    assert (status, said.splitlines()[-1]) == (2, "cannot write de.txt")
    (beside,) = [name for name in os.listdir(at.folder) if name.startswith(".resb-unfinished-")]
    assert "Na, {name}?" in at.text(beside) and "Hallo" in at.text("de.txt")


def test_further_names_stay(at):
    os.link(at.path("de.txt"), at.path("other.txt"))
    assert at.translate({"hello": "Na, {name}?"})[0] == 0
    assert os.path.samefile(at.path("de.txt"), at.path("other.txt"))
    assert at.text("other.txt") == 'de{\n// Gruß\nhello{"Na, {name}?"} n:int{7}}'
    assert not [name for name in os.listdir(at.folder) if name.startswith(".resb")]


@pytest.mark.parametrize("is_denied", [False, True])
def test_owner_access_list_and_attributes_stay(at, monkeypatch, is_denied):
    """As root, and as one who may write a file of another user, and not give one away."""
    if os.getuid() != 0 or not shutil.which("setfacl"):
        pytest.skip("it takes root and setfacl")
    path = at.path("de.txt")
    os.chown(path, 1, 65534)
    subprocess.run(["setfacl", "-m", "u:2:rw", path], check=True)
    with contextlib.suppress(OSError):  # some file systems have no attributes
        os.setxattr(path, "user.note", b"1")

    def rights():
        listed = subprocess.run(["getfacl", "-n", "-p", path], capture_output=True, check=True).stdout
        return listed, os.stat(path).st_mode, {name: os.getxattr(path, name) for name in os.listxattr(path)}

    def refuse(*_):
        raise PermissionError

    before, file = rights(), os.stat(path).st_ino
    if is_denied:
        monkeypatch.setattr(os, "fchown", refuse)
    assert at.translate({"hello": "Na, {name}?"})[0] == 0
    assert rights() == before
    assert (os.stat(path).st_ino == file) == is_denied
    assert "Na, {name}?" in at.text("de.txt")


def test_an_unchanged_text_is_not_written(at):
    os.utime(at.path("de.txt"), (1, 1))
    at.export("json")
    assert at.bring("json")[0] == 0
    assert os.stat(at.path("de.txt")).st_mtime == 1


def test_a_pipe_is_written_through(at):
    os.mkfifo(at.path("pipe"))
    reader = subprocess.Popen(["cat", at.path("pipe")], stdout=subprocess.PIPE)
    assert at.tool("export", "--format", "json", "--source", "en.txt", "--target", "de.txt", "-o", "pipe")[0] == 0
    assert len(json.loads(reader.communicate(timeout=50)[0])) == 3


# --- Refusals


LONG = [{"kind": "json", "data": data, "line": 1, "what": what} for data, what in (
    ('[{"id":' + "1" * 5000 + "}]", "no object"), ("[" * 100_000, ""),
    (json.dumps([{"id": "hello", "target": "{n,plural,offset:" + "1" * 100_000}]), "isn't a message pattern"))]


@pytest.mark.parametrize("row", [*rows("exchange/refused.jsonl"), *LONG])
def test_refused_files(at, row):
    """Controls aren't printed as they are, long lines don't take quadratic time, and each entry of a PO file counts."""
    need_modules(*["polib"] * (row["kind"] == "po"))
    at.put("bad", row["data"])
    before, names = at.get("de.txt"), sorted(os.listdir(at.folder))
    status, printed, said = at.bring(row["kind"], file="bad")
    assert (status, printed) == (1, ""), said
    assert re.search(rf"^bad:{row['line']}: ", said, re.M), said
    assert row["what"] in said
    assert (at.get("de.txt"), sorted(os.listdir(at.folder))) == (before, names)


@pytest.mark.parametrize("kind", sorted(REFUSED.keys()))
def test_strings_that_a_format_cannot_have(at, kind):
    for text in REFUSED[kind] if kind in FORMATS else ():
        at.put("x.txt", bundle_text("x", {"k": {"bad": text}}))
        status, printed, said = at.tool("export", "--format", kind, "--source", "x.txt", "--target", "x.txt", "-o", "out")
        assert (status, printed) == (1, "")
        assert re.search(r"^x.txt:\d+: k/bad: ", said)
        assert not os.path.exists(at.path("out"))


# --- Costs: what is written is at most a multiple of what is read, and what is read takes linear time


@pytest.mark.parametrize("kind", FORMATS)
def test_notes_of_an_array_are_written_once(at, kind):
    count = 2000
    comments = "".join("// n\n" for _ in range(count))
    at.put("en.txt", "en { " + comments + "a { " + '"x",' * count + " } }")
    at.export(kind)
    assert len(at.get("out")) < 100 * len(at.get("en.txt"))


HOSTILE = {
    "attributes": ("xliff1", "<xliff " + " ".join(f'a{number}="1"' for number in range(60_000)) + "/>", "more than 100 attributes"),
    "depth": ("xliff1", "<a>" * 200_000, "more than 100 elements"),
    "text": ("xliff2", "<a>" + "x" * 2_000_000, "no element found"),
    "one long line and many continued ones": ("properties", "hello=" + "a" * 130_000 + "\\\n" + "a\\\n" * 999 + "b", "lacks {name}"),
    "many continued lines": ("properties", "hello=" + "a\\\n" * 200_000, "lacks {name}"),
    "backslashes": ("properties", "hello=" + "\\" * 400_001, "lacks {name}"),
    "quotes": ("csv", 'id,target\nhello,"' + '""' * 200_000, "unexpected end of data"),
    "rows": ("csv", "id,target\n" + "x,y\n" * 50_000, "no string to translate has this id"),
    "braces": ("json", json.dumps([{"id": "hello", "target": "{" * 200_000}]), "isn't a message pattern"),
    "lines of a string": ("po", 'msgctxt "x"\nmsgid "a"\nmsgstr ""\n' + '"aaaaaaaaaaaaa"\n' * 60_000, "no string to translate has this id"),
    "entries": ("po", 'msgctxt "x"\nmsgid "a"\nmsgstr "b"\n\n' * 4_000, "no string to translate has this id"),
}


@pytest.mark.parametrize("name", HOSTILE)
def test_hostile_files(at, name):
    kind, data, what = HOSTILE[name]
    need_modules(*["polib"] * (kind == "po"))
    at.put("bad", data)
    status, _, said = at.bring(kind, file="bad")
    assert status == 1
    assert what in said


def test_lines_of_a_catalogue_are_joined_alike(tmp_path):
    """Each entry is as polib reads it of the file itself, with its line."""
    polib = pytest.importorskip("polib")
    from exchange import po

    text = (
        'msgid ""\nmsgstr ""\n"Language: de\\n"\n\n#, fuzzy\n#| msgid ""\n#| "one "\n#| "two"\nmsgctxt "a"\nmsgid ""\n"x"\n"y"\n'
        'msgstr ""\n"z"\n  "w"\n"v"\n\n#~ msgid ""\n#~ "p"\n#~ "q"\n#~ msgstr "r"\n'
    )
    path = tmp_path / "de.po"
    path.write_text(text)

    def listed(file):
        return [(one.msgctxt, one.msgid, one.msgstr, one.previous_msgid, one.obsolete, one.linenum) for one in file]

    assert listed(po.entries_of("de.po", text.encode())) == listed(polib.pofile(str(path)))


# --- Every bundle of ICU


@pytest.fixture
def direct(monkeypatch):
    """The tool's functions, which read each text once, since there are tens of thousands of calls."""
    from exchange import common, exporting, importing, texts

    tree_of = functools.lru_cache(maxsize=8)(texts.tree_of)
    bundle_of = functools.lru_cache(maxsize=8)(lambda data, path: texts.bundle_of(data, path, tree_of(data, path)))
    monkeypatch.setattr(importing, "tree_of", tree_of)
    for module in (exporting, importing):
        monkeypatch.setattr(module, "read_bundle", lambda path: bundle_of(common.read_file(path), path))
    return argparse.Namespace(export=exporting.export, bring=importing.import_strings, Failure=common.Failure, tree_of=tree_of)


def out_and_in(at, direct, kind, name, wanted):
    """Takes a bundle out, into an empty text, which gets each string, and into a copy of itself, of which no byte changes. Returns whether
    the format can have its strings."""
    options = {"format": kind, "source": at.path(name), "source_language": None, "target_language": None}
    more = {"out": None, "file": at.path("out"), "accept": "", "max_changed": None, "force": True, "values": False}
    more |= {"any_arguments": False, "remove_missing": True, "report": None}
    try:
        direct.export(argparse.Namespace(**options, target=at.path(name), base=[], out=at.path("out")))
    except direct.Failure as failure:
        assert re.search(r"can't have (an empty string|U\+[0-9A-F]+)$", str(failure))
        return False
    for into in ("bare", "copy"):
        with contextlib.redirect_stderr(io.StringIO()):
            direct.bring(argparse.Namespace(**options, **more, into=at.path(into)))
    assert listed_strings(direct.tree_of(at.get("bare"), "bare")) == wanted, (kind, name)
    assert at.get("copy") == at.get(name), (kind, name)
    return True


@pytest.mark.hand
@pytest.mark.parametrize("tree", TREES_OF_ICU)
def test_every_bundle_of_icu(at, direct, tree):
    at.unpack_icu(tree)
    counts = dict.fromkeys(FORMATS, 0)
    names = sorted(name for name in os.listdir(at.folder) if name.endswith(".txt"))
    for name in names:
        wanted = listed_strings(direct.tree_of(at.get(name), name))
        at.put("copy", at.get(name))  # the source itself can't be replaced
        for kind in FORMATS if wanted else ():
            at.put("bare", f"{name.removesuffix('.txt')} {{}}")
            counts[kind] += out_and_in(at, direct, kind, name, wanted)
    print(tree, len(names), "bundles;", ", ".join(f"{kind}: {count} round trips" for kind, count in counts.items()), flush=True)
