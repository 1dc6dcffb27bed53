"""`tools/icu2text` over files that are made here, word by word, as ICU's `uresdata.h` describes them: each format, both byte orders, each type of item,
pools, packages, each refusal, and 400 files with random damage, whose texts `resb compile` must take, `resb fmt` leaves alone and `resb text` prints of
the compiled file, except the signs of Ints.
"""
import os
import random
import re
import struct
import sys

import pytest
from model.trees import units_of
from support.program import TOP, Outcome, Resb, loaded, run

TOOL = TOP / "tools" / "icu2text"
STRING, BINARY, TABLE, ALIAS, TABLE32, TABLE16, STRING_V2, INT, ARRAY, ARRAY16, VECTOR = (*range(10), 14)
NO_FALLBACK, IS_POOL, USES_POOL = 1, 2, 4
CHECKSUM, MOST = 0xC0FFEE, 8388608
DAMAGED = 400
# the texts of the files that `everything` and `user` make
EVERYTHING, USER = ((TOP / "tests" / "icu2text" / f"{name}.txt").read_text("utf-8") for name in ("everything", "user"))


def head(order, version, kind=b"ResB"):
    info = struct.pack(order + "HHBBBx4s8B", 20, 0, order == ">", 0, 2, kind, *version, *[0] * 6)
    return struct.pack(order + "HBB", 32, 0xDA, 0x27) + info + bytes(8)


class File:
    """A .res file as it grows: its keys and 16-bit units are given at the start, its values are put one after the other."""

    def __init__(self, version=(2, 0), order="<", keys="", units=(), attributes=0):
        self.version, self.order, self.attributes = version, order, attributes
        self.indexes = 0 if version == (1, 0) else 5 if version == (1, 1) else 6 if version < (2, 0) else 8
        self.names = keys.split()
        text = "".join(name + "\0" for name in self.names).encode("latin-1")
        self.keys = text + b"\xaa" * (-len(text) % 4)
        self.units = self.pack("H", *units, *[0xAAAA] * (len(units) % 2))
        self.values, self.limit, self.limit16 = b"", 0, 0
        self.checksum = CHECKSUM if attributes & (IS_POOL | USES_POOL) else 0

    def pack(self, kind, *numbers):
        return struct.pack(f"{self.order}{len(numbers)}{kind}", *numbers)

    def key(self, name):
        return 4 + 4 * self.indexes + sum(len(one) + 1 for one in self.names[: self.names.index(name)])

    def words(self):
        return 1 + self.indexes + (len(self.keys) + len(self.units) + len(self.values)) // 4

    def put(self, kind, *parts):
        item = kind << 28 | self.words()
        data = b"".join(parts)
        self.values += data + b"\xaa" * (-len(data) % 4)
        return item

    def string(self, text, kind=STRING):
        units = units_of(text)
        return self.put(kind, self.pack("I", len(units)), self.pack("H", *units, 0))

    def binary(self, data):
        return self.put(BINARY, self.pack("I", len(data)), data)

    def table(self, **items):
        return self.table_of(map(self.key, items), items.values())

    def table_of(self, keys, items):
        keys, items = list(keys), list(items)
        return self.put(TABLE, self.pack("H", len(keys), *keys, *[0] * (1 - len(keys) % 2)), self.pack("I", *items))

    def table32(self, **items):
        return self.put(TABLE32, self.pack("I", len(items), *map(self.key, items), *items.values()))

    def array(self, *items):
        return self.put(ARRAY, self.pack("I", len(items), *items))

    def end(self, root=TABLE << 28, **changed):
        """Returns the bytes, with this root; of the indexes some may be changed."""
        tops = {"keys": 1 + self.indexes + len(self.keys) // 4}
        tops["units"] = tops["keys"] + len(self.units) // 4
        tops |= {"values": self.words(), "bundle": self.words()} | changed
        attributes = self.attributes | self.limit16 << 16 | self.limit >> 12 & 0xF000
        length = changed.get("length", self.indexes) | self.limit << 8 & 0xFFFFFFFF
        indexes = [length, tops["keys"], tops["values"], tops["bundle"], 9, attributes, tops["units"], self.checksum]
        return head(self.order, self.version) + self.pack("I", root, *indexes[: self.indexes]) + self.keys + self.units + self.values


def of_one(make, version=(2, 0), keys="a b", units=(0,)):
    """Returns a file whose table has one item, a word or what a function puts into the file."""
    file = File(version, keys=keys, units=units if version >= (2, 0) else ())
    return file.end(file.table(a=make(file) if callable(make) else make))


def everything(version, order="<"):
    """Returns a file with each type of format 1."""
    file = File(version, order, "a b c d e f g h i j k")
    items = {
        "a": file.string('x"\\\U0001F600\ud800'), "b": file.binary(b"\x00\xff\x7f"), "c": file.table(a=file.string("1"), b=file.string("2")),
        "d": file.string("/LOCALE/a", ALIAS), "e": INT << 28 | 0xFFFFFFB,
        "f": file.array(file.string(""), INT << 28 | 5, file.array(), file.table(k=STRING << 28)), "g": file.put(VECTOR, file.pack("I", 2, 7, 0xFFFFFFFF)),
        "h": TABLE << 28, "i": ARRAY << 28, "j": VECTOR << 28, "k": BINARY << 28,
    }
    return file.end(file.table(**items))


def pool(order="<", checksum=CHECKSUM):
    """Returns a pool bundle with the keys x and yy and the string "pooled" at unit 1."""
    file = File((3, 0), order, "x yy", [0, *units_of("pooled"), 0], IS_POOL | NO_FALLBACK)
    file.checksum = checksum
    return file.end()


def user(order="<", limit=8, limit16=8, string=1):
    """Returns a bundle that uses it: the key b and the string "mine" at unit 1 are its own."""
    mine = [0, *units_of("mine"), 0, 2]
    file = File((3, 0), order, "b", [*mine, 0, 0, 0, 0], USES_POOL)
    of_pool = 4 * (1 + file.indexes + len(file.keys) // 4)
    file.units = file.pack("H", *mine, of_pool, of_pool + 2, string, limit16 + 1, 0xAAAA)
    file.limit, file.limit16 = limit, limit16
    keys = file.pack("I", 3, file.key("b"), 0x80000000, 0x80000002)
    items = file.pack("I", TABLE16 << 28 | 6, STRING_V2 << 28 | limit + 1, STRING_V2 << 28 | 1)
    return file.end(file.put(TABLE32, keys, items))


def package(items, order="<", version=(1, 0)):
    """Returns a package of these items, which are named with the package's own name in front."""
    names = [b"icudt/" + name.encode() + b"\0" for name in items]
    starts, names_at = [], 4 + 8 * len(items)
    data_at = names_at + len(b"".join(names))
    for name, data in zip(names, items.values()):
        starts += [names_at, data_at]
        names_at, data_at = names_at + len(name), data_at + len(data)
    return head(order, version, b"CmnD") + struct.pack(f"{order}{1 + len(starts)}I", len(items), *starts) + b"".join([*names, *items.values()])


# ---- the tool in a folder


class Tool(Resb):
    """The tool in a separate folder, as a module, so that a run of it takes no new interpreter: its texts go to `texts`."""

    def __init__(self, folder, capsys, monkeypatch):
        super().__init__(TOOL, folder)
        self.capsys, self.monkeypatch, self.module = capsys, monkeypatch, loaded("icu2text", TOOL)

    def save(self, name, data):
        return str(self.folder / self.put(name, bytes(data)))

    def texts(self):
        return {str(path.relative_to(self.folder / "texts")): path.read_text(encoding="utf-8") for path in (self.folder / "texts").rglob("*") if path.is_file()}

    def __call__(self, *words):
        """Returns the status, what is printed to standard error, and the texts that are written; `--force` replaces older ones."""
        self.monkeypatch.setattr(sys, "argv", [str(TOOL), "--force", "--to", str(self.folder / "texts"), *words])
        self.module.read_pool.cache_clear()
        try:
            status = self.module.main()
        except SystemExit as end:
            status = end.code
        return status, self.capsys.readouterr().err, self.texts()

    def text(self, data):
        status, printed, texts = self(self.save("de.res", data))
        assert (status, printed) == (0, "")
        return texts["de.txt"]

    def refused(self, data, what):
        """Checks that a file has no text, and a message with these words and a byte."""
        (self.folder / "texts" / "de.txt").unlink(missing_ok=True)
        status, printed, texts = self(self.save("de.res", data))
        assert (status, texts) == (1, {}) and what in printed
        assert re.search(r"\(byte \d+\)\n$", printed) and printed.count("\n") == 1

    def apart(self, *words):
        """Runs the tool as a program, without `--force`."""
        return run([sys.executable, TOOL, *words], cwd=self.folder, timeout=50)


@pytest.fixture
def tool(tmp_path, capsys, monkeypatch):
    return Tool(tmp_path, capsys, monkeypatch)


# ---- texts

VERSIONS = [(1, 0), (1, 1), (1, 2), (1, 3), (2, 0), (2, 1), (3, 0)]


@pytest.mark.parametrize("order", "<>")
@pytest.mark.parametrize("version", VERSIONS)
def test_each_format_and_byte_order(tool, version, order):
    assert tool.text(everything(version, order)) == EVERYTHING


def test_no_fallback_counts_from_1_2_on(tool):
    for version, kind in ((1, 2), ":table(nofallback)"), ((2, 0), ":table(nofallback)"), ((1, 1), ""):
        assert tool.text(File(version, attributes=NO_FALLBACK).end()) == f"de{kind} {{\n}}\n"
    data = bytearray(File((1, 2), attributes=NO_FALLBACK).end())
    data[17] = 1
    assert tool.text(data) == "de {\n}\n"


@pytest.mark.parametrize("version", [(1, 1), (3, 0)])
def test_long_table(tool, version):
    file = File(version, keys="a b")
    assert tool.text(file.end(file.table32(a=INT << 28 | 1, b=INT << 28 | 0x7FFFFFF))) == "de {\n    a:int { 1 }\n    b:int { 134217727 }\n}\n"


@pytest.mark.parametrize("order", "<>")
def test_16_bit_units(tool, order):
    """Strings of each form of length, and a table and an array of 16 bits."""
    forms = ("", "short", "s" * 40, "l" * 1006, "l" * 1007, "m" * 70000, "\0\ud800\udc00\udfff")
    units, starts = [0], []
    for text, length in zip(forms, ([], [], [0xDC00 + 40], [0xDFEE], [0xDFEF, 1007], [0xDFF0, 70000 - 65536], [0xDFFF, 0, 3 + 1])):
        starts.append(len(units))
        units += [*length, *units_of(text), 0]
    array, table = len(units), len(units) + 4
    units += [3, starts[1], starts[1] + 2, 0]
    file = File((2, 0), order, "a b c", units)
    file.units = file.pack("H", *units, 2, file.key("a"), file.key("c"), starts[0], starts[2]) + b"\xaa\xaa" * ((len(units) + 5) % 2)
    strings = file.array(*(STRING_V2 << 28 | start for start in starts))
    text = tool.text(file.end(file.table(a=ARRAY16 << 28 | array, b=TABLE16 << 28 | table, c=strings)))
    lines = f'"", "short", "{forms[2]}",', *(f'"{one}",' for one in forms[3:-1]), '"\\u0000\U00010000\\udfff",'
    listed = "".join(f"        {line}\n" for line in lines)
    start = f'de {{\n    a {{\n        "short", "ort", "",\n    }}\n    b {{\n        a {{ "" }}\n        c {{ "{forms[2]}" }}\n    }}\n'
    assert text == f"{start}    c {{\n{listed}    }}\n}}\n"


def test_keys_in_quotes(tool):
    names = sorted(["Africa:Abidjan", "%%ALIAS", "Az_-09", "a,b", "a/b", 'q"', "x\\", "{"])
    file = File((1, 3), keys=" ".join(names))
    text = tool.text(file.end(file.table(**{name: STRING << 28 for name in names})))
    wanted = {"Az_-09": "Az_-09", 'q"': '"q\\""', "x\\": '"x\\\\"'}
    assert text == "de {\n" + "".join(f'    {wanted.get(name, chr(34) + name + chr(34))} {{ "" }}\n' for name in names) + "}\n"


def test_escapes(tool):
    """ICU's `u_unescape` (`ustring.h`) reads each escape."""
    file = File((1, 3), keys="a b")
    a, b = file.string("1\n2\t3\r4\x00\x1f~\x7f\x9f\xa0"), file.string("\u2028\u202e\u202f\u2066\u206a\ufeff")
    wanted = 'de {\n    a { "1\\n2\\t3\\u000d4\\u0000\\u001f~\\u007f\\u009f\xa0" }\n    b { "\\u2028\\u202e\u202f\\u2066\u206a\\ufeff" }\n}\n'
    assert tool.text(file.end(file.table(a=a, b=b))) == wanted


def test_lines_of_100_columns(tool):
    """The strings of an array, and the numbers of a vector of more than four, share lines; a line has 32 bytes of a binary."""
    file = File((1, 3), keys="a b c d e")
    a = file.array(*map(file.string, ("x" * 40, "y" * 43, "z", "\n" * 42, "w" * 200, "v")))
    b = file.put(VECTOR, file.pack("I", 40, *range(40)))
    e = file.array(file.string("1"), INT << 28, file.string("2"), file.string("3"))
    text = tool.text(file.end(file.table(a=a, b=b, c=file.binary(bytes(33)), d=file.binary(bytes(32)), e=e)))
    # 8 + 42 + 1 + 1 + 45 + 1 columns, and 8 + 3 + 1 + 1 + 86 + 1
    strings = [f'        "{"x" * 40}", "{"y" * 43}",', '        "z", "' + "\\n" * 42 + '",', f'        "{"w" * 200}",', '        "v",']
    # 8 + 10 * 3 - 1 + 13 * 4 columns leave 11, and any number needs 13
    numbers = [f"        {', '.join(map(str, range(23)))},", f"        {', '.join(map(str, range(23, 40)))}"]
    binaries = ["    c:bin {", f'        "{"00" * 32}"', '        "00"', "    }", f'    d:bin {{ "{"00" * 32}" }}']
    others = ["    e {", '        "1",', "        :int { 0 },", '        "2", "3",', "    }", "}"]
    assert text.splitlines() == ["de {", "    a {", *strings, "    }", "    b:intvector {", *numbers, "    }", *binaries, *others]


def test_shared_values_and_ends_of_keys(tool):
    file = File((1, 3), keys="abc")
    shared = file.string("s")
    table = file.table_of((28, 29, 30), (shared, shared, file.array(shared, shared)))
    assert tool.text(file.end(table)) == 'de {\n    abc { "s" }\n    bc { "s" }\n    c {\n        "s", "s",\n    }\n}\n'


def test_sixty_four_levels(tool):
    def nested(levels):
        file, item = File((2, 0), keys="a"), INT << 28
        for _ in range(levels - 2):
            item = file.array(item)
        return file.end(file.table(a=item))

    assert ":int { 0 }" in tool.text(nested(64))
    tool.refused(nested(65), "more than 64 levels")


# ---- pools


@pytest.mark.parametrize("order", "<>")
@pytest.mark.parametrize("limits", [(8, 8), (8, 3), (0x1000008, 8)])
def test_pool(tool, order, limits):
    tool.save("pool.res", pool(order))
    assert tool.text(user(order, *limits)) == USER


def test_pool_without_own_keys_and_strings(tool):
    tool.save("pool.res", pool())
    file = File((3, 0), attributes=USES_POOL)
    assert tool.text(file.end(file.put(TABLE, file.pack("H", 2, 0, 2, 0), file.pack("I", STRING << 28, INT << 28)))) == 'de {\n    x { "" }\n    yy:int { 0 }\n}\n'
    file = File((3, 0), keys="b", units=[0, 0], attributes=USES_POOL)
    file.limit, file.limit16 = 3, 2
    assert tool.text(file.end(file.table(b=STRING_V2 << 28 | 3))) == 'de {\n    b { "" }\n}\n'


def test_pool_is_named_or_left_out(tool):
    assert tool("--pool", tool.save("other/keys.res", pool(">")), tool.save("de.res", user())) == (0, "", {"de.txt": USER})
    assert tool(tool.save("other/de.res", user()), tool.save("other/pool.res", pool())) == (0, "", {"de.txt": USER})


def test_refused_pools(tool):
    assert tool(tool.save("de.res", user())) == (2, f"cannot read {tool.folder / 'pool.res'}\n", {})
    for data, bundle, what in (
        (pool(checksum=1), user(), "checksum 00c0ffee of its pool"),
        (everything((2, 0)), user(), "no pool bundle"),
        (pool(), user(limit=20, limit16=20, string=19), "pool.res: 1 16-bit units, of which there are"),
        (pool(), pool(), "a pool bundle, which has keys and strings of others"),
        (pool(), user()[:56] + struct.pack("<I", 8 << 16) + user()[60:], "uses no pool bundle"),
    ):
        tool.save("pool.res", data)
        tool.refused(bundle, what)


# ---- refusals

GOOD = everything((1, 3))
A_TYPE, OUTSIDE, OF_WHICH, UNITS = "a type that this format doesn't have", "outside of the values", "of which there are", "16-bit units, of which there are"
CHANGED = [(8, 2, "byte order 2"), (9, 1, "charset family 1"), (10, 4, "units of 4 bytes"), (4, 19, "a header"), (0, 20, "a header"), (1, 255, "a header"),
           (16, 4, "format 4.3"), (16, 0, "format 0.3")]
LENGTHS = [(STRING, "a string of 4294967295 units"), (ALIAS, "a string of"), *((kind, OF_WHICH) for kind in (BINARY, TABLE32, ARRAY, VECTOR, TABLE))]


def refusals():
    """Yields files that are refused, each with a part of the message."""
    yield from ((data, "no header") for data in (b"", GOOD[:23], b"x" + GOOD[1:2] + b"xx" + GOOD[4:], GOOD[:12] + b"CmnD" + GOOD[16:]))
    yield from ((GOOD[:place] + bytes([value]) + GOOD[place + 1:], what) for place, value, what in CHANGED)
    yield from ((head("<", (1, 0)), "with 0 words"), (head("<", (1, 1)) + bytes(20), "with 5 words"))
    for version in (1, 3), (2, 0):
        yield everything(version)[:-4], "don't ascend"
        yield from ((File(version).end(**tops), "don't ascend") for tops in ({"keys": 100}, {"values": 1}, {"bundle": 100}, {"keys": 3}))
        yield from ((File(version).end(length=length), f"{length} indexes") for length in (4, 200))
    yield File((2, 0)).end(units=100), "don't ascend"
    yield File((2, 0), units=[1, 0]).end(), "16-bit units that don't begin with 0"
    yield File((1, 2), attributes=IS_POOL).end(), "in format 1 or without a checksum"
    yield from ((of_one(kind << 28 | 1), A_TYPE) for kind in (10, 11, 12, 13, 15))
    for kind in TABLE16, STRING_V2, ARRAY16:
        yield from ((of_one(kind << 28, (1, 3)), A_TYPE), (of_one(kind << 28 | 2), "of which there are 0"))
    yield of_one(TABLE32 << 28, (1, 0)), A_TYPE
    yield from ((of_one(kind << 28 | at, version), OUTSIDE) for kind in (STRING, BINARY, TABLE, ALIAS, TABLE32, ARRAY, VECTOR)
                for version in ((1, 1), (3, 0)) for at in (1, 1000))
    yield from ((of_one(lambda file, kind=kind: file.put(kind, file.pack("I", 0xFFFFFFFF))), what) for kind, what in LENGTHS)
    yield of_one(lambda file: file.put(STRING, file.pack("I", 1), file.pack("H", 65, 66))), "has no zero after it"
    file = File((2, 0), keys="a")
    yield file.end(file.put(TABLE32, file.pack("I", 1, file.key("a")))), "3 words of a value, of which there are 2"
    yield from ((File((2, 0)).end(INT << 28), "a root item of the type INT"), (File((2, 0)).end(15 << 28), A_TYPE))
    for units, what in ((0, 65), "goes past the end"), ((0, 0xDC01, 65, 66), "has no zero after it"), ((0, 0xDC09, 65, 0), "goes past the end"), \
            ((0, 0xDFEF), UNITS), ((0, 0xDFFF), UNITS):
        yield of_one(STRING_V2 << 28 | 1, units=units), what
    yield from ((of_one(kind << 28 | 1, units=(0, 2)), UNITS) for kind in (TABLE16, ARRAY16))
    yield from refused_keys()


def refused_keys():
    for keys, what in (b"\0", "a key that is empty"), (b"\x1f\0", "isn't printable"), (b"\xe9\0", "isn't printable"), (b"aaaa", "has no end"):
        file = File((1, 3), keys="a" * max(2, len(keys)))
        file.keys = keys.ljust(4, b"\0")
        yield file.end(file.table_of([28], [STRING << 28])), what
    for offset in 0, 27, 32, 60000:
        file = File((1, 3), keys="a b")
        yield file.end(file.table_of([offset], [STRING << 28])), "a key outside of the keys"
    for first, second in "ba", "aa":
        file = File((1, 3), keys="a b")
        yield file.end(file.table_of(map(file.key, first + second), [STRING << 28] * 2)), f"the key {second} comes after {first}"
    file = File((2, 0), keys="a")
    yield file.end(file.table_of([file.key("a")], [TABLE << 28 | file.words()])), "more than 64 levels"


@pytest.mark.parametrize("data, what", refusals(), ids=lambda value: value if isinstance(value, str) else "")
def test_refused(tool, data, what):
    tool.refused(data, what)


def test_much_text_of_few_bytes(tool):
    def doubled(file, item):
        for _ in range(40):
            item = file.array(item, item)
        return item

    left = MOST - len('de {\n    a { "" }\n}\n')
    for make in (lambda file: doubled(file, file.string("x" * 1000)), lambda file: file.string("x" * (MOST + 1)), lambda file: file.binary(bytes(MOST // 2 + 1)),
                 lambda file: file.string("x" * (left + 1))):
        tool.refused(of_one(make, (1, 3), "a"), f"more than {MOST} bytes")
    assert len(tool.text(of_one(lambda file: file.string("x" * left), (1, 3), "a"))) == MOST


# ---- packages

ITEMS = {"cnvalias.icu": b"none", "curr/de.res": user(), "curr/pool.res": pool(), "de.res": everything((2, 0), ">"), "lang/de.res": b"damaged"}
IN_LANG = "lang/de.res: no header of ICU data ResB (byte 0)\n"


@pytest.mark.parametrize("order", "<>")
def test_trees(tool, order):
    path = tool.save("icudt.dat", package(ITEMS, order))
    assert tool("--package", path) == (0, "", {"de.txt": EVERYTHING})
    assert tool("--package", path, "--tree", "curr") == (0, "", {"de.txt": USER})
    assert tool("--package", path, "--tree", "curr", "fr")[:2] == (2, "cannot read curr/fr.res\n")
    assert tool("--package", path, "--tree", "lang")[:2] == (1, IN_LANG)
    assert tool("--package", path, "--tree", "none")[:2] == (1, f"{path}: no bundles in the tree none; --tree may be curr, lang, main\n")


def test_a_missing_main_lists_the_trees(tool):
    path = tool.save("icudt.dat", package({name: data for name, data in ITEMS.items() if name != "de.res"}))
    assert tool("--package", path) == (1, f"{path}: no bundles in the tree main; --tree may be curr, lang\n", {})
    empty = tool.save("empty.dat", package({"cnvalias.icu": b"none"}))
    for words in [], ["--all"]:
        assert tool("--package", empty, *words) == (1, f"{empty}: no bundles in the tree main\n", {})


def test_all_trees_into_folders(tool):
    path = tool.save("icudt.dat", package(ITEMS))
    assert tool("--package", path, "--all") == (1, IN_LANG, {"de.txt": EVERYTHING, "curr/de.txt": USER})
    for words in (("--tree", "curr"), ("de",), ("--from", ".")):
        assert tool("--package", path, "--all", *words)[0] == 2
    assert tool("--all", "de.res")[0] == 2


def damaged_packages():
    good, many = package(ITEMS), b"\xff\xff\xff\xff"
    yield from ((b"", "no header"), (good[:32], "of which there are not so many"), (good[:40], "of which there are not so many"))
    yield package(ITEMS, version=(2, 0)), "another format than 1"
    yield good.replace(b"/lang/de.res", b"/curr/de.res"), "with that of another"
    yield good[:36] + many + good[40:], "without a name"
    last = 28 + 8 * len(ITEMS)
    for data in good[:40] + many + good[44:], good[:last + 4] + many + good[last + 8:], good[:36] + good[44:52] + good[36:44] + good[52:]:
        yield data, "out of order"


@pytest.mark.parametrize("data, what", damaged_packages())
def test_damaged_package(tool, data, what):
    status, printed, _ = tool("--package", tool.save("icudt.dat", data))
    assert (status, printed.count("\n")) == (1, 1) and what in printed


def test_no_name_leads_out_of_the_folder(tool):
    names = ("../out.res", "curr/../../out.res", "/out.res", "..res", "a b.res", "de.res")
    path = tool.save("icudt.dat", package(dict.fromkeys(names, everything((2, 0)))))
    for words in [], ["--all"]:
        assert tool("--package", path, *words) == (0, "", {"de.txt": EVERYTHING})
        assert sorted(os.listdir(tool.folder)) == ["icudt.dat", "texts"]


# ---- runs, and the files that are there


def test_one_is_printed(tool):
    assert tool.apart(tool.save("de.res", GOOD)) == Outcome(0, EVERYTHING.encode())
    assert tool.apart(tool.save("de.res", b"no"))[:2] == (1, b"")
    for words in (), ("a", "b"), ("--package", "a"), ("--to", "a"):
        assert tool.apart(*words).status == 2


def test_many_go_on_after_an_error(tool):
    status, printed, texts = tool(*(tool.save(name, data) for name, data in (("a.res", b"no"), ("b.res", GOOD), ("c.res", b"no"), ("two/b.res", GOOD))))
    assert (status, sorted(texts), len(printed.splitlines())) == (2, ["b.txt"], 3)
    assert "b.txt is the text of another file already; --from SRC keeps folders" in printed
    none = str(tool.folder / "none.res")
    assert tool(none)[:2] == (2, f"cannot read {none}\n")


def test_two_modules_into_folders(tool):
    names, source = ("shop/de", "bank/old/de", "de"), str(tool.folder / "in")
    paths = [tool.save(f"in/{name}.res", GOOD) for name in names]
    assert tool("--from", source, *paths) == (0, "", {f"{name}.txt": EVERYTHING for name in names})
    outside = tool.save("other/de.res", GOOD)
    assert tool("--from", source, outside)[:2] == (2, f"{outside} isn't below {source}\n")


def test_what_cannot_be_written(tool):
    path, text = tool.save("de.res", GOOD), tool.folder / "texts" / "de.txt"
    text.mkdir(parents=True)
    assert tool.apart("--to", "texts", path) == Outcome(2, b"", b"cannot write texts/de.txt\n")
    assert os.listdir(text.parent) == ["de.txt"]
    if os.path.exists("/dev/full"):
        tool.save("None.part", b"")
        with open("/dev/full", "wb") as full:
            assert run([sys.executable, TOOL, path], stdout=full, cwd=tool.folder) == Outcome(2, b"", b"cannot write stdout\n")
        assert (tool.folder / "None.part").exists()


class Place:
    """A bundle, and the place of its text: nothing else is written, and no text that another program or a person wrote is replaced without `--force`."""

    def __init__(self, tool):
        self.tool, self.text, self.victim = tool, tool.folder / "texts" / "de.txt", tool.folder / "victim"
        self.text.parent.mkdir()
        self.victim.write_text("precious")
        tool.save("de.res", GOOD)

    def convert(self, *words, bundle="de.res"):
        done = self.tool.apart(*words, "--to", self.text.parent, bundle)
        return done.status, done.stderr.decode()


@pytest.fixture
def place(tool):
    made = Place(tool)
    yield made
    assert made.victim.read_text() == "precious"


def test_files_with_names_like_a_temporary_one(place):
    (place.text.parent / "de.txt.part").symlink_to(place.victim)
    assert place.convert() == (0, "") and place.text.read_text(encoding="utf-8") == EVERYTHING
    assert not place.text.is_symlink() and sorted(os.listdir(place.text.parent)) == ["de.txt", "de.txt.part"]


def test_another_text(place):
    place.text.write_text("de { /* mine */ }")
    place.text.chmod(0o640)
    assert place.convert() == (2, f"{place.text} is there, with another text; --force replaces it\n")
    assert place.text.read_text() == "de { /* mine */ }"
    assert place.convert("--force") == (0, "")
    assert (place.text.read_text(encoding="utf-8"), place.text.stat().st_mode & 0o777) == (EVERYTHING, 0o640)


def test_the_same_text_is_left_alone(place):
    place.text.write_text(EVERYTHING, encoding="utf-8")
    os.utime(place.text, (1, 1))
    assert place.convert() == (0, "") and place.text.stat().st_mtime == 1


def test_links(place):
    place.text.symlink_to(place.victim)
    assert place.convert() == (2, f"{place.text} is there, a link; --force replaces it\n")
    assert place.convert("--force") == (0, "")
    assert (place.text.read_text(encoding="utf-8"), place.text.is_symlink()) == (EVERYTHING, False)


def test_a_link_to_a_folder(place):
    elsewhere = place.tool.folder / "elsewhere"
    elsewhere.mkdir()
    (place.text.parent / "sub").symlink_to(elsewhere)
    status, printed = place.convert("--from", "in", bundle=place.tool.save("in/sub/de.res", GOOD))
    assert status == 2 and "is a link, and" in printed and os.listdir(elsewhere) == []


def test_a_pipe(place):
    os.mkfifo(place.text)
    assert place.convert("--force") == (2, f"cannot write {place.text}\n")


# ---- damage


def damaged(chosen, data, places):
    data = bytearray(data)
    for _ in range(places):
        place = chosen.randrange(len(data)) if chosen.random() < 0.2 else chosen.randrange(32, len(data))
        data[place] = chosen.choice((0, 1, 0xFF, data[place] ^ 1 << chosen.randrange(8), chosen.randrange(256)))
    return data


def test_an_error_or_a_text_that_compiles(tool, resb):
    chosen, texts = random.Random(29), 0
    good = [everything(version, order) for version in ((1, 0), (1, 3), (2, 0)) for order in "<>"] + [user(order) for order in "<>"] * 3
    for number in range(DAMAGED):
        data, keys = chosen.choice(good), pool()
        count = chosen.choice((1, 1, 2, 5))
        data, keys = (data, damaged(chosen, keys, count)) if number % 8 == 0 else (damaged(chosen, data, count), keys)
        if chosen.random() < 0.1:
            data = data[: chosen.randrange(len(data))]
        tool.save("pool.res", keys)
        (tool.folder / "texts" / "de.txt").unlink(missing_ok=True)
        status, printed, written = tool(tool.save("de.res", data))
        assert (len(printed.splitlines()), len(written)) == ((0, 1) if status == 0 else (1, 0))
        if status == 0:
            texts += 1
            check_text(resb, written["de.txt"])
    assert DAMAGED // 10 < texts < DAMAGED * 9 // 10, texts


def check_text(resb, text):
    """Compiles a text, which must be in the layout of `fmt` and, except for signs of Ints, be that of its file."""
    resb.output("compile", resb.put("de.txt", text), "out.res")
    resb.output("fmt", "--check", "de.txt")
    unsigned = re.sub(r":int \{ -(\d+) \}", lambda found: f":int {{ {(1 << 28) - int(found[1])} }}", text)
    assert resb.output("text", "--name", "de", "out.res").decode() == unsigned


def test_what_resb_check_refuses(tool, resb):
    chosen = random.Random(1)
    for _ in range(DAMAGED // 4):
        data = damaged(chosen, GOOD, chosen.choice((1, 2)))
        assert tool(tool.save("de.res", data))[0] == resb("check", tool.folder / "de.res").status
