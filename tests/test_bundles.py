"""Files by their bytes: the verdicts of `check`, what `json` and `text` print, and what texts are compiled to, beside bytes and verdicts that were written
by hand, and the model of files and texts in model/.

In bundles/, samples.jsonl has files by the words after their header. A row of verdicts.txt, SAMPLE|OFFSET|BYTES|VERDICT, says how a sample with
these bytes over it from the offset on is judged: the number of visits, with `nofallback` for the flag, or the error's code. A line of
texts.jsonl has a text and, if "file" names one, the sample that it is compiled to; each text must come back from what `text` and `json` print.
"""
import json
import struct

import pytest
from model import files, texts
from model.trees import printed, value_of
from support.files import FIRST_KEY, Builder, file_of, shared_arrays, with_bytes
from support.program import TOP, Outcome, rows
from support.texts import numbered

HERE = TOP / "tests" / "bundles"
TABLE, LONG_TABLE, INT, ARRAY = 0x20000000, 0x40000000, 0x70000000, 0x80000000
KEYS_A_B = [0x00180002, 0xAAAA001A]

SAMPLES = {row["name"]: file_of(row["minor"], [int(word, 16) for word in row["words"].split()]) for row in rows("bundles/samples.jsonl")}


# files that are made, by functions of their sizes


def made(root, keys_top, data):
    """Returns a file by its root item, the end of its keys, and the words after its indexes."""
    top = 6 + len(data)
    return file_of(1, [root, 5, keys_top, top, top, 0, *data])


def chain_and_more(count):
    """Returns a table whose `a` is the last of some arrays from word 7 on, the first of two Ints and each other one of the one before it, twice; and whose
    `b` is an array of one item, which is the same array."""
    items = [INT, *(ARRAY + 7 + 3 * k for k in range(count - 1))]
    arrays = [word for item in items[:count] for word in (2, item, item)]
    more = 7 + 3 * count
    last = ARRAY + more - 3
    return made(TABLE + more + 2, 7, [0x00620061, *arrays, 1, last, *KEYS_A_B, last, ARRAY + more])


def wraps(item, first, count):
    """Returns the words of arrays of one item each, from a word on, the first of an item and each other one of the one before it."""
    items = [item, *(ARRAY + first + 2 * i for i in range(count - 1))]
    return [word for one in items[:count] for word in (1, one)]


def overlapping(count, above):
    """Returns a table whose `a` is an array of arrays that begin one word apart, each word the count of one and an item of others; and
    whose `b` is an array that begins one word after `a`, below some arrays of one item."""
    word = 7 + count
    outer = 7 + 2 * word
    first = outer + 2 + word
    inner = ARRAY + outer + 1
    table = first + 2 * above
    # each of these words is a string's offset and the count of an array; the string is at words 7 + count and 8 + count
    data = [word] * count + [0, 0] + [word] * (12 + count) + [word + 1, word]
    data += [ARRAY + 7 + i % count for i in range(word)]
    data += [*wraps(inner, first, above), *KEYS_A_B, ARRAY + outer, ARRAY + table - 2 if above else inner]
    return made(TABLE + table, 7, [0x00620061, *data])


def two_kinds(a, b, above):
    """Returns a table whose `a` is an item, and whose `b` is another below some arrays of one item. At word 7 are a long table of one key,
    its item an array of an array of an Int, and an array of a string; at word 14 are an empty table of either kind, and an empty array."""
    table = 26 + 2 * above
    data = [0x00620061, 1, 24, ARRAY + 10, 1, ARRAY + 12, 1, INT]
    # the words 24 and 25 are an empty string, for the key's offset 24 is also the array's item
    data += [*[0] * 12, *wraps(b, 26, above), *KEYS_A_B, a, ARRAY + table - 2 if above else b]
    return made(TABLE + table, 7, data)


def suffixes(keys, last):
    """Returns a table of keys, each the end of one long key, the shortest first. The last key's offset is given."""
    letters = 4 + keys // 4 * 4
    made = Builder(b"a" * letters + bytes(4))
    return made.file(LONG_TABLE + made.add([keys, *(FIRST_KEY + letters - i for i in range(1, keys)), last, *[INT] * keys]))


def numbers(count):
    letters = bytes.maketrans(b"0123456789abcdef", b"abcdefghijklmnop")
    made = Builder(b"".join(b"%07x\0" % i for i in range(count)).translate(letters))
    return made.file(LONG_TABLE + made.table(range(0, 8 * count, 8)))


MAKERS = {make.__name__: make for make in (shared_arrays, chain_and_more, overlapping, two_kinds, suffixes, numbers)}


def file_of_row(row):
    """Returns the file of a row of bundles/made.jsonl: what a maker makes of numbers or words in hexadecimal, perhaps with bytes over it."""
    name, *arguments = row["make"]
    return with_bytes(MAKERS[name](*(int(word, 16) if isinstance(word, str) else word for word in arguments)), *row.get("over", (0, [])))


# what is damaged word by word, beside most samples
SHARED = [file_of_row(row) for row in rows("bundles/damaged.jsonl")]
LONG_KEY = "k" * 1000
# keys `a`, `b` and, once, the long one with its NUL and padding; then the two tables and the root
LONG_KEY_FILE = [0x20000106, 5, 258, 266, 266, 2, 0x00620061, *[0x6B6B6B6B] * 250, 0xAAAAAA00, 0x001C0001, 0x70000001, 0x001C0001, 0x70000002]
LONG_KEY_FILE += [*KEYS_A_B, 0x20000102, 0x20000104]


def verdicts(resb, datas):
    """Returns the verdict of each of many files: the number of visits, or the error's code."""
    names = [resb.put(f"{i}.res", data) for i, data in enumerate(datas)]
    done = resb("check", "--json", *names)
    found = [json.loads(line) for line in done.stdout.splitlines()]
    assert [row["file"] for row in found] == names
    assert (done.status, done.stderr) == (1 if any("code" in row for row in found) else 0, b"")
    return [row["code"] if "code" in row else row["visits"] for row in found]


ROWS = (HERE / "verdicts.txt").read_text(encoding="ascii").splitlines()


def test_written_verdicts(resb):
    """Compares the verdicts that are written down, and the flags of accepted files, as their texts show them."""
    cases = [row.split("|") for row in ROWS]
    datas = [with_bytes(SAMPLES[name], int(place), map(int, over.split())) for name, place, over, _ in cases]
    found = [str(verdict) for verdict in verdicts(resb, datas)]
    for i, verdict in enumerate(found):
        if verdict.isdigit() and resb.output("text", f"{i}.res", "--name", "x").startswith(b"x:table(nofallback) {"):
            found[i] += " nofallback"
    assert dict(zip(ROWS, found)) == dict(zip(ROWS, (case[3] for case in cases)))


def test_made_files(resb):
    """Arrays and keys share bytes in files that are made, so that each is entered once: their lengths and verdicts."""
    cases = [(row, file_of_row(row)) for row in rows("bundles/made.jsonl")]
    assert [len(data) for row, data in cases if "length" in row] == [row["length"] for row, _ in cases if "length" in row]
    assert verdicts(resb, [data for _, data in cases]) == [row["verdict"] for row, _ in cases]


def test_cut_files(resb):
    data = SAMPLES["one_string"]
    assert verdicts(resb, [data[:n] for n in range(len(data))]) == ["Header" if n < 32 else "Indexes" for n in range(len(data))]


def test_too_long_file(resb):
    with open(resb.folder / "0.res", "wb") as file:
        file.truncate(67108865)
    assert resb("check", "0.res") == Outcome(1, b"", b"0.res: TooLong\n")


def damaged(data):
    """Yields a file, the file with each damage of each word, and each of its fronts."""
    yield data
    for place in range(0, len(data) - 3, 4):
        word = int.from_bytes(data[place:place + 4], "little")
        for other in (0, 0x7FFFFFFF, 0xFFFFFFFF, word + 1 & 0xFFFFFFFF, word + 0x10000000 & 0xFFFFFFFF):
            yield with_bytes(data, place, other.to_bytes(4, "little"))
    for n in range(len(data)):
        yield data[:n]


def judged(data):
    try:
        bundle, visits = files.read(data)
    except files.BadFile as error:
        return error.args[0], None
    return visits, bundle


@pytest.mark.parametrize("name", [*SAMPLES, *map(str, range(len(SHARED)))])
def test_damaged_files(resb, name):
    """Compares the verdicts of damaged files with the model's, and what is printed of those that are accepted."""
    datas = list(damaged(SAMPLES[name] if name in SAMPLES else SHARED[int(name)]))
    wanted = list(map(judged, datas))
    assert verdicts(resb, datas) == [verdict for verdict, _ in wanted]
    for i, (_, bundle) in enumerate(wanted):
        if bundle:
            assert texts.read(resb.output("text", "--name", "x", f"{i}.res")) == bundle
            assert resb.output("json", f"{i}.res") == printed(value_of(bundle[0]))


def check_text(resb, text, wanted=None):
    """Compiles a text, and what is printed of its file, as a text and as JSON: each time the same file is written, here of these bytes."""
    units = texts.Lexer(text).run()[0][0]
    name = b"".join(unit.to_bytes(2, "little") for unit in units).decode("utf-16-le")
    bundle, data = texts.read(text.encode()), resb.compiled(text)
    assert wanted in (None, data) and judged(data)[1] == bundle
    file = resb.put("one.res", data)
    again = resb.output("text", "--name", name, file)
    assert texts.Lexer(again.decode()).run()[0][0] == units and resb.compiled(again) == data
    for layout in [], ["--pretty"]:
        assert resb.compiled(resb.output("json", *layout, file), "--json", *["--no-fallback"] * bundle[1]) == data


NESTED = "x{a" + 62 * ":array{" + ":int{1}" + 62 * "}" + "}"
TEXTS = {NESTED: None, "root{b{%s:int{2}} a{%s:int{1}}}" % (LONG_KEY, LONG_KEY): file_of(1, LONG_KEY_FILE)}
TEXTS |= {row["text"]: SAMPLES.get(row.get("file")) for row in rows("bundles/texts.jsonl")}


@pytest.mark.parametrize("text", TEXTS, ids=lambda text: text[:40])
def test_text(resb, text):
    check_text(resb, text, TEXTS[text])


def test_long_tables(resb):
    """Long tables begin past the offsets of 16 bits; each key of one is found."""
    assert resb.compiled(numbered(9359))[35] == 0x20
    data = resb.compiled(numbered(9360))
    words = struct.unpack(f"<{len(data) // 4 - 8}I", data[32:])
    assert (len(data), *(words[i] for i in (0, 2, 4, 5, 16386))) == (32 + 4 * 35107, 0x40004002, 16386, 35107, 9360, 9360)
    assert words[16387:25747] == tuple(range(24, 24 + 7 * 9360, 7)) and words[25747:] == (INT,) * 9360
    install = json.dumps({"op": "install", "app": "shop", "locale": "root", "text": numbered(9360)}).encode()
    look = b'{"op":"look","app":"shop","locale":"root","path":"k%05d"}'
    reply = b'{"actual":"root","signed":0,"type":"int","unsigned":0,"valid":"root"}\n'
    done = resb.serve([install, *(look % i for i in range(9361))])
    assert done == Outcome(0, b'{"ok":true}\n' + reply * 9360 + b'{"error":"Missing"}\n')


@pytest.mark.parametrize("count", [30, 62])
def test_walks_through_nested_arrays(resb, count):
    """Walks go through nested arrays; the text of a chain would be too large."""
    file, path = resb.put("chain.res", shared_arrays(count)), "a" + "/0" * count
    assert resb.output("get", file, path) == b'{"signed":0,"type":"int","unsigned":0}\n'
    assert resb("get", file, path + "/0") == Outcome(1, b"", path.encode() + b"/0: Missing\n")
    if count == 62:
        assert resb("text", file) == Outcome(1, b"", b"chain.res: TooLarge\n")


@pytest.mark.parametrize("more", [0, 1])
def test_the_longest_text(resb, more):
    """A text of 8,388,608 bytes is printed and exported; a longer one is too large."""
    frame = 'root {\n    a { "%s" }\n}\n'
    string = "x" * (8_388_608 - len(frame % "") + more)
    source = 'root{a{"%s"}}' % string
    done = Outcome(1, b"", b"root.res: TooLarge\n") if more else Outcome(0, (frame % string).encode(), b"")
    assert resb("text", resb.put("root.res", resb.compiled(source))) == done
    names = {"app": "shop", "locale": "root"}
    asked = [json.dumps({"op": "put", **names, "text": source}), json.dumps({"op": "export", **names, "as": "text"})]
    served = resb.serve([line.encode() for line in asked], "--extended")
    replies = [json.loads(line) for line in served.stdout.splitlines()]
    assert replies == [{"ok": True, "replaced": False}, {"error": "TooLarge"} if more else {"text": frame % string}]


@pytest.mark.parametrize("length, code", [(1024, "Missing"), (1025, "PathTooLong")])
def test_long_path(resb, length, code):
    path = "x" * length
    assert resb("get", resb.put("one.res", SAMPLES["one_string"]), path) == Outcome(1, b"", f"{path}: {code}\n".encode())
