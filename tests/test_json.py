"""`resb json` beside a model and Python's reader, and `compile --json`: round trips, and texts that are refused.

A random tree is compiled from a bundle text. Its JSON, compact and indented, must be byte for byte what `json.dumps` writes of the model's value with
more characters escaped, and each child of the root is printed by its path too. What is printed, and what Python writes of the same value with its
members in another order, must compile to the same bytes as the text. bundles/refused.jsonl has refused texts with the line, column, code and path of each;
that a text is no JSON is compared with Python's reader.
"""
import json
import os

import pytest
from hypothesis import given
from model.trees import printed, value_of
from support import files, making
from support.program import rows

DEEPEST = 64
LONGEST = 134217728

# a text, or its bytes, and what is said of it after the file's name
REFUSED = [(bytes.fromhex(row["hex"]) if "hex" in row else row["json"].encode(), row["error"]) for row in rows("bundles/refused.jsonl")]

# two forms of one tree: members in another order, space and escapes
ALIKE = [
    (b'{"b":{"d":[],"c":-5},"a":"x"}', b' {\r\n\t"a" : "\\u0078" , "b" : { "c" : -5 , "d" : [ ] } } \n'),
    ('{"a":"\U0001F600"}'.encode(), b'{"\\u0061":"\\ud83d\\ude00"}'),
    (b'{"::alias":{":bin":"00ff"}}', b'{"\\u003a:alias":{"\\u003abin":"\\u00300ff"}}'),
]


def large():
    """Returns long or deep texts, and what is said of each."""
    deep = b'{"a":' * DEEPEST
    yield deep + b"{}" + b"}" * DEEPEST, f"1:{5 * DEEPEST + 1}: TooDeep " + "/a" * DEEPEST
    yield arrays(DEEPEST + 1), "1:69: TooDeep /a" + "/0" * 63
    yield b'{"a":' + b"[" * 1000000, "1:69: TooDeep /a" + "/0" * 63
    yield b'{"a":' + b"9" * 1000000 + b"}", "1:6: BadNumber /a"
    yield b'{"a":"' + b"x" * 17000000 + b'"}', "1:6: TooLarge /a"
    items = b'{"a":[' + b"0," * 9000000
    index = (33554432 - 8 - 10 - 4) // 4
    yield items, f"1:{7 + 2 * index}: TooLarge /a/{index}"
    many = ",".join('"%d":0' % (i * 7919 % 100003) for i in range(100003))
    yield ("{" + many + ',"5":1}').encode(), f"1:{len(many) + 3}: DuplicateKey"
    yield b" " * (LONGEST + 1), "1:1: TooLong"


UNITS = [0, 1, 9, 10, 13, 0x1F, 0x20, 0x22, 0x2F, 0x3A, 0x41, 0x5C, 0x7B, 0x7F, 0x85, 0xA0, 0xE9, 0x2028, 0x4E2D, 0xD7FF]
UNITS += [0xD800, 0xDBFF, 0xDC00, 0xDFFF, 0xE000, 0xFEFF, 0xFFFD, 0xFFFF, 0x9B, 0x9F, 0x200F, 0x202A, 0x202E, 0x202F, 0x2065, 0x2066, 0x2069, 0x206A]
KEY_BYTES = "abcXYZ019 :_-/\\{}\"~!,"


def odd_leaf(random):
    """Returns a leaf whose text has characters that are escaped somewhere."""
    if random.random() < 0.5:
        return making.random_leaf(random)
    units = [random.choice(((0xD83D, 0xDE00), *((unit,) for unit in UNITS))) for _ in range(random.randrange(6))]
    return random.choice(("string", "alias")), tuple(unit for pair in units for unit in pair)


def odd_tree(random):
    keys = sorted({"".join(random.choice(KEY_BYTES) for _ in range(random.randrange(1, 5))) for _ in range(8)})
    return making.random_table(random, 5, odd_leaf, keys)


def shuffled(random, value):
    if isinstance(value, list):
        return [shuffled(random, item) for item in value]
    if isinstance(value, dict):
        members = [(key, shuffled(random, item)) for key, item in value.items()]
        random.shuffle(members)
        return dict(members)
    return value


def check_tree(resb, random, tree, no_fallback):
    """Compares what is printed of a tree with its value, and compiles that again."""
    data = resb.compiled(making.Speller(random).bundle((tree, no_fallback)))
    file, value = resb.put("out.res", data), value_of(tree)
    forms = [resb.output("json", file), resb.output("json", "--pretty", file)]
    assert forms == [printed(value), printed(value, indent=2)] and [json.loads(form) for form in forms] == [value, value]
    for key, child in tree[1].items():
        if "/" not in key and not key.startswith("-"):
            assert resb.output("json", file, key) == printed(value_of(child))
    other = shuffled(random, value)
    forms += [json.dumps(other).encode(), json.dumps(other, ensure_ascii=False, indent=random.randrange(4)).encode("utf-8", "surrogatepass")]
    for form in forms:
        words = ["compile", "--json", *["--no-fallback"] * no_fallback, resb.put("in.json", form), "again.res"]
        assert resb.output(*words) == b"wrote %d bytes\n" % len(data) and resb.get("again.res") == data


@given(making.cases(odd_tree), making.sources)
def test_random_tree(shared, tree, random):
    check_tree(shared, random, tree, random.random() < 0.2)


def nested(levels):
    tree = ("int", 1)
    for level in range(levels - 1, 1, -1):
        tree = ("array", [tree]) if level % 2 else ("table", {"k": tree})
    return "table", {"k": tree}


@pytest.mark.parametrize("levels, no_fallback", [(2, True), (DEEPEST - 1, False), (DEEPEST, False)])
@making.times(0.1)
@given(making.sources)
def test_nested(shared, levels, no_fallback, random):
    check_tree(shared, random, nested(levels), no_fallback)


@pytest.mark.parametrize("levels, status", [(3, 0), (20, 0), (21, 0), (22, 1), (62, 1)])
def test_shared_items(resb, levels, status):
    """Few shared items are printed; if they spell too much, the command says so."""
    file = resb.put("shared.res", files.shared_arrays(levels))
    assert resb.output("check", file) == b"ok, %d visits\n" % (levels + 1)
    done = resb("json", file)
    assert (done.status, done.stderr) == (status, b"shared.res: TooLarge\n" if status else b"")
    if levels < 4:
        value = 0
        for _ in range(levels):
            value = [value, value]
        assert done.stdout == printed({"a": value})


def refused(resb, data, said):
    done = resb("compile", "--json", resb.put("bad.json", data), "none.res")
    assert done == (1, b"", f"bad.json:{said}\n".encode()) and resb.get("none.res") is None


def no_constant(word):
    """Refuses NaN and the like, which Python reads."""
    raise ValueError(word)


@pytest.mark.parametrize("at", range(len(REFUSED)))
def test_refused(resb, at):
    """Python's reader must refuse what isn't JSON, and read what is refused for another reason."""
    data, said = REFUSED[at]
    refused(resb, data, said)
    try:
        json.loads(data.decode(), parse_constant=no_constant)
        is_json = True
    except (ValueError, RecursionError):
        is_json = False
    # Python reads a lone surrogate by its escape
    if b"\\ud800" not in data:
        assert is_json is not any(code in said for code in ("NotJson", "NotUtf8", "TrailingText"))


@pytest.mark.parametrize("at", range(8))
def test_refused_large(resb, at):
    data, said = list(large())[at]
    refused(resb, data, said)


@pytest.mark.parametrize("one, other", ALIKE)
def test_alike(resb, one, other):
    assert resb.compiled(one, "--json") == resb.compiled(other, "--json")


def arrays(levels):
    return b'{"a":' + b"[" * (levels - 1) + b"]" * (levels - 1) + b"}"


def test_deepest(resb):
    resb.compiled(arrays(DEEPEST), "--json")


def test_folder(resb):
    """Many texts are compiled into a folder, by standard input and output too."""
    texts = [resb.put(name, data) for name, data in (("de.json", b'{"a":"x"}'), ("fr.json", b'{"a":y}'), ("it.json", b'{"a":1}'))]
    os.mkdir(resb.folder / "out")
    said = b"out/de.res: wrote 76 bytes\nout/it.res: wrote 68 bytes\n"
    assert resb("compile", "--json", "--to", "out", *texts) == (1, said, b"fr.json:1:6: NotJson /a\n")
    assert sorted(os.listdir(resb.folder / "out")) == ["de.res", "it.res"]
    assert resb.output("compile", "--json", "de.json", "-") == resb.get("out/de.res")
    assert resb.output("compile", "--json", "-q", "de.json", "q.res") == b""
    for words, said in (
        (["de.json", "it.json"], b"resb: OUT is a JSON text: it.json\n"),
        (["de.json", "x.txt"], b"resb: OUT is a bundle text: x.txt\n"),
        (["absent.json", "x.res"], b"cannot read absent.json\n"),
    ):
        assert resb("compile", "--json", *words) == (2, b"", said)
    assert resb("compile", "--no-fallback", "de.json", "q.res").status == 2
