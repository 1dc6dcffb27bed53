"""Random trees, texts, files and requests, and damage to them, by a source of random numbers.

`cases(make)` is the strategy of hypothesis that draws what `make` returns. What needs many random numbers, such as the spelling of a text, takes
`sources`, of which only the seed is drawn.
"""
import json

from hypothesis import settings
from hypothesis import strategies as st
from model import files, texts
from model.trees import child, height, units_of

sources = st.randoms(use_true_random=True)


def times(factor):
    """Returns settings for more or fewer cases than the profile draws."""
    return settings(max_examples=max(1, round(factor * settings.default.max_examples)))


def cases(make, *arguments):
    """Returns the strategy of what a function makes of a source of random numbers. In one of five cases each number is drawn, so that a failure can be
    reduced; in the others only a seed, which takes a twentieth of the time."""
    return st.one_of(st.randoms(use_true_random=False), *[sources] * 4).map(lambda random: make(random, *arguments))


LOCALES = ["root", "de", "de_AT", "de_CH", "en", "en_GB", "en_001", "fr", "zh", "zh_Hant", "zh_Hant_TW", "zh_TW", "iw", "he", "xa", "xb"]
SPELLINGS = ["DE-at@x=y", "", "@x", "ZH-hant-tw", "de_AT_WIEN", "en-gb", "de_DE_1996", "a" * 8, "zh_hant_HK"]
BAD_LOCALES = ["d", "de__X", "de-", "de_DE.UTF-8", "dé", "de_123456789", "x" * 9, "de_" + "_".join(["abcdefgh"] * 8)]
APPS = ["shop", "bank", "a", "A", "icudata", "shop.2", "x" * 64, "-"]
BAD_APPS = ["", "a b", "ICUDATA", "é", "x" * 65, "shop/", "shop\n"]
KEYS = ["a", "b", "c", "k", "menu", "open", "x1", "0", "1", "%%ALIAS", "%%Parent", "a b", "~", "a/b", "}", "\"", "//", "longer_key_than_most"]
PATHS = ["", "a", "menu/open", "a/0", "a/b", "k/1/c", "a//b", "/", "a/", "é", "a/01", "a/99999999999999999999", "b" * 1024, "b" * 1025]
ALIASES = ["/LOCALE", "/LOCALE/a", "/ICUDATA/de", "/ICUDATA/root/a", "root/a", "de", "de/b", "fr/menu/open", "root/a/bbbbbbbbb", "/ICUDATA/zh/k"]
BAD_ALIASES = ["", "/", "/ICUDATA", "/ICUDATA//x", "//de", "/other/de/x", "de//x", "d/x", "é", "/LOCALE//a", "root/k\u0001", "/icudata/de"]
TEXTS = ["", "Hallo", "a b", "\u00e9\U0001f600", "\ud800", "\udc00\ud800", "\0\x01\x7f\u2028", "/* no */", "{x}", "\\\"", "x" * 300, "de", "?"]
SIGNS = ["{", "}", ",", ":", "\"", "\\", "//", "/*", "*/", "\n", " ", ":int", ":table(nofallback)", "\\x", "\\u12", "0x", "\ufeff", "\u2029", "%"]


def random_text(random):
    if random.random() < 0.2:
        return units_of(random.choice(LOCALES))
    if random.random() < 0.6:
        return units_of(random.choice(TEXTS))
    return tuple(random.choice((random.randrange(32, 127), random.randrange(0x10000))) for _ in range(random.randrange(12)))


def random_alias(random):
    chosen = random.random()
    if chosen < 0.15:
        return units_of(random.choice(BAD_ALIASES))
    if chosen < 0.5:
        return units_of(random.choice(LOCALES) + "/" + random.choice(KEYS[:8]))
    return units_of(random.choice(ALIASES))


def random_leaf(random):
    kind = random.choice(("string", "string", "alias", "int", "intvector", "bin"))
    if kind == "string":
        return kind, random_text(random)
    if kind == "alias":
        return kind, random_alias(random)
    if kind == "int":
        return kind, random.choice((0, 1, (1 << 28) - 1, 1 << 27, random.randrange(1 << 28)))
    if kind == "bin":
        return kind, random.randbytes(random.choice((0, 1, 3, 16, 40)))
    return kind, [random.choice((0, 1, -1, 2147483647, -2147483648, random.randrange(-(1 << 31), 1 << 31))) for _ in range(random.choice((0, 1, 2, 5)))]


def random_item(random, levels, leaf=random_leaf, keys=KEYS):
    chosen = random.random()
    if levels == 0 or chosen < 0.5:
        return leaf(random)
    if chosen < 0.7:
        return "array", [random_item(random, levels - 1, leaf, keys) for _ in range(random.choice((0, 1, 2, 4)))]
    return random_table(random, levels, leaf, keys)


def random_table(random, levels, leaf=random_leaf, keys=KEYS):
    chosen = random.sample(keys, min(len(keys), random.choice((0, 1, 2, 3, 5))))
    found = {key: random_item(random, levels - 1, leaf, keys) for key in chosen}
    for key in ("%%ALIAS", "%%Parent", "//", "a/b"):
        if key in found and random.random() < 0.9:
            found.pop(key)
    return "table", dict(sorted(found.items()))


def chain(random, count):
    item = random_leaf(random)
    for _ in range(count):
        item = "array", [item]
    return "table", {"a": item}


def random_bundle(random):
    is_deep = random.random() < 0.02
    tree = chain(random, random.choice((30, 31, 61, 62, 63))) if is_deep else random_table(random, random.choice((1, 2, 2, 3, 4)))
    tree = ("table", {f"key{i:03d}": random_leaf(random) for i in range(300)}) if random.random() < 0.01 else tree
    if not is_deep and random.random() < 0.1:
        tree[1][random.choice(("%%ALIAS", "%%Parent"))] = "string", units_of(random.choice(LOCALES[1:] + BAD_LOCALES[:1]))
    return ("table", dict(sorted(tree[1].items()))), random.random() < 0.1


def random_path(random, item, share):
    """Returns the segments of a way down an item, which continues at each level with this probability."""
    parts = []
    while item[0] in ("table", "array") and item[1] and random.random() < share:
        parts.append(random.choice(list(item[1])) if item[0] == "table" else str(random.randrange(len(item[1]))))
        item = child(item, parts[-1])
    return parts


class Speller:
    """Spells a bundle as a text, in one of the many ways, with more or fewer comments, each another one."""

    def __init__(self, random):
        self.random, self.count = random, 0
        self.comments = random.choice((0, 0.1, 0.1, 0.4))

    def blank(self):
        parts = [self.random.choice(("", "", "", " ", "\n", "\t\r\n", "\n\n\n", "\ufeff", "\u2029"))]
        while self.random.random() < self.comments:
            self.count += 1
            form = self.random.choice(("/* {%d */", "// %d \t\n", "/*%d\n * x\n */", "//%d\r\n", "//%d\u2029", "/**/"))
            parts += [form % self.count if "%" in form else form, self.random.choice(("", " ", "\n", "\n\n"))]
        return "".join(parts)

    def unit(self, unit):
        forms = [f"\\u{unit:04x}", f"\\U{unit:08X}"]
        if unit < 0x100:
            forms.append(f"\\x{unit:02x}")
        if unit < 0o1000:
            forms.append(f"\\{unit:03o}")
        forms += ["\\" + letter for letter, named in texts.NAMED.items() if ord(named) == unit]
        if unit in (0x22, 0x5C, 0x7B):
            forms.append("\\" + chr(unit))
        if not 0xD800 <= unit < 0xE000 and unit not in (0x22, 0x5C):
            forms += [chr(unit)] * 9
        return self.random.choice(forms)

    def bare(self, plain):
        """Returns a piece without quotes, which may have a comment inside."""
        cut = self.random.randrange(len(plain))
        inner = self.random.choice(("/**/", "/* x */", "//\n")) if cut and self.random.random() < 0.2 else ""
        return plain[:cut] + inner + "".join(self.unit(ord(sign)) if self.random.random() < 0.1 else sign for sign in plain[cut:])

    def quoted(self, units):
        return '"' + "".join(map(self.unit, units)) + '"'

    def text(self, units):
        """Returns a text in one piece or in two, quoted or, if that can be, not."""
        first, space, second = "".join(map(chr, units)).partition(" ")
        if first.isalnum() and (second.isalnum() or not space) and self.random.random() < 0.5:
            last = self.random.choice((self.bare, lambda plain: self.quoted(units_of(plain))))
            return self.bare(first) + (self.random.choice((" ", "\n", "/**/ ")) + last(second) if space else "")
        if self.random.random() < 0.2:
            cut = self.random.randrange(len(units) + 1)
            return self.quoted(units[:cut]) + self.blank() + self.quoted(units[cut:])
        return self.quoted(units)

    def number(self, value, least):
        """A number; one of this many bits may be written with its sign or without."""
        forms = [str(value), f"0x{value:x}" if value >= 0 else f"-0X{-value:X}", f"0{value:o}" if value >= 0 else f"-0{-value:o}"]
        if value > 0:
            forms += [f"+{value}", f"0x000{value:x}"]
        chosen = self.random.choice(forms)
        return f'"{chosen}"' if least and self.random.random() < 0.3 else chosen

    def spelled_int(self, value):
        is_negative = value >> 27 and self.random.random() < 0.5
        return ":int", self.number(value - (1 << 28) if is_negative else value, True)

    def spelled_vector(self, values):
        numbers = [self.number(value + (1 << 32) if value < 0 and self.random.random() < 0.5 else value, False) for value in values]
        return ":intvector", ",".join(numbers) + ("," if numbers and self.random.random() < 0.3 else "")

    def spelled_bytes(self, content):
        digits = content.hex(" ") if self.random.random() < 0.5 else content.hex().upper()
        return self.random.choice((":bin", ":binary")), digits if self.random.random() < 0.5 else f'"{digits}"'

    def element(self, item):
        if item[0] == "string" and self.random.random() < 0.7:
            return self.text(item[1]) + ","
        return self.value(item) + self.random.choice(("", ","))

    def entry(self, key, item):
        return self.text(units_of(key)) + self.blank() + self.value(item) + self.blank() + self.random.choice(("", ","))

    def spelled_table(self, entries):
        shuffled = list(entries.items())
        self.random.shuffle(shuffled)
        body = "".join(self.entry(key, item) + self.blank() for key, item in shuffled)
        return self.random.choice((":table", "") if shuffled else (":table",)), body

    def spelled(self, item):
        kind, content = item
        if kind == "string":
            return self.random.choice((":string", "")), self.text(content)
        if kind == "alias":
            return ":alias", self.text(content)
        if kind == "array":
            return self.random.choice((":array", "")), "".join(self.element(inner) + self.blank() for inner in content)
        return {"int": self.spelled_int, "intvector": self.spelled_vector, "bin": self.spelled_bytes, "table": self.spelled_table}[kind](content)

    def value(self, item):
        word, body = self.spelled(item)
        return word + self.blank() + "{" + self.blank() + body + self.blank() + "}"

    def bundle(self, bundle):
        tree, no_fallback = bundle
        body = self.spelled_table(tree[1])[1]
        word = ":table(nofallback)" if no_fallback else self.random.choice(("", ":table"))
        return self.random.choice(LOCALES) + self.blank() + word + "{" + self.blank() + body + "}" + self.blank()


def good_bundle(random):
    while True:
        bundle = random_bundle(random)
        if height(bundle[0]) <= 64:
            return bundle


def spelled(random, bundle):
    text = Speller(random).bundle(bundle).encode("utf-8")
    assert height(bundle[0]) > 64 or texts.read(text) == bundle, f"the model reads another bundle: {text!r}"
    return text


def written(random, bundle):
    layout = random_layout(random)
    if bundle[1] and layout.minor is None:
        layout.indexes, layout.minor = 6, 2
    file = files.write(bundle, layout)
    assert height(bundle[0]) > 64 or files.read(file)[0] == bundle, f"the model reads another bundle: {file.hex()}"
    return file


def random_layout(random):
    """A layout, often that of the program."""
    if random.random() < 0.5:
        return files.Layout()
    header, indexes, minor = map(random.choice, ((32, 48, 256), (6, 7, 9), (2, 3, 4, 255)))
    has_long_tables, shares_keys, shares_values = (random.random() < share for share in (0.3, 0.5, 0.5))
    return files.Layout(header, indexes, minor, has_long_tables, shares_keys, shares_values, random.choice((b"", b"x", b"\xff" * 64)))


def damage_file(random, file):
    """A file with a word, a byte or its end changed."""
    damaged = bytearray(file)
    for _ in range(random.choice((1, 1, 1, 2, 4))):
        at = random.randrange(max(1, len(damaged) // 4)) * 4
        chosen = random.random()
        word = int.from_bytes(damaged[at:at + 4], "little")
        if chosen < 0.2:
            damaged[at:at + 4] = random.choice((0, 0x7FFFFFFF, 0xFFFFFFFF)).to_bytes(4, "little")
        elif chosen < 0.5:
            damaged[at:at + 4] = ((word + random.choice((1, -1, 2, 0x10000, 1 << 28))) & 0xFFFFFFFF).to_bytes(4, "little")
        elif chosen < 0.6:
            del damaged[random.randrange(len(damaged) + 1):]
        elif chosen < 0.8 and damaged:
            damaged[random.randrange(len(damaged))] = random.randrange(256)
        else:
            other = random.randrange(max(1, len(damaged) // 4)) * 4
            damaged[at:at + 4] = damaged[other:other + 4]
    return bytes(damaged)


def damage_text(random, text):
    for _ in range(random.choice((1, 1, 2, 5))):
        at = random.randrange(len(text) + 1)
        past = at + random.choice((0, 0, 1, 1, 2, 9))
        text = text[:at] + random.choice(["", text[past:past + 5], *SIGNS]) + text[past:]
    return text[:random.randrange(len(text) + 1)] if random.random() < 0.1 else text


def damage_line(random, line):
    damaged = bytearray(line)
    for _ in range(random.choice((1, 1, 2, 4))):
        at = random.randrange(len(damaged) + 1)
        past = at + random.choice((0, 1, 1, 3))
        damaged[at:past] = random.choice((b"", b"\"", b"\\", b"{", b"}", b",", b"\xff", b"\0", b"1", b"\\ud800", b"[", b"\t", b"e9", b"\xc3\xa9"))
    return bytes(damaged).replace(b"\n", b" ")


def random_line(random):
    """A line that is no request, or hardly one."""
    return random.choice((
        b"", b" ", b"null", b"[1]", b"\"x\"", b"{}", b"\xff", b"{\"op\":1}", b"[" * 127 + b"]" * 127, b"[" * 128 + b"]" * 128,
        b"{\"op\":\"list\",\"app\":\"\\ud800\"}", b"{\"op\":\"list\",\"app\":1}", b"{\"op\":\"list\",\"app\":\"a\"} x", b"\xef\xbb\xbf{}",
        b"{\"op\":\"list\",\"app\":\"a\",\"n\":1e400}", b"{\"op\":\"list\",\"app\":\"a\",\"n\":1e-400}", b"{\"op\":\"list\",\"app\":\"a\",\"n\":01}",
        b"{\"op\":\"look\",\"op\":\"list\",\"app\":\"shop\"}", b"{\"op\":\"list\",\"app\":\"shop\",\"text\":1,\"file\":2}",
        b" {\"app\" : \"shop\" , \"op\":\"l\\u0069st\"}\r", b"{\"op\":\"list\",\"app\":\"a\",\"x\":{\"\\udc00\":1}}", b"{\"op\":\"LIST\",\"app\":\"a\"}",
        b"{\"op\":\"list\",\"app\":\"a\",\"n\":[" + b"9" * 400 + b"]}", b"{\"op\":\"install\",\"app\":\"a\",\"locale\":\"de\"}",
    ))


def dumped(random, request):
    pairs = list(request.items())
    random.shuffle(pairs)
    separators = random.choice(((",", ":"), (", ", ": ")))
    return json.dumps(dict(pairs), ensure_ascii=random.random() < 0.5, separators=separators).encode("utf-8")


def hexadecimal(random, file):
    """A file in hexadecimal, sometimes with a digit lost."""
    digits = file.hex()
    digits = digits.upper() if random.random() < 0.3 else digits
    return digits[:-1] if random.random() < 0.02 else digits


def parents_text(parents):
    children = {parent: ",".join(f'"{name}"' for name, other in parents.items() if other == parent) for parent in parents.values()}
    return "x{parentLocales{" + "".join(f"{parent}:array{{{names}}}" for parent, names in children.items()) + "}}"
