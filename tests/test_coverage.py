"""`resb coverage` beside a model over random modules, in its four formats.

The model compares the modules' trees by the rules of docs/GUIDE.md ("Coverage"), and knows the arguments of a message from how it was made.
"""
import csv
import functools
import io
import json

from hypothesis import given
from model import lookups
from model.trees import units_of
from support import making

FINDINGS = {"missing": "missing in", "unused": "unused in", "same": "the same as the parent's in", "type": "of another type than the parent's in",
            "arguments": "other arguments than the parent's in"}
LOCALES = ["ar", "de", "de_AT", "de_AT_1996", "de_CH", "en", "en_001", "en_GB", "sr", "sr_Latn", "sr_Latn_RS", "zh", "zh_Hant", "zh_Hant_TW"]
KEYS = ["a", "b", "c", "menu", "open,close", 'q"q', "x-y", "Z", "a.b", "k" * 210]
FOLDERS = ["calendar", "shop", "a,b", "deep/er"]
PARENTS = {"sr_Latn": "root", "zh_Hant": "root", "en_GB": "en_001"}
SHOWN = 200
# the arguments of each message that was made, each a name with the kind of its values, or None for no message
ARGUMENTS = {}


def message(random, depth=0):
    """Returns a message and its arguments."""
    name, form = random.choice(["0", "1", "name", "n"]), random.randrange(10)
    if depth > 1 or form < 3:
        return random.choice(["A", "text", "it''s", "'{'0'}'", "B", ""]), {}
    if form == 3:
        return "{" + name + "}", {name: "any"}
    if form == 4:
        return "{ " + name + " , number, ::.00}", {name: "number"}
    if form == 5:
        return "{" + name + ",date}", {name: "date"}
    if form == 6:
        return random.choice(["{", "{0", "{0,what}", "{n,plural,one{x}}"]), None
    (first, one), (second, two) = message(random, depth + 1), message(random, depth + 1)
    if one is None or two is None:
        return "plain", {}
    if form > 7:
        return first + " " + second, merged(one, two)
    head, kind = random.choice([("plural,one", "number"), ("select,one", "word"), ("selectordinal,=1", "number")])
    return "{" + name + "," + head + "{" + first + "}other{" + second + "#}}", merged(merged({name: kind}, one), two)


def merged(one, two):
    """Returns the arguments of two messages in a row: of each name the first kind that isn't any."""
    return {name: two.get(name, "any") if one.get(name, "any") == "any" else one[name] for name in {**one, **two}}


def some_leaf(random):
    form = random.randrange(11)
    if form < 6:
        text, arguments = message(random)
        ARGUMENTS[units_of(text)] = arguments
        return "string", units_of(text)
    return [("int", random.randrange(3)), ("intvector", [random.randrange(-1, 2) for _ in range(random.randrange(1, 3))]),
            ("bin", random.choice([b"", b"\0", b"\xff\1"])), ("alias", units_of(random.choice(["/LOCALE/a", "/LOCALE/b"]))),
            ("array", [some_leaf(random) for _ in range(random.randrange(1, 3))])][form - 6]


def mutated(random, tree, rate):
    """Returns another locale's entries: some are left out, changed or added."""
    made = {}
    for key, item in tree.items():
        chosen = random.random()
        if chosen >= 2 * rate:
            made[key] = ("table", mutated(random, item[1], rate)) if item[0] == "table" else item
        elif chosen >= rate:
            made[key] = making.random_item(random, 2, some_leaf, KEYS)
    if random.random() < rate:
        made[random.choice(KEYS)] = some_leaf(random)
    return dict(sorted(made.items()))


def random_bundles(random):
    names = random.sample(LOCALES, random.randrange(1, 7))
    root = {key: making.random_item(random, 3, some_leaf, KEYS) for key in random.sample(KEYS, random.randrange(2, 5))}
    if random.random() < 0.1:
        root["%%Version"] = "string", units_of("1")
    bundles = {"root": (("table", dict(sorted(root.items()))), False)}
    for name in names:
        tree, chosen = mutated(random, root, random.choice([0.1, 0.3, 0.6])), random.random()
        if chosen < 0.15:
            key, other = ("%%Parent", ["root", "de", "en"]) if chosen < 0.1 else ("%%ALIAS", names)
            tree = dict(sorted({**tree, key: ("string", units_of(random.choice(other)))}.items()))
        bundles[name] = ("table", tree), random.random() < 0.05
    return bundles


def random_case(random):
    """Returns modules by their folders, and explicit parents. Bundles whose trails have no end are drawn again."""
    while True:
        modules = {folder: random_bundles(random) for folder in random.sample(FOLDERS, random.choice([1, 1, 2, 3]))}
        parents = PARENTS if random.random() < 0.5 else {}
        try:
            for bundles in modules.values():
                compare(bundles, parents)
            return modules, parents
        except lookups.Refused:
            pass


def at(bundle, path):
    """Returns the item at the keys of tables, or None."""
    return functools.reduce(lambda item, key: item[1].get(key) if item and item[0] == "table" else None, path, bundle[0])


def paths_of(item, path=()):
    for key, inner in item[1].items() if item[0] == "table" else ():
        if not key.startswith("%%"):
            yield path + (key,)
            yield from paths_of(inner, path + (key,))


def differ(one, two):
    one, two = ARGUMENTS[one], ARGUMENTS[two]
    if one is None or two is None:
        return False
    return set(one) != set(two) or any("any" not in (one[name], two[name]) and one[name] != two[name] for name in one)


def has_text(item):
    return item is not None and item[0] in ("string", "array")


def findings(own, above, root, is_root_nearest):
    """Yields what a locale has or lacks, by its item, the inherited one, the root's, and whether the inherited one is the root's."""
    if own is None:
        if has_text(root) and (above is None or is_root_nearest):
            yield "missing"
        return
    if root is None and own[0] != "table":
        yield "unused"
    if above is None:
        return
    if own[0] != above[0]:
        if "alias" not in (own[0], above[0]):
            yield "type"
    elif own[0] == "table":
        return
    elif own == above:
        yield "same"
    elif own[0] == "string" and differ(own[1], above[1]):
        yield "arguments"


def shown(path):
    def short(text):
        half = (SHOWN - 2) // 2
        return text if len(text) <= SHOWN else text[:half] + ".." + text[-half:]

    return short("/".join(short(key) for key in path))


def compare(bundles, parents):
    """Returns the number of keys with text, the locales, and (path, finding, locales) in the order of the output."""
    trails = {name: lookups.trail_of(bundles, parents, name)[1] for name in sorted(bundles)}
    above = {name: trail[1:] for name, trail in trails.items() if name != "root" and trail[:1] == [name]}
    found, keys = [], 0
    for path in sorted({path for bundle in bundles.values() for path in paths_of(bundle[0])}):
        root = at(bundles["root"], path)
        keys += has_text(root)
        here = {finding: [] for finding in FINDINGS}
        for name, trail in above.items():
            nearest = next((parent for parent in trail if at(bundles[parent], path) is not None), None)
            inherited = at(bundles[nearest], path) if nearest else None
            for finding in findings(at(bundles[name], path), inherited, root, nearest == "root"):
                here[finding].append(name)
        found += [(shown(path), finding, here[finding]) for finding in FINDINGS if here[finding]]
    return keys, list(above), found


def table_lines(module, keys, locales, found):
    yield f"{module}: {keys} keys\n"
    yield f"{'locale':<24}" + "".join(f"{finding:>10}" for finding in FINDINGS) + "\n"
    for name in locales:
        counts = (sum(what == finding and name in names for _, what, names in found) for finding in FINDINGS)
        yield f"{name:<24}" + "".join(f"{count:>10}" for count in counts) + "\n"


def expected(form, modules, parents):
    out = io.StringIO()
    rows = csv.writer(out, lineterminator="\n")
    if form == "csv":
        rows.writerow(["module", "key", "finding", "locale"])
    for folder in sorted(modules):
        keys, locales, found = compare(modules[folder], parents)
        if form == "table":
            out.writelines(table_lines(folder, keys, locales, found))
            continue
        for path, finding, names in found:
            if form == "list":
                out.write((f"{folder}: " if len(modules) > 1 else "") + f"{path}: {FINDINGS[finding]} {', '.join(names)}\n")
            elif form == "json":
                out.write(json.dumps({"module": folder, "key": path, "finding": finding, "locales": names}, separators=(",", ":")) + "\n")
            else:
                rows.writerows([folder, path, finding, name] for name in names)
    return out.getvalue()


@making.times(3)
@given(making.cases(random_case), making.sources)
def test_modules(shared, case, random):
    modules, parents = case
    words = ["--parents", shared.put("parents.txt", making.parents_text(parents))] if parents else []
    for folder, bundles in modules.items():
        words += [shared.put(f"{folder}/{name}.txt", making.Speller(random).bundle(bundle)) for name, bundle in bundles.items()]
    for form in ("table", "list", "json", "csv"):
        assert shared.output("coverage", "--format", form, *words).decode() == expected(form, modules, parents)
