"""`resb json --inherit` beside a model over random modules (model/inherited.py), whose leaves must be what the model of lookups finds at their paths; of
some `resb look` is asked too. Every leaf that a lookup finds at a path of any bundle must be in the tree, unless an item on the way isn't a table.
"""
import json

import pytest
from hypothesis import given
from model import lookups, trees
from model.inherited import TooLong, Tree
from model.lookups import Refused
from model.trees import child, printed, segments, units_of, value_of
from support import making

KEYS = ["a", "b", "c", "k", "menu", "open", ":x"]
PATHS = [""] * 12 + ["a", "b", "menu", "a/b", "a/0", "k/a", "%%Parent", "a/b/c"] + ["a//b", "x" * 1025]
PATH_LIMIT, LONG = 1024, 600
CLOSE = ["root", "de", "de_AT", "de_AT_WIEN", "fr"]
PARENTS = [{}, {}, {"zh_Hant": "root", "en_GB": "en_001"}, {"de_AT": "de_CH", "fr": "xa"}]
TAGS = (":error", ":bin", ":intvector", ":units")


def is_leaf(value):
    return not isinstance(value, (dict, list)) or isinstance(value, dict) and len(value) == 1 and next(iter(value)) in TAGS


def leaves(value, parts):
    if is_leaf(value):
        yield parts, value
    else:
        inner = value.items() if isinstance(value, dict) else enumerate(value)
        for key, part in inner:
            yield from leaves(part, [*parts, str(key).removeprefix(":") if str(key).startswith("::") else str(key)])


def looked_up(bundles, parents, name, parts):
    """Returns what a lookup finds: the value of a leaf, the kind of another item, or an error."""
    try:
        item = lookups.look(bundles, {}, parents, name, "/".join(parts))[0]
    except Refused as error:
        return {":error": str(error)}
    return item[0] if item[0] in ("table", "array") else value_of(item)


def is_plain(parts):
    return not any("/" in part or part == "" for part in parts)


def at(value, parts):
    """Returns the value at a path, or what is on the way if it isn't a table."""
    for part in parts:
        if not isinstance(value, dict) or is_leaf(value):
            return value, False
        value = value.get(":" + part if part.startswith(":") else part)
        if value is None:
            return None, True
    return value, True


def is_ended(bundles, begin, parts):
    """Checks whether any stop of any bundle has something other than a table on the way to a path."""
    for item, _ in bundles.values():
        for count, part in enumerate(parts):
            if count >= len(begin) and item[0] != "table":
                return True
            item = child(item, part)
            if item is None:
                break
    return False


def check_laws(bundles, parents, name, path, value):
    """Compares the leaves of a tree with lookups."""
    begin = segments(path)
    for parts, leaf in leaves(value, begin):
        assert leaf == {":error": "TooDeep"} or not is_plain(parts) or looked_up(bundles, parents, name, parts) == leaf, parts
    for tree, _ in bundles.values():
        for parts in (list(parts) for parts, (kind, _) in trees.leaves(tree) if kind != "alias"):
            if parts[:len(begin)] != begin or not is_plain(parts):
                continue
            found = looked_up(bundles, parents, name, parts)
            inner, is_way = at(value, parts[len(begin):])
            if found not in ("table", "array") and not (isinstance(found, dict) and ":error" in found) and is_way:
                assert inner == found or is_ended(bundles, begin, parts), parts


def close_leaf(random):
    """Returns a leaf like many others of its module, so that tables meet."""
    if random.random() < 0.5:
        return "string", (random.randrange(65, 91),)
    path = "/".join(random.choice("ab") for _ in range(random.choice((0, 1, 1, 2))))
    return "alias", units_of(random.choice([*CLOSE, "/LOCALE"]) + ("/" + path if path else ""))


def long_module():
    """Returns a module whose aliases lead from long paths to short ones, so that the path from the root is too long, and the alias's is not. The
    two items of `t` below the alias have paths of 1,024 and of 1,025 bytes."""
    items = {"k" * (PATH_LIMIT - LONG - len("/link/") + more): ("string", (120,)) for more in (0, 1)}
    links = {key: ("alias", units_of(text)) for key, text in (("link", "/LOCALE/t"), ("other", "/LOCALE/second"))}
    second = {"first": ("alias", units_of("/LOCALE/t"))}
    root = {"k" * LONG: ("table", links), "second": ("table", second), "t": ("table", items)}
    return {"root": (("table", root), False), "de": (("table", {"t": ("table", {"a": ("string", (97,))})}), False)}


def some_leaf(random):
    return ("alias", making.random_alias(random)) if random.random() < 0.3 else making.random_leaf(random)


def some_bundle(random):
    if random.random() < 0.3:
        return making.good_bundle(random)
    keys = KEYS + ["a/b"] * (random.random() < 0.02)
    entries = making.random_table(random, random.choice((1, 2, 3)), some_leaf, keys)[1]
    if random.random() < 0.1:
        name = random.choice(making.LOCALES + making.BAD_LOCALES[:1])
        entries[random.choice(("%%ALIAS", "%%Parent"))] = "string", units_of(name)
    return ("table", dict(sorted(entries.items()))), random.random() < 0.1


def module(random):
    """Returns the bundles of a module, and what is asked of it: a locale, explicit parents and a path."""
    if random.random() < 0.5:
        names = random.sample(CLOSE, random.choice((2, 3, 4)))
        bundles = {name: (("table", {key: making.random_item(random, 3, close_leaf, ["a", "b", "c"]) for key in "abt"}), random.random() < 0.1) for name in names}
    else:
        names = random.sample(making.LOCALES, random.choice((1, 2, 3, 5)))
        names += ["root"] if "root" not in names and random.random() < 0.7 else []
        bundles = {name: some_bundle(random) for name in names}
    spellings = [spelling for spelling in making.SPELLINGS if lookups.canonical(spelling)]
    locale = random.choice(list(bundles) * 3 + making.LOCALES + spellings)
    return bundles, locale, random.choice(PARENTS), random.choice(PATHS)


def check_looks(resb, words, value, path, random):
    """Compares two leaves with what `resb look` prints."""
    found = [(parts, leaf) for parts, leaf in leaves(value, segments(path)) if is_plain(parts) and leaf != {":error": "TooDeep"}]
    for parts, leaf in random.sample(found, min(2, len(found))):
        locale, options, files = words
        reply = json.loads(resb("look", *options, locale, "/".join(parts), *files).stdout)
        if "error" in reply:
            assert leaf == {":error": reply["error"]}
        else:
            shown = {"string": "value", "int": "signed"}.get(reply["type"])
            assert leaf in (reply.get(shown), {":units": reply.get("units")}, {":intvector": reply.get("values")}, {":bin": reply.get("hex")})


def check_tree(resb, asked, random):
    bundles, locale, parents, path = asked
    files = [resb.put(f"{name}.txt", making.Speller(random).bundle(bundle)) for name, bundle in bundles.items()]
    options = ["--parents", resb.put("parents.txt", making.parents_text(parents))] if parents else []
    name = lookups.canonical(locale)
    done = resb("json", "--inherit", locale, "--path", path, *options, *files)
    try:
        lookups.look(bundles, {}, parents, name, path)
        value = Tree(bundles, {}, parents, name, segments(path)).value
    except Refused as error:
        code = done.stderr.decode().rsplit(": ", 1)[-1].split(" ")[0].strip()
        assert (done.status, done.stdout, code) == (1, b"", str(error))
        return
    except TooLong:
        assert done.status == 0 or b"TreeTooLarge" in done.stderr
        return
    assert done == (0, printed(value), b"")
    check_laws(bundles, parents, name, path, value)
    check_looks(resb, (locale, options, files), value, path, random)


@given(making.cases(module), making.sources)
def test_module(shared, asked, random):
    check_tree(shared, asked, random)


@pytest.mark.parametrize("path", ["", "k" * LONG], ids=["root", "long"])
@making.times(0.05)
@given(making.sources)
def test_long_paths(shared, path, random):
    check_tree(shared, (long_module(), "de", {}, path), random)
