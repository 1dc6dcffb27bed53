"""`resb diff` beside a model, over pairs of random trees that share most of their items, in its three forms."""

from hypothesis import given
from model.trees import compact, units_of, value_of
from support import making

KEYS = ["a", "b", "menu", "x y", "0", "1", "10", "key/with", "Z", "~"]


def some_leaf(random):
    return random.choice([
        ("int", random.randrange(4)), ("intvector", [random.randrange(3) for _ in range(random.randrange(3))]),
        ("bin", random.choice([b"", b"\0", b"\0\xff"])), ("alias", units_of(random.choice(["/LOCALE/a", "/ICUDATA/de"]))),
        ("string", units_of(random.choice(["", "A", "B", "äöü", "\U0001f600"])))])


def changed(random, item, levels):
    """Returns an item that differs from another one in some places."""
    if random.randrange(12) == 0:
        return making.random_item(random, levels, some_leaf, KEYS)
    kind, content = item
    if kind == "array":
        items = [changed(random, inner, levels - 1) for inner in content]
        return kind, items[:random.randrange(len(items) + 1)] if random.randrange(4) == 0 else items
    if kind != "table":
        return item
    items = {key: changed(random, inner, levels - 1) for key, inner in content.items() if random.randrange(8)}
    if random.randrange(3) == 0:
        items[random.choice(KEYS)] = making.random_item(random, levels - 1, some_leaf, KEYS)
    return kind, dict(sorted(items.items()))


def pair(random):
    old = "table", {key: making.random_item(random, 3, some_leaf, KEYS) for key in sorted(KEYS)}
    return old, ("table", {key: changed(random, item, 3) for key, item in old[1].items()})


def children(item):
    """Returns the items in an item by their segments."""
    kind, content = item
    return dict(content) if kind == "table" else {str(i): inner for i, inner in enumerate(content)} if kind == "array" else {}


def joined(path, segment):
    return f"{path}/{segment}" if path else segment


def alone(path, item, side):
    """Yields the items without children in an item that only one tree has."""
    items = children(item)
    if not items:
        yield (path, item, None) if side == "old" else (path, None, item)
    for segment, inner in items.items():
        yield from alone(joined(path, segment), inner, side)


def differences(path, old, new):
    """Yields the path of each difference with the items there; None for nothing."""
    if old[0] != new[0] or old[0] not in ("table", "array"):
        if old == new:
            return
        if children(old) or children(new):
            yield from alone(path, old, "old")
            yield from alone(path, new, "new")
        else:
            yield path, old, new
        return
    a, b = children(old), children(new)
    for segment in sorted(a.keys() | b.keys(), key=int if old[0] == "array" else None):
        at = joined(path, segment)
        if segment not in b:
            yield from alone(at, a[segment], "old")
        elif segment not in a:
            yield from alone(at, b[segment], "new")
        else:
            yield from differences(at, a[segment], b[segment])


def expected(found):
    lines, objects, counts = "", "", [0, 0, 0]
    for path, old, new in found:
        members = {"path": path}
        for sign, name, item in (("-", "old", old), ("+", "new", new)):
            if item is not None:
                members[name] = value_of(item)
                lines += f"{sign} {path} {compact(members[name])}\n"
        objects += compact(members) + "\n"
        counts[0 if old is not None and new is not None else 1 if old is None else 2] += 1
    stat = f"{counts[0]} changed, {counts[1]} added, {counts[2]} removed\n" if found else ""
    return {"": lines, "--json": objects, "--stat": stat}


@making.times(3)
@given(making.cases(pair), making.sources)
def test_pair(shared, trees, random):
    files = [shared.put(name, making.Speller(random).bundle((tree, False))) for name, tree in zip(("old.txt", "new.txt"), trees)]
    found = list(differences("", *trees))
    for form, output in expected(found).items():
        assert shared("diff", *[form] * bool(form), *files) == (1 if found else 0, output.encode(), b"")
