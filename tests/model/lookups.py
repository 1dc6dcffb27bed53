"""Names of locales, explicit parents, trails and the search, after docs/LOOKUP.md.

Bundles are dictionaries from names to bundles.
"""
from model.trees import child, is_printable, segments, walk


class Refused(Exception):
    """A lookup or explicit parents that are refused, with the error's word."""


def canonical(text):
    """The name that a text is read as, or None."""
    name = text.split("@", 1)[0].replace("-", "_")
    if name == "":
        return "root"
    first, *others = name.split("_")
    if len(name) > 64 or not (first.isascii() and first.isalpha() and 2 <= len(first) <= 8):
        return None
    if not all(part.isascii() and part.isalnum() and len(part) <= 8 for part in others):
        return None
    script = [others.pop(0).title()] if others and len(others[0]) == 4 and others[0].isalpha() else []
    return "_".join([first.lower(), *script, *map(str.upper, others)])


def string_at(tree, key):
    """The name at a key of a table, if it has a String; False if it has none."""
    kind, content = child(tree, key) or (None, None)
    if kind != "string":
        return False
    name = canonical("".join(map(chr, content)))
    if name is None:
        raise Refused("BadParent")
    return name


def parents_of(tree):
    kind, entries = child(tree, "parentLocales") or (None, None)
    if kind != "table":
        raise Refused("Shape")
    found = {}
    for key, value in sorted(entries.items()):
        parent = canonical(key)
        if parent is None:
            raise Refused("BadLocale")
        for name in children_of(value):
            if name is None:
                raise Refused("BadLocale")
            if name in found:
                raise Refused("TwoParents")
            found[name] = parent
    return found


def children_of(value):
    items = value[1] if value[0] == "array" else [value]
    if any(kind != "string" for kind, _ in items):
        raise Refused("Shape")
    return [canonical("".join(map(chr, units))) for _, units in items]


def after(parents, name):
    """The name that comes after one whose bundle says nothing."""
    return None if name == "root" else parents.get(name) or name.rpartition("_")[0] or "root"


def next_name(bundle, parents, name):
    """Returns whether a name is a stop, and the name after it, or None."""
    if bundle is None:
        return False, after(parents, name)
    tree, no_fallback = bundle
    other = string_at(tree, "%%ALIAS")
    if other:
        return False, other
    if no_fallback:
        return True, None
    return True, string_at(tree, "%%Parent") or after(parents, name)


def trail_of(bundles, parents, name):
    """Returns the number of names of a trail, and its stops."""
    stops = []
    for count in range(1, 33):
        is_stop, following = next_name(bundles.get(name), parents, name)
        stops += [name] if is_stop else []
        if following is None:
            return count, stops
        name = following
    raise Refused("Chain")


def target(units, valid):
    """Returns where an alias leads: whether to ICUDATA, the name, and the segments of its path, or None if it has none."""
    text = "".join(map(chr, units))
    if text == "" or not is_printable(text):
        raise Refused("AliasText")
    package = ""
    if text.startswith("/"):
        package, _, text = text[1:].partition("/")
        if package not in ("LOCALE", "ICUDATA"):
            raise Refused("AliasPackage")
    locale, path = ("", text) if package == "LOCALE" else text.partition("/")[::2]
    name = valid if package == "LOCALE" else canonical(locale) if locale else None
    parts = segments(path)
    if name is None or parts is None:
        raise Refused("AliasText")
    return package == "ICUDATA", name, parts or None


def decide(bundles, stops, parts):
    """The first item to which a walk over the stops leads, its stop, and how many segments were walked."""
    for stop in stops:
        ended = walk(bundles[stop][0], parts)
        if ended is not None:
            return ended[0], stop, ended[1]
    raise Refused("Missing")


def look(own, common, parents, name, path, most_steps=None):
    """The item that a lookup finds, with its actual and its valid locale; it may take only so many steps."""
    parts, valid, steps = segments(path), None, 0
    if parts is None:
        raise Refused("BadPath")
    for _ in range(256):
        if len("/".join(parts)) > 1024:
            raise Refused("PathTooLong")
        names, stops = trail_of(own, parents, name)
        steps += names * (1 + len(parts))
        if most_steps is not None and steps > most_steps:
            raise Refused("TooManySteps")
        if not stops:
            raise Refused("NoBundle")
        valid = valid or stops[0]
        item, actual, count = decide(own, stops, parts)
        if item[0] != "alias":
            return item, actual, valid
        is_common, name, begin = target(item[1], valid)
        own = common if is_common else own
        parts = (begin or parts[:count]) + parts[count:]
    raise Refused("TooManyAliases")
