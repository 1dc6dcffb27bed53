"""Items, each a pair of its kind and its content, and what is printed of them.

A string and an alias hold a tuple of units, an int a number of 28 bits, a vector a list of numbers, a binary bytes, an array a list of
items, and a table a dictionary from keys to items, in ascending order. A bundle is a pair of a table and the flag `no fallback`.
"""
import json
import re
import struct

INDEX = re.compile("0|[1-9][0-9]*")


def units_of(text):
    coded = text.encode("utf-16-le", "surrogatepass")
    return struct.unpack(f"<{len(coded) // 2}H", coded)


def is_printable(text):
    return all(" " <= character <= "~" for character in text)


def segments(path):
    """The segments of a path, or None if it is no path."""
    if not is_printable(path):
        return None
    parts = path.split("/") if path else []
    return None if "" in parts else parts


def child(item, part):
    """The item to which one segment leads, or None."""
    kind, content = item
    if kind == "table":
        return content.get(part)
    if kind == "array" and INDEX.fullmatch(part) and int(part) < len(content):
        return content[int(part)]
    return None


def walk(item, parts):
    """The item at the end of a walk, or the first alias on it, and how many segments were walked; None if it leads nowhere."""
    for count, part in enumerate(parts):
        if item[0] == "alias":
            return item, count
        item = child(item, part)
        if item is None:
            return None
    return item, len(parts)


def leaves(item, path=()):
    """Yields each item that is neither a table nor an array, with its path."""
    kind, content = item
    if kind not in ("table", "array"):
        yield path, item
        return
    for part, inner in content.items() if kind == "table" else enumerate(content):
        yield from leaves(inner, (*path, str(part)))


def height(item):
    kind, content = item
    below = content.values() if kind == "table" else content if kind == "array" else ()
    return 1 + max(map(height, below), default=0)


def text_members(units):
    """A text by its characters, or by its units if it isn't well-formed UTF-16."""
    coded = b"".join(unit.to_bytes(2, "little") for unit in units)
    try:
        return {"value": coded.decode("utf-16-le")}
    except UnicodeDecodeError:
        return {"units": list(units)}


def members(item, rest=""):
    kind, content = item
    if kind == "string":
        told = text_members(content)
    elif kind == "alias":
        told = {**text_members(content), "rest": rest}
    elif kind == "int":
        told = {"signed": content - (content >> 27 << 28), "unsigned": content}
    elif kind == "intvector":
        told = {"values": content}
    elif kind == "bin":
        told = {"hex": content.hex()}
    elif kind == "array":
        told = {"len": len(content)}
    else:
        told = {"keys": sorted(content)}
    return {"type": kind, **told}


def compact(value):
    """A value as the program prints it."""
    return json.dumps(value, ensure_ascii=False, separators=(",", ":"), sort_keys=True)


def gotten(item, path):
    """Returns what `resb get` prints for a path, and whether there is an item."""
    parts = segments(path)
    if parts is None:
        return "BadPath", False
    if len(path) > 1024:
        return "PathTooLong", False
    ended = walk(item, parts)
    if ended is None:
        return "Missing", False
    return compact(members(ended[0], "/".join(parts[ended[1]:]))), True


# what a terminal acts on, and the controls of the writing direction: they are escaped
ESCAPED = {code: f"\\u{code:04x}" for code in (*range(0x7F, 0xA0), *range(0x202A, 0x202F), *range(0x2066, 0x206A))}


def value_of(item):
    """Returns an item as the value of JSON that `resb json` prints, after docs/JSON.md."""
    kind, content = item
    if kind == "table":
        return {(":" + key if key.startswith(":") else key): value_of(inner) for key, inner in content.items()}
    if kind == "array":
        return [value_of(inner) for inner in content]
    shown = members(item)
    if kind == "string":
        return shown["value"] if "value" in shown else {":units": shown["units"]}
    if kind == "alias":
        return {":alias": shown.get("value", shown.get("units"))}
    if kind == "int":
        return shown["signed"]
    return {":intvector": list(content)} if kind == "intvector" else {":bin": content.hex()}


def printed(value, **form):
    """Returns a value as `resb json` prints it: compact, or with `indent=2`, and its line feed."""
    form = form or {"separators": (",", ":")}
    return (json.dumps(value, ensure_ascii=False, **form).translate(ESCAPED) + "\n").encode()
