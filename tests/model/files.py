"""A writer and a reader of `.res` files, after docs/FORMAT.md.

`write` gives the file that `resb compile` makes; with other choices it gives files that are laid out otherwise and denote the same
bundle. `read` answers a bundle with its visits, or raises `BadFile` with the word of the first error.
"""
import re
import struct
from dataclasses import dataclass

KEY = re.compile(rb"([ -~]+)\0")
TYPES = {"string": 0, "bin": 1, "table": 2, "alias": 3, "int": 7, "array": 8, "intvector": 14}


class BadFile(Exception):
    """A file that is refused, with the error's word."""


@dataclass
class Layout:
    """The choices of a writer: the header's size, the number of indexes, the minor version, long tables, keys that share their ends,
    items that share a value, and what comes after the bundle."""

    header: int = 32
    indexes: int | None = None
    minor: int | None = None
    has_long_tables: bool = False
    shares_keys: bool = False
    shares_values: bool = False
    tail: bytes = b""


def keys_of(item):
    kind, content = item
    if kind == "table":
        return set(content).union(*map(keys_of, content.values()))
    return set().union(*map(keys_of, content)) if kind == "array" else set()


def longest_table(item):
    kind, content = item
    if kind == "table":
        return max([len(content), *map(longest_table, content.values())])
    return max(map(longest_table, content), default=0) if kind == "array" else 0


class Writer:
    """The data of a file, as they grow."""

    def __init__(self, layout, indexes):
        self.layout = layout
        self.data = bytearray(4 * (1 + indexes))
        self.places = {}
        self.known = {}

    def pad(self):
        self.data += b"\xaa" * (-len(self.data) % 4)

    def put_keys(self, keys):
        """Writes keys, each once; if keys share their ends, one that ends another isn't written."""
        ends = {key for key in keys if any(key != other and other.endswith(key) for other in keys)} if self.layout.shares_keys else set()
        for key in sorted(keys - ends):
            self.places[key] = len(self.data)
            self.data += key.encode("ascii") + b"\0"
        for key in sorted(ends, key=len, reverse=True):
            whole = next(other for other in self.places if other.endswith(key))
            self.places[key] = self.places[whole] + len(whole) - len(key)
        self.pad()

    def put(self, kind, value):
        """Writes a value, and gives its item."""
        known = (kind, bytes(value)) if self.layout.shares_values else None
        if known is None or known not in self.known:
            if kind == 1:
                self.data += b"\xaa" * ((12 - len(self.data)) % 16)
            self.known[known] = kind << 28 | len(self.data) // 4
            self.data += value
            self.pad()
        return self.known[known]

    def table(self, content):
        items = [self.item(value) for value in content.values()]
        places = [self.places[key] for key in content]
        if self.layout.has_long_tables or max([len(items), *places]) > 65535:
            return self.put(4, struct.pack(f"<I{2 * len(items)}I", len(items), *places, *items))
        head = struct.pack(f"<{1 + len(items)}H", len(items), *places)
        return self.put(2, head + b"\xaa" * (-len(head) % 4) + struct.pack(f"<{len(items)}I", *items))

    def item(self, item):
        kind, content = item
        if kind == "int":
            return 7 << 28 | content
        if len(content) == 0:
            return TYPES[kind] << 28
        if kind == "table":
            return self.table(content)
        if kind == "array":
            items = [self.item(value) for value in content]
            return self.put(8, struct.pack(f"<{1 + len(items)}I", len(items), *items))
        if kind == "intvector":
            return self.put(14, struct.pack(f"<I{len(content)}i", len(content), *content))
        if kind == "bin":
            return self.put(1, struct.pack("<I", len(content)) + content)
        return self.put(TYPES[kind], struct.pack(f"<I{len(content)}HH", len(content), *content, 0))


def header(size, minor):
    fields = struct.pack("<HBBHHBBBB4s4B4B", size, 0xDA, 0x27, 20, 0, 0, 0, 2, 0, b"ResB", 1, minor, 0, 0, 0, 0, 0, 0)
    return fields + bytes(size - len(fields))


def write(bundle, layout=None):
    layout = layout or Layout()
    tree, no_fallback = bundle
    indexes = layout.indexes or (6 if no_fallback else 5)
    writer = Writer(layout, indexes)
    writer.put_keys(keys_of(tree))
    keys_top = len(writer.data) // 4
    root = writer.item(tree)
    top = len(writer.data) // 4
    words = [root, indexes, keys_top, top, top, longest_table(tree), int(no_fallback)] + [0] * indexes
    struct.pack_into(f"<{1 + indexes}I", writer.data, 0, *words[:1 + indexes])
    minor = layout.minor or (2 if no_fallback else 1)
    return header(layout.header, minor) + bytes(writer.data) + layout.tail


class Reader:
    """The data of a file whose header is good."""

    def __init__(self, data, minor):
        self.data = data
        self.minor = minor
        self.visited = set()
        self.known = {}

    def word(self, index):
        return struct.unpack_from("<I", self.data, 4 * index)[0]

    def words(self, index, count):
        return struct.unpack_from(f"<{count}I", self.data, 4 * index)

    def read_tops(self):
        """Checks the indexes and the attributes, and gives the flag."""
        if len(self.data) < 24:
            raise BadFile("Indexes")
        indexes, keys, resources, top = self.words(1, 4)
        if indexes < 5 or not 1 + indexes <= keys <= resources <= top <= len(self.data) // 4:
            raise BadFile("Indexes")
        self.first_key, self.keys_top, self.top = 4 * (1 + indexes), keys, top
        attributes = self.word(6) if indexes >= 6 and self.minor >= 2 else 0
        if attributes & 6:
            raise BadFile("Attributes")
        return bool(attributes & 1)

    def key(self, place):
        found = KEY.match(self.data, place, 4 * self.keys_top) if place >= self.first_key else None
        if not found:
            raise BadFile("Key")
        return found[1].decode("ascii")

    def keys(self, places):
        found = []
        for place in places:
            key = self.key(place)
            if found and key <= found[-1]:
                raise BadFile("KeyOrder")
            found.append(key)
        return found

    def end(self, place, size):
        if place + size > 4 * self.top:
            raise BadFile("Length")

    def units(self, place):
        count = self.word(place // 4)
        self.end(place, 4 + 2 * (count + 1))
        units = struct.unpack_from(f"<{count + 1}H", self.data, place + 4)
        if units[-1] != 0:
            raise BadFile("NotTerminated")
        return units[:-1]

    def children(self, words, level):
        return [self.item(word, level + 1) for word in words]

    def container(self, kind, place, level):
        self.visited.add((kind, place))
        if kind == 2:
            count = struct.unpack_from("<H", self.data, place)[0]
            head = 4 * (count // 2 + 1)
            self.end(place, head + 4 * count)
            places = struct.unpack_from(f"<{count}H", self.data, place + 2)
        else:
            count = self.word(place // 4)
            head = 4 + 4 * count if kind == 4 else 4
            self.end(place, head + 4 * count)
            places = self.words(place // 4 + 1, count)
        if kind == 8:
            return "array", self.children(places, level)
        keys = self.keys(places)
        return "table", dict(zip(keys, self.children(self.words((place + head) // 4, count), level)))

    def leaf(self, kind, place):
        if kind in (0, 3):
            return ("string", "alias")[kind // 3], self.units(place)
        count = self.word(place // 4)
        if kind == 1:
            self.end(place, 4 + count)
            return "bin", self.data[place + 4:place + 4 + count]
        self.end(place, 4 + 4 * count)
        return "intvector", list(struct.unpack_from(f"<{count}i", self.data, place + 4))

    def item(self, word, level):
        if (word, level) not in self.known:
            self.known[word, level] = self.checked(word, level)
        return self.known[word, level]

    def checked(self, word, level):
        kind, index = word >> 28, word & 0x0FFFFFFF
        if level > 64:
            raise BadFile("TooDeep")
        if kind not in (0, 1, 2, 3, 4, 7, 8, 14):
            raise BadFile("ItemType")
        if kind == 7:
            return "int", index
        if index == 0:
            return {0: ("string", ()), 1: ("bin", b""), 3: ("alias", ()), 8: ("array", []), 14: ("intvector", [])}.get(kind, ("table", {}))
        if not self.keys_top <= index < self.top:
            raise BadFile("Offset")
        return self.container(kind, 4 * index, level) if kind in (2, 4, 8) else self.leaf(kind, 4 * index)


def read_header(file):
    if len(file) > 67108864:
        raise BadFile("TooLong")
    if len(file) < 24 or file[2:4] != b"\xda\x27" or file[12:16] != b"ResB":
        raise BadFile("Header")
    if file[8] != 0:
        raise BadFile("BigEndian")
    if file[9] != 0 or file[10] != 2:
        raise BadFile("Family")
    if file[16] != 1 or file[17] < 1:
        raise BadFile("FormatVersion")
    size, _, info = struct.unpack_from("<HHH", file)
    if size % 16 or size < 32 or not 20 <= info <= size - 4 or size > len(file):
        raise BadFile("Header")
    return Reader(file[size:], file[17])


def read(file):
    reader = read_header(file)
    no_fallback = reader.read_tops()
    root = reader.word(0)
    if root >> 28 not in (2, 4):
        raise BadFile("Root")
    tree = reader.item(root, 1)
    return (tree, no_fallback), len(reader.visited)
