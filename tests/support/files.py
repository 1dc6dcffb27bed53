"""Files of bundles in format 1, written word by word, so that a test or a bench decides each of them. The reader is model.files."""
import struct
from array import array
from collections.abc import Iterable, Sequence

from model.files import header

STRING, BINARY, TABLE, ALIAS, LONG_TABLE, INT, ARRAY, VECTOR = 0, 1, 2, 3, 4, 7, 8, 14
FIRST_KEY = 24
# the file of `root{}` (docs/FORMAT.md), which a command may replace
OLDER = bytes.fromhex("2000DA2714000000000002005265734201010000000000000000000000000000000000200500000006000000060000000600000000000000")
HEADER = header(32, 1)


def item(kind: int, value: int) -> int:
    return kind << 28 | value


def words(numbers: Iterable[int]) -> bytes:
    return array("I", numbers).tobytes()


def file_of(minor: int, numbers: Sequence[int]) -> bytes:
    """Returns a file of a minor version by the words after its header."""
    return header(32, minor) + words(numbers)


def with_bytes(data: bytes, place: int, over: Iterable[int]) -> bytes:
    over = bytes(over)
    return data[:place] + over + data[place + len(over):]


class Builder:
    """The data of a file: the keys first, then values, each at the word that `add` returns."""

    def __init__(self, keys: bytes):
        self.keys_top = (FIRST_KEY + len(keys) + 3) // 4
        self.data = bytearray(keys.ljust(4 * self.keys_top - FIRST_KEY, b"\xaa"))

    def here(self) -> int:
        return (FIRST_KEY + len(self.data)) // 4

    def add(self, numbers: Iterable[int]) -> int:
        at = self.here()
        self.data += words(numbers)
        return at

    def units(self, units: bytes) -> int:
        """Adds a String or an Alias of these UTF-16 units."""
        at = self.here()
        self.data += struct.pack("<I", len(units) // 2) + units + b"\0\0"
        self.data += b"\xaa" * (-len(self.data) % 4)
        return at

    def text(self, text: bytes) -> int:
        return self.units(text.decode().encode("utf-16-le"))

    def file(self, root: int) -> bytes:
        top = self.here()
        return HEADER + words([root, 5, self.keys_top, top, top, 0]) + bytes(self.data)

    def table(self, keys: Sequence[int]) -> int:
        """Adds a long table of Ints with these keys, by their offsets among the keys."""
        return self.add([len(keys)] + [FIRST_KEY + key for key in keys] + [item(INT, 0)] * len(keys))

    def file_of_tables(self, tables: Iterable[Sequence[int]]) -> bytes:
        """Returns the file of an array of tables, under the first key: each is given by the offsets of its keys."""
        places = [self.table(keys) for keys in tables]
        at = self.add([len(places)] + [item(LONG_TABLE, place) for place in places])
        return self.file(item(LONG_TABLE, self.add([1, FIRST_KEY, item(ARRAY, at)])))

    def file_of_one(self, child: int) -> bytes:
        """Returns the file whose table has this one item, under the first key."""
        at = self.here()
        self.data += struct.pack("<HH", 1, FIRST_KEY) + words([child])
        return self.file(item(TABLE, at))


def shared_arrays(levels: int, count: int = 2) -> bytes:
    """Returns a file in which each array has the next one `count` times, which spells `count` to the power of `levels` Ints; 63 levels are TooDeep."""
    made = Builder(b"a\0")
    at = made.add([count] + [item(INT, 0)] * count)
    for _ in range(levels - 1):
        at = made.add([count] + [item(ARRAY, at)] * count)
    return made.file_of_one(item(ARRAY, at))


def suffixes(length: int, period: int = 1) -> bytes:
    """Returns a file of a long table whose keys are the suffixes, at each period, of one key that repeats itself."""
    count = length // period
    made = Builder((b"b" * (period - 1) + b"a") * count + b"\0")
    return made.file(item(LONG_TABLE, made.table([period * i for i in reversed(range(count))])))
