"""ICU resource bundles in process: check, compile, and look up with locale inheritance.

    import resb

    bundles = resb.Bundles()
    bundles.install("shop", "de", 'de{menu{open{"Öffnen"}}}')
    bundles.text("shop", "de_AT", "menu/open")  # 'Öffnen'

A thin layer over libresb; docs/LIBRARY.md describes both. Threads, signal handlers and forked children may share a `Bundles`.
"""

from __future__ import annotations

import builtins
import json
import os
import sys
from collections.abc import ItemsView, Iterator, KeysView, Mapping, Sequence, ValuesView
from typing import TYPE_CHECKING, Any, NamedTuple, NoReturn, Optional, Union, overload

if "t" in sys.abiflags:
    raise ImportError("resb needs an interpreter with a lock: not a free-threaded one")

from . import _library  # noqa: E402

if TYPE_CHECKING:
    from ._library import Bundle, BytesLike, Found

__all__ = [
    "Alias",
    "Array",
    "Bundles",
    "Error",
    "Finding",
    "Prepared",
    "Table",
    "Value",
    "alias_targets",
    "check",
    "check_for_icu",
    "compile",
    "lint",
    "prepare",
    "prepare_json",
]
__version__ = "1.1.0"

Value = Union[str, bytes, int, "list[int]", "Array", "Table"]

_OTHER_KIND, _BAD_PATH, _TOO_MANY_ALIASES = 6, 21, 29  # a search ends with the last two and those between
_TABLE, _ALIAS = 2, 3
_FILE, _TEXT, _JSON = 0, 1, 2  # forms of a bundle
_NO_LIMIT = 2**64 - 1
_TREE_STEPS = 1_000_000  # about half a second: aliases can make a tree exponentially larger than its bundles


class Error(Exception):
    """An error with its code, such as "BadPath", and the line of an error in a text, or the locale of a bundle
    of ICUDATA or of a release."""

    def __init__(self, number: int, line: int = 0, locale: str = "") -> None:
        super().__init__(number, line, locale)
        self.code = _library.error_name(number)
        self.number = number
        self.line = line
        self.locale = locale

    def __str__(self) -> str:
        place = f", line {self.line}" if self.line else f", bundle {self.locale}" if self.locale else ""
        return self.code + place


def check(file: BytesLike) -> None:
    """Checks whether bytes are a valid .res file; raises Error with its first error."""
    _library.check(file, False)


def check_for_icu(file: BytesLike) -> None:
    """Checks a file like `check`, and for what makes libicu crash on a bundle."""
    _library.check(file, True)


def alias_targets(file: BytesLike) -> list[str]:
    """Checks a file like `check_for_icu`, and returns the bundles that its aliases name, which libicu opens too: NAME for one beside the
    file, and /PACKAGE/NAME."""
    return _library.alias_targets(file).decode().split("\0")[:-1]


class Finding(NamedTuple):
    """An error or a warning at its place in a text. `column` counts UTF-16 units; `rule` is the code of the error, such as "BadInt", or
    the name of the warning."""

    line: int
    column: int
    is_error: bool
    rule: str
    message: str


def lint(text: Bundle, name: str = "", limit: int = 100) -> tuple[list[Finding], int]:
    """Returns what `resb lint` reports of a text without settings: its error and the first warnings up to a limit, in the order of the
    text; and how many warnings are left out. The name is that of the file, such as "de"."""
    found, more = _library.lint(text, name, limit)
    return [Finding(*one) for one in found], more


def prepare(bundle: Bundle) -> Prepared:
    """Reads and checks a text as str, or a .res file; raises Error with the code and the line of its first error."""
    return Prepared(_library.prepare(bundle, _TEXT if isinstance(bundle, str) else _FILE))


def prepare_json(json: Bundle) -> Prepared:
    """Reads and checks JSON in the form of docs/JSON.md; raises Error with the code and the line of an error."""
    return Prepared(_library.prepare(json, _JSON))


def compile(text: Bundle) -> bytes:
    """Compiles a bundle text to a .res file; raises Error with the code and the line of its first error."""
    return Prepared(_library.prepare(text, _TEXT)).file()


class Prepared:
    """A bundle that was read and checked, and belongs to no application yet. A release takes it: later calls raise Error with the
    code "NotOpen"."""

    def __init__(self, handle: _library.Prepared) -> None:
        self._handle = handle

    def __reduce_ex__(self, _: object) -> NoReturn:
        raise TypeError("a prepared bundle can't be copied or pickled")

    def copy(self) -> Prepared:
        """Returns a copy, as for the release of a second engine."""
        return Prepared(_library.copy(self._handle))

    def file(self) -> bytes:
        """Returns the .res file."""
        return _library.write(self._handle, _FILE, "")

    def text(self, locale: str) -> str:
        """Returns the bundle as a text under the name of a locale."""
        return _library.write(self._handle, _TEXT, locale).decode()

    def json(self) -> str:
        """Returns the bundle as JSON in the form of docs/JSON.md."""
        return _library.write(self._handle, _JSON, "").decode()


class Table(Mapping[str, "Value"]):
    """A table with everything that it inherits, read as it is asked. `table["open"]`, `get` and `in` look up the item; if a lookup finds
    nothing, as for an alias that leads nowhere, the key isn't in the table: KeyError, with the Error as its cause.

    Each other call, such as `items`, reads one state of the bundles by `Bundles.tree_json`, its keys ascending. It raises Error with the
    code "TooManySteps" or "TreeTooLarge" if too much is below the table, and with that of a lookup if the table is gone. It leaves out
    keys with a slash, which no lookup can name, and what an item of another kind hides (docs/JSON.md), which `table[key]` finds."""

    def __init__(self, bundles: Bundles, app: str, locale: str, path: str) -> None:
        self._bundles, self._app, self._locale, self._path = bundles, app, locale, path

    def __len__(self) -> int:
        return len(self._items())

    def __iter__(self) -> Iterator[str]:
        return iter(self._items())

    def __getitem__(self, key: str) -> Value:
        if not key or "/" in key:
            raise KeyError(key)
        try:
            return self._bundles.look(self._app, self._locale, _child(self._path, key))
        except Error as error:
            if _BAD_PATH <= error.number <= _TOO_MANY_ALIASES:
                raise KeyError(key) from error
            raise

    def keys(self) -> KeysView[str]:
        return self._items().keys()

    def items(self) -> ItemsView[str, Value]:
        return self._items().items()

    def values(self) -> ValuesView[Value]:
        return self._items().values()

    def _items(self) -> dict[str, Value]:
        tree = json.loads(self._bundles.tree_json(self._app, self._locale, self._path, _TREE_STEPS))
        if not isinstance(self._from_json(tree, self._path), Table):
            raise Error(_OTHER_KIND)
        found = {key.removeprefix(":"): item for key, item in tree.items() if "/" not in key}
        values = {key: self._from_json(item, _child(self._path, key)) for key, item in found.items()}
        return {key: value for key, value in values.items() if value is not None}

    def _from_json(self, item: Any, path: str) -> Optional[Value]:
        """Returns an item of a tree (docs/JSON.md), or None for one that a lookup doesn't find."""
        match item:
            case str() | int():
                return item
            case list():
                return Array(self._bundles, self._app, self._locale, path, len(item))
            case {":bin": digits}:
                return bytes.fromhex(digits)
            case {":intvector": numbers}:
                return list(numbers)
            case {":units": units}:
                return b"".join(unit.to_bytes(2, "little") for unit in units).decode("utf-16-le", "surrogatepass")
            case {":error": _}:
                return None
            case _:
                return Table(self._bundles, self._app, self._locale, path)


class Array(Sequence["Value"]):
    """An array of a bundle, read as it is asked: `array[0]`."""

    def __init__(self, bundles: Bundles, app: str, locale: str, path: str, count: int) -> None:
        self._bundles, self._app, self._locale, self._path, self._count = bundles, app, locale, path, count

    def __len__(self) -> int:
        return self._count

    @overload
    def __getitem__(self, index: int) -> Value: ...
    @overload
    def __getitem__(self, index: slice) -> list[Value]: ...
    def __getitem__(self, index: Union[int, slice]) -> Union[Value, list[Value]]:
        if isinstance(index, slice):
            return [self[i] for i in range(*index.indices(self._count))]
        at = index + self._count if index < 0 else index
        if not 0 <= at < self._count:
            raise IndexError(index)
        return self._bundles.look(self._app, self._locale, _child(self._path, str(at)))


class Alias(str):
    """The text of an alias among the items of a table or an array. A lookup of the item's path follows it."""


def _child(path: str, segment: str) -> str:
    return f"{path}/{segment}" if path else segment


class Bundles:
    """The bundles of many applications. An application sees its own bundles and those of ICUDATA alone.

    `icudata` has the bundles of ICUDATA by their locales, and `parents` is a bundle text with explicit parents (docs/LOOKUP.md)."""

    def __init__(self, icudata: Optional[Mapping[str, Bundle]] = None, parents: str = "") -> None:
        self._engine = _library.open(os.urandom(16), [*(icudata or {}).items()], parents)

    def snapshot(self) -> Bundles:
        """Returns other Bundles that share these bundles and the explicit parents. A change of one doesn't reach the other."""
        other = object.__new__(Bundles)
        other._engine = _library.snapshot(self._engine, os.urandom(16))
        return other

    def close(self) -> None:
        """Frees the bundles. Later calls raise Error with the code "NotOpen"."""
        _library.close(self._engine)

    def __enter__(self) -> Bundles:
        return self

    def __exit__(self, *_: object) -> None:
        self.close()

    def __reduce_ex__(self, _: object) -> NoReturn:
        raise TypeError("a Bundles can't be copied or pickled")

    def install(self, app: str, locale: str, bundle: Bundle) -> None:
        """Installs a bundle: a text as str, or a .res file as any bytes-like object. Other threads run meanwhile."""
        _library.put(self._engine, app, locale, bundle, False)

    def replace(self, app: str, locale: str, bundle: Bundle) -> None:
        """Replaces a bundle: a text as str, or a .res file as any bytes-like object. Other threads run meanwhile."""
        _library.put(self._engine, app, locale, bundle, True)

    def remove(self, app: str, locale: str) -> None:
        """Removes a bundle."""
        _library.remove(self._engine, app, locale)

    def release(self, app: str, edits: Mapping[str, Optional[Prepared]]) -> None:
        """Makes changes of an application in their order: all, or none if it raises Error. An edit has the bundle that is to have a
        locale, or None to remove the one that has it. Takes the bundles, also if it raises Error."""
        _library.release(self._engine, app, [(locale, bundle._handle if bundle else None) for locale, bundle in edits.items()])

    def list(self, app: str) -> builtins.list[str]:
        """Lists the locales of an application's bundles in the order of their installation."""
        return _library.list(self._engine, app).decode().split("\0")[:-1]

    def usage(self, app: str) -> tuple[int, int]:
        """Returns the total length of the files that an application stores, and the number of its bundles."""
        return _library.usage(self._engine, app)

    def apps(self) -> int:
        """Returns the number of applications that have bundles."""
        return _library.apps(self._engine)

    def look(self, app: str, locale: str, path: str) -> Value:
        """Looks up an item: a str, bytes, int (28 bits, with a sign), list of ints, Array or Table."""
        found = _library.look(self._engine, app, locale, path)
        return self._value(found, app, locale, path) if isinstance(found, tuple) else found

    def look_within(self, app: str, locale: str, path: str, steps: int) -> Value:
        """Looks up like `look`, or raises Error with the code "TooManySteps" if the lookup takes more than this many steps."""
        return self._value(_library.look(self._engine, app, locale, path, steps), app, locale, path)

    def text(self, app: str, locale: str, path: str) -> str:
        """Looks up a string; raises Error with the code "OtherKind" for another item."""
        text = _library.look(self._engine, app, locale, path)
        if not isinstance(text, str):
            raise Error(_OTHER_KIND)
        return text

    def children(self, app: str, locale: str, path: str) -> builtins.list[tuple[str, Value]]:
        """Looks up a table or an array, and returns its items in their order with their keys, which are empty in an array; without what
        it inherits. An alias is an `Alias`. Raises Error with the code "OtherKind" for another item."""
        found = enumerate(_library.children(self._engine, app, locale, path))
        return [(key, self._value(item, app, locale, _child(path, key or str(index)))) for index, (key, item) in found]

    def item_json(self, app: str, locale: str, path: str, steps: int = _NO_LIMIT, size: int = _NO_LIMIT) -> str:
        """Looks up like `look_within`, and returns the item as the reply of `resb serve` (docs/SERVER.md), or raises Error with the code
        "ReplyTooLong" if it has more than `size` bytes in UTF-8."""
        return _library.json(self._engine, app, locale, path, steps, size, False).decode()

    def tree_json(self, app: str, locale: str, path: str, steps: int = _NO_LIMIT, size: int = _NO_LIMIT) -> str:
        """Looks up like `look_within`, and returns the item with everything that it inherits as one JSON value, or raises Error with the
        code "TreeTooLarge" if it has more than `size` bytes in UTF-8."""
        return _library.json(self._engine, app, locale, path, steps, size, True).decode()

    def _value(self, found: Found, app: str, locale: str, path: str) -> Value:
        if not isinstance(found, tuple):
            return found
        kind, count, text = found
        if kind == _ALIAS:
            return Alias(text)
        return Table(self, app, locale, path) if kind == _TABLE else Array(self, app, locale, path, count)
