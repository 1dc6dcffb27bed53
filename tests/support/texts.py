"""Large bundle texts, made for tests and benches."""
from support.program import TOP


def nested(size: int) -> str:
    """Returns a text of about `size` bytes of nested tables."""
    text = (TOP / "examples" / "nested.txt").read_text(encoding="utf-8")
    inner = text[text.index("{") + 1:text.rindex("}")]
    count = size // (len(inner.encode()) + 16) + 1
    return "root{\n" + "".join(f"part{number:05}{{{inner}}}\n" for number in range(count)) + "}\n"


def keys(count: int) -> str:
    """Returns a text of one table of `count` keys in mixed order."""
    entries = (f'key{number * 7919 % count:06}{{"value {number}"}}\n' for number in range(count))
    return "root{\n" + "".join(entries) + "}\n"


def numbered(count: int, value: str = ':int{0}', name: str = "root") -> str:
    """Returns a text of the keys `k00000` and so on in order, each with the same value."""
    return name + "{" + "".join(f"k{i:05}{value}" for i in range(count)) + "}"


def big(count: int, size: int = 20) -> str:
    """Returns a text of this many entries, each with a string of `size` letters."""
    return "x{" + "".join(f"k{i}{{\"{'v' * size}\"}}" for i in range(count)) + "}"
