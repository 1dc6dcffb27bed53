"""The memory and the time of commands and lines over input that is built to be expensive: what docs/FORMAT.md, docs/JSON.md, docs/LINT.md and
docs/OPERATIONS.md say at most of them. bench/hostile.py has more families, and takes longer.
"""
import pytest
from support import hostile
from support.files import LONG_TABLE, STRING, VECTOR, Builder, item, shared_arrays, suffixes
from support.measured import measured

pytestmark = pytest.mark.alone
MB = 1_000_000
COUNT = 200


def string(units):
    made = Builder(b"a\0")
    return made.file_of_one(item(STRING, made.units(units)))


def vector(count):
    made = Builder(b"a\0")
    return made.file_of_one(item(VECTOR, made.add([count] + [1] * count)))


def key_of_quotes(size):
    made = Builder(b'"' * size + b"\0")
    return made.file(item(LONG_TABLE, made.table([0])))


def cost(resb, *words, source="/dev/null", status=0):
    """Measures a command in the folder, which must end with this status."""
    words = [resb.folder / word.removeprefix("@") if word.startswith("@") else word for word in words]
    found = measured([resb.program, *words], source=source)
    assert found.status == status
    return found


def memory_beside(resb, text, *words, **options):
    """Returns the memory of a command as a multiple of a text's length."""
    return cost(resb, *words, **options).memory * 1024 * 1024 / len(text)


@pytest.mark.parametrize("make, allowed, words", [
    (lambda: suffixes(33_000), 16, ("get", "@a.res", "")),
    (lambda: suffixes(33_000), 16, ("look", "root", "", "@root.res")),
    (lambda: shared_arrays(20), 16, ("json", "--pretty", "@a.res")),
    (lambda: string(b"\1\0" * 16_777_000), 60, ("json", "@a.res")),
    (lambda: string(b"\1\0" * 16_777_000), 60, ("json", "--pretty", "@a.res")),
], ids=["get-keys", "look-keys", "json-shared", "json-longest", "pretty-longest"])
def test_whole_replies(resb, make, allowed, words):
    """Commands whose output is far longer than the file print it piece by piece, within some MB of memory."""
    resb.put(next(word for word in words if word.startswith("@"))[1:], make())
    assert cost(resb, *words).memory <= allowed


@pytest.mark.parametrize("make, path", [(lambda: vector(262_000), b"a"), (lambda: key_of_quotes(MB), b""), (lambda: string(b"a\0" * 500_000 + b"\0\xd8"), b"a")],
                         ids=["vector", "key-of-quotes", "half-a-pair"])
def test_refused_replies(resb, make, path):
    """A reply that is too long costs no more than its limit, whatever the item is."""
    before = hostile.install_file(b"root", make())
    lines = [resb.folder / resb.put(name, data) for name, data in (("before", before), ("after", before + hostile.look(b"root", path) * COUNT))]
    started, done = (min(cost(resb, "serve", "--reply-bytes", "1000", source=file).seconds for _ in range(3)) for file in lines)
    assert 1e3 * (done - started) / COUNT <= 1.5


def test_traces(resb):
    """A trace takes no longer than the lookup, however long an alias's text is."""
    resb.put("root.txt", b'root{a:alias{"root@' + b"x" * 4 * MB + b'/a"}}')
    plain, traced = (min(cost(resb, "look", *words, "root", "a", "@root.txt", status=1).seconds for _ in range(5)) for words in ((), ("--trace",)))
    assert traced / plain <= 3


@pytest.mark.parametrize("text", [b'root{a{"x"' + b"," * 4 * MB + b'"', b"root{a" + b"{" * 4 * MB], ids=["commas-and-open-quote", "open-braces"])
def test_lint_of_broken_texts(resb, text):
    resb.put("root.txt", text)
    assert memory_beside(resb, text, "lint", "@root.txt", status=1) <= 40


@pytest.mark.parametrize("make, allowed", [(hostile.one_array, 40), (hostile.placeholders, 30), (hostile.long_key, 20)])
def test_lint_against(resb, make, allowed):
    text = make(4 * MB)
    resb.put("root.txt", text)
    assert memory_beside(resb, text, "lint", "--against", "@root.txt", "@root.txt") <= allowed


def test_messages_under_long_keys(resb):
    """The messages of `lint --root` under 58 keys of 66 KB are short."""
    begun = b"".join(b'"%02d%s"{' % (level, b"k" * 66_000) for level in range(58))
    texts = [resb.put(name, b"root{" + begun + b"".join(b'%s%d{"x"}' % (key, i) for i in range(100)) + b"}" * 59)
             for name, key in (("root.txt", b"a"), ("other.txt", b"b"))]
    assert len(resb("lint", "--root", *texts).stdout) <= 100_000
