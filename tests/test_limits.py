"""The limits of `resb serve`, after docs/SERVER.md: each at its value, one below and one above; the order of refusals; a quota under replacements and
removals; a line of 300 MB; 100,000 applications; memory under attacks; a lack of memory, also while replies wait to be written; and command lines that
are invalid. In test_histories an application beside others that are at their limits gets the replies of one that has the server alone.
"""
import collections
import itertools
import random
import time

import pytest
from model import files
from support.program import MEGABYTE, Skipped, least_memory, limited, limited_output, rows
from support.server import SETTINGS, Server, line_of, reply_of
from support.texts import big

READER = 8192  # the bytes of the reader's buffer
MOST = 1 << 63
NUMBERS = ("--app-bytes", "--bundle-bytes", "--reply-bytes", "--line-bytes", "--apps", "--steps")

OK = {"ok": True}
SMALL = "x{}"  # its file has 56 bytes, the fewest that there are
TEXT = 'de{a{"b"}}'  # 10 bytes, and its file 76
FOUND = {"actual": "de", "type": "string", "valid": "de", "value": "b"}  # a line of 57 bytes


def asking(op, *names):
    """Returns a function that makes requests of the values of these members, and of further members."""
    return lambda *values, **further: {"op": op, **dict(zip(names, values)), **further}


names, usage, remove = asking("list", "app"), asking("usage", "app"), asking("remove", "app", "locale")
look, tree = asking("look", "app", "locale", "path"), asking("tree", "app", "locale")
install, replace = (asking(op, "app", "locale", "text") for op in ("install", "replace"))
install_file = asking("install", "app", "locale", "file")


def refused(word):
    return {"error": word}


def used(size, count):
    return {"app_bytes": size, "bundles": count}


def served(resb, arguments, lines, **options):
    status, stdout, stderr = resb.serve(map(line_of, lines), *arguments, **options)
    return status, stdout.splitlines(keepends=True), stderr


def serves(resb, arguments, pairs):
    status, replies, errors = served(resb, arguments, [request for request, _ in pairs])
    for (request, wanted), given in zip(pairs, replies):
        assert given == reply_of(wanted), (arguments, line_of(request)[:300])
    assert (status, len(replies), errors) == (0, len(pairs), b"")


def putting(locale, text=TEXT):
    return {"locale": locale, "text": text}


def removing(locale):
    return {"locale": locale, "remove": True}


def release(app, *changes):
    return {"op": "release", "app": app, "changes": list(changes)}


TREE = {"actual": "de", "tree": {"a": "b"}, "valid": "de"}  # a line of 46 bytes
TREE_LIMIT = 33_554_432


def long_tree(missing):
    """Returns a bundle whose tree has this many bytes fewer than the most, and the tree."""
    text, rest = "x" * 986_000, "y" * (30_120 - missing)
    aliases = [f"a{number}" for number in range(10, 43)]
    bundle = f'x{{s{{"{text}"}} p{{"{rest}"}}' + "".join(f'{key}:alias{{"/LOCALE/s"}}' for key in aliases) + "}"
    value = {"p": rest, "s": text, **dict.fromkeys(aliases, text)}
    length = len(reply_of(value)) - 1
    assert length == TREE_LIMIT - missing, length
    return install("long", "root", bundle), {"actual": "root", "tree": value, "valid": "root"}


ONE = (install("shop", "de", TEXT), OK)


@pytest.mark.parametrize("row", rows("limits/at_values.jsonl"), ids=lambda row: f"{row['limit']}={row['value']}")
def test_at_value(resb, row):
    """Each limit at its value and one above is kept, and one below refuses, if the row has an error; the sum of a release counts at its end."""
    for number in range(max(row["value"] - ("error" in row), 1), row["value"] + 2):
        answer = row["error"] if number < row["value"] else row["answer"]
        words = [*row.get("options", ()), row["limit"], str(number)]
        serves(resb, words, [*row.get("before", ()), (row["asked"], answer)])


def test_full_releases(resb):
    full = [putting(f"aa_{number}", SMALL) for number in range(4096)]
    serves(resb, ["--extended"], [
        (release("shop", *full, removing("aa_1")), {"error": "Full", "index": 4096}), (usage("shop"), used(0, 0)),
        (release("shop", *full, putting("a b", SMALL)), {"error": "Full", "index": 4096}), (usage("shop"), used(0, 0)),
        (release("shop", *full), OK), (usage("shop"), used(4096 * 56, 4096)),
        (release("shop", putting("de"), removing("aa_1")), {"error": "Full", "index": 0}),
        (release("shop", removing("aa_1"), putting("de")), OK), (release("shop", putting("de", SMALL)), OK),
        (usage("shop"), used(4096 * 56, 4096)), (release("shop", *[removing("aa_2"), putting("aa_2", SMALL)] * 2048), OK),
        (release("shop", *[removing("de")] * 5000), {"error": "Absent", "index": 1}), (names("bank"), {"names": []})])


def test_the_largest_trees(resb):
    for missing in (0, 1):
        request, longest = long_tree(missing)
        length = len(reply_of(longest))
        for words, wanted in (([], longest), (["--reply-bytes", str(length)], longest), (["--reply-bytes", str(length - 1)], refused("ReplyTooLong"))):
            serves(resb, ["--extended", *words], [(request, OK), (tree("long", "de"), wanted)])
    # without a limit on steps 100,000: one for the level, one for the key and one for each item
    for items in (99_998, 99_999):
        many = install("long", "root", "root{a{" + "1," * items + "}}")
        found = {"actual": "root", "tree": {"a": ["1"] * items}, "valid": "root"}
        serves(resb, ["--extended"], [(many, OK), (tree("long", "root"), found if items == 99_998 else refused("TooManySteps")),
                                      (tree("long", "root", path="a/1"), {"actual": "root", "tree": "1", "valid": "root"})])
    longer, _ = long_tree(-1)
    for words in ([], ["--reply-bytes", str(TREE_LIMIT + 1)], ["--reply-bytes", str(MOST)]):
        serves(resb, ["--extended", *words], [(longer, OK), (tree("long", "de"), refused("TreeTooLarge")), ONE, (tree("shop", "de"), TREE)])
    serves(resb, ["--extended", "--reply-bytes", str(TREE_LIMIT)], [(longer, OK), (tree("long", "de"), refused("ReplyTooLong"))])


@pytest.mark.parametrize("row", rows("limits/refusals.jsonl"), ids=lambda row: " ".join(row["options"]))
def test_refusals(resb, row):
    """Requests that no limit applies to, and refusals that come before those of a limit."""
    serves(resb, row["options"], [(request, answer) for request, answer in row["pairs"]])


def test_full_before_a_limit(resb):
    full = [(install("shop", f"aa_{number}", SMALL), OK) for number in range(4096)]
    more = [(install("shop", "de", TEXT), refused("Full")), (install("shop", "aa_1", TEXT), refused("Exists"))]
    serves(resb, ["--bundle-bytes", "60"], full + more)


def test_long_line(program):
    """A line of 300 MB between two good ones is passed over; so is one at the end that has no line feed."""
    server = Server([program, "serve", "--line-bytes", "1000"])
    server.send(line_of(ONE[0]) + b"\n")
    for _ in range(300):
        server.send(b"x" * MEGABYTE)
    server.send(b"\n" + line_of(look("shop", "de", "a")) + b"\n")
    server.await_replies(3)
    peak = server.peak()
    server.send(b"y" * 5000)
    assert server.end() == 0
    assert server.replies == [reply_of(answer) for answer in (OK, refused("LineTooLong"), FOUND, refused("LineTooLong"))]
    assert peak is None or peak < 32 * MEGABYTE


def test_longest_line(resb):
    """Without limits a line of 268,435,456 bytes is answered, and one of a byte more ends serving."""
    longest = b" " * 268_435_456
    assert served(resb, [], [longest, longest + b" ", b"{}"]) == (1, [reply_of(refused("BadLine"))], b"LineTooLong\n")


def test_many_apps(resb):
    """A hundred thousand applications, of which a thousand may have bundles."""
    pairs = [(install(f"app{number}", "de", SMALL), OK if number < 1000 else refused("TooManyApps")) for number in range(100000)]
    pairs += [(install("app7", "fr", SMALL), OK), (usage("app7"), used(112, 2)), (usage("app5000"), used(0, 0)),
              (remove("app7", "de"), OK), (install("other", "de", SMALL), refused("TooManyApps")), (remove("app7", "fr"), OK),
              (install("other", "de", SMALL), OK), (install("app7", "de", SMALL), refused("TooManyApps")),
              (look("app7", "de", ""), refused("NoBundle")), (look("app8", "de", "a"), refused("Missing"))]
    serves(resb, ["--apps", "1000"], pairs)


ATTACK_SECONDS = 3


def bound(limits):
    """Returns the most memory that a server is to have under these limits: the sum of docs/SERVER.md."""
    bundles = min(4096, limits["--app-bytes"] // 56)
    return (24 * MEGABYTE + limits["--apps"] * (2 * limits["--app-bytes"] + 512 * (bundles + 1))
            + 60 * min(limits["--bundle-bytes"], 8388608) + 4 * limits["--line-bytes"] + 4 * limits["--reply-bytes"])


def everything(apps, quota, largest):
    """Lines of more applications than there may be, which fill what there is, each kind until its application is full, and then at random."""
    chosen, names_of_apps = random.Random(11), [f"app{number}" for number in range(apps + 4)]
    for number in range(4096):
        yield from (install(app, f"aa_{number}", SMALL) for app in names_of_apps[:8])
    wide, fits = ("x{a{" + "b," * count + "}}" for count in (100000, 15000))  # each byte an item, more or less
    keys = files.write((("table", {f"k{number:05d}": ("int", number) for number in range(15000)}), False)).hex()
    alias = "x{" + "".join(f'a{number}:alias{{"de_A_B_C/a{(number + 1) % 300}"}}' for number in range(300)) + "}"
    end = time.monotonic() + ATTACK_SECONDS
    while time.monotonic() < end:
        app, locale = chosen.choice(names_of_apps), f"aa_{chosen.randrange(40)}"
        yield chosen.choice((
            lambda: install(app, locale, wide), lambda: install(app, locale, fits), lambda: replace(app, locale, fits),
            lambda: install_file(app, locale, keys), lambda: {**install_file(app, locale, keys), "op": "replace"},
            lambda: install(app, locale, big(3000, 60)), lambda: install(app, locale, 'x{a{"' + "\\u0001" * 30000 + '"}}'),
            lambda: install(app, "de", alias), lambda: look(app, "de_A_B_C", "a0"), lambda: look(app, locale, ""), lambda: look(app, locale, "a"),
            lambda: look(app, locale, "k5"), lambda: remove(app, locale), lambda: names(app), lambda: usage(app),
            lambda: b'{"op":' * 127, lambda: b'{"op":"install","text":"' + b"\\u0061" * (largest // 3) + b'"}',
            lambda: b"[" * (2 * largest), lambda: b'"' + b"z" * (8 * largest),
            lambda: chosen.randbytes(chosen.randrange(100000)).replace(b"\n", b" "),
            lambda: {**install(app, locale, big(2000, 60)), "x" * largest: ["y" * (largest // 3)]},
        ))()


def locale_of(number):
    return f"{chr(97 + number // 676 % 26)}{chr(97 + number // 26 % 26)}{chr(97 + number % 26)}_{number}"


def named(apps):
    return [f"app{number}" for number in range(apps)]


def binary_of(size):
    """Returns a file of `size` bytes in hexadecimal, whose one item is a binary."""
    least = len(files.write((("table", {"a": ("bin", b"")}), False)))
    file = files.write((("table", {"a": ("bin", bytes(max(size - least - 32, 0)))}), False))
    return file.hex(), len(file)


def text_of(size):
    return 'x{a:bin{"' + "00" * (size - 100) + '"}}'


def filled(apps, size, quota, begin=0):
    """Fills applications, one after the other, with bundles of one size."""
    file, length = binary_of(size)
    return (install_file(app, locale_of(number), file) for app in apps for number in range(begin, begin + min(4096, quota // length)))


def removed(apps, numbers):
    return (remove(app, locale_of(number)) for app in apps for number in numbers)


def fragmenters(apps, quota, largest):
    """Applications that fragment memory: each removes every second bundle, and fills its quota with bundles of twice the size, which no hole holds. Each
    doubling costs half of the quota again in an allocator that never moves (Robson's bound)."""
    size, live, made = max(quota // 4096, 256), {app: [] for app in named(apps)}, collections.Counter()
    while size <= largest:
        file, length = binary_of(size)
        for app, bundles in live.items():
            yield from removed([app], [number for number, _ in bundles[::2]])
            del bundles[::2]
            held = sum(each for _, each in bundles)
            while held + length <= quota and len(bundles) < 4096:
                bundles.append((made[app], length))
                yield install_file(app, locale_of(made[app]), file)
                made[app], held = made[app] + 1, held + length
        size *= 2


def just_above_a_page(apps, quota, largest):
    """Bundles of one byte more than fits into a page with the allocator's head, so that each takes two."""
    return filled(named(apps), 4096, quota)


def without_maps(apps, quota, largest):
    """Half of the applications take all maps that a process may have, by bundles of a page; the others fragment the rest."""
    most, taken, half = 66_000, 0, 0
    while taken < most and half < apps:
        requests = list(filled([f"map{half}"], 4096, quota))
        taken, half = taken + len(requests), half + 1
        yield from requests
    yield from fragmenters(apps - half, quota, largest)


def texts_beside(apps, quota, largest):
    """Bundles that come as texts, for whose files more memory is reserved than they need, each replaced by a longer one."""
    for size in (1100, 2100, 4200, 8300, 16500, 33000):
        change, count = install if size == 1100 else replace, min(4096, quota // size)
        yield from (change(app, locale_of(number), text_of(size)) for app in named(apps) for number in range(count))
        yield from removed(named(apps), range(min(4096, quota // (2 * size)), count))


def two_sizes(apps, quota, largest):
    """Applications that take turns: small bundles of all, then every 16th stays and large ones fill the gaps, over and over."""
    for small, large in [(300, 3900), (1000, 60000)] * 2:
        yield from filled(named(apps), small, quota)
        for app in named(apps):
            yield from removed([app], (number for number in range(min(4096, quota // small)) if number % 16))
            yield from filled([app], large, quota - quota // 8, 5000)
        yield from removed(named(apps), range(10000))


def names_that_come_and_go(apps, quota, largest):
    """Applications with names of 64 letters, of which each has a bundle for a moment, beside ones that stay."""
    yield from filled(named(apps - 1), 300, quota)
    for app in (f"{turn:064d}" for turn in range(200_000)):
        yield from (install(app, "de", SMALL), remove(app, "de"))


def longest_lines(apps, quota, largest):
    """Yields the longest lines of each kind beside applications that are full."""
    yield from filled(named(apps), 100_000, quota)
    texts = ("x{a{" + "b," * (largest // 2 - 10) + "}}", "x{" + "".join(f"k{i}{{}}" for i in range(largest // 9)) + "}",
             "x{a{" + ("{" * 50 + "}" * 50) * (largest // 101) + "}}")
    for turn in range(8):
        yield from (replace("app0", locale_of(turn), text) for text in texts)
        yield from (names("app0"), b'{"op":"' + b"\\u0061" * (largest // 4) + b'"}', b"[" * largest)


def at_random(apps, quota, largest):
    chosen, made = random.Random(3), [binary_of(round(60 * 1.4 ** power))[0] for power in range(28)]
    for _ in range(60_000):
        app, locale = f"app{chosen.randrange(apps)}", locale_of(chosen.randrange(600))
        request = install_file(app, locale, chosen.choice(made))
        yield chosen.choice((request, {**request, "op": "replace"}, remove(app, locale)))


def one_bundle_each(apps, quota, largest):
    """Applications of one bundle, with the longest names, whose bundle grows and shrinks."""
    locale = ("aa_Latn_US_" + "_".join(f"{part:08d}" for part in range(16)))[:64]
    for size in (60, 4096, 60, largest - 200, 4097, largest - 200):
        file = binary_of(size)[0]
        for request in (install_file(f"{app:064d}", locale, file) for app in range(apps)):
            yield from ({**request, "op": "replace"}, request)


def up_and_down(apps, quota, largest):
    """Bundles of sizes that grow and shrink again, of which a quarter stays each time until the next but one."""
    sizes = [round(300 * 1.7 ** power) for power in range(16) if 300 * 1.7 ** power < largest]
    for turn, size in enumerate(sizes + sizes[::-1]):
        begin = turn % 3 * 10_000
        numbers = range(begin, begin + min(4096, quota // size))
        for app in named(apps):
            yield from (*removed([app], numbers), *filled([app], size, quota, begin), *removed([app], (number for number in numbers if number % 4)))


def refused_lines(apps, quota, largest):
    """Requests that are refused late: files and texts with a fault at the end, a byte more than the quota, and replies that are too long."""
    yield from filled(named(apps), 60_000, quota)
    texts = ("x{" + "".join(f"k{i}{{}}" for i in range(largest // 12)) + "k1{}}", "x{a" + "{" * 64 + "}" * 64 + "}", text_of(largest - 60),
             "x{a{" + '"b",' * (largest // 8) + '}}"')
    for turn, app in zip(range(40), itertools.cycle(named(apps))):
        yield from (replace(app, locale_of(turn), text) for text in texts)
        yield look(app, locale_of(turn), "")


# the strategy, and the applications, their MB and the MB of a bundle; all but the first two by hand
STRATEGIES = [
    (everything, 16, 1, 0.25), (fragmenters, 4, 16, 1),
    (just_above_a_page, 32, 4, 1), (texts_beside, 16, 4, 1), (two_sizes, 16, 4, 1), (names_that_come_and_go, 16, 1, 1), (longest_lines, 8, 4, 1),
    (at_random, 16, 4, 1), (fragmenters, 32, 4, 1), (fragmenters, 256, 1, 1), (without_maps, 128, 4, 1), (without_maps, 200, 4, 1),
    (one_bundle_each, 200, 1, 0.25), (up_and_down, 4, 4, 1), (refused_lines, 16, 4, 1),
]


@pytest.mark.alone
@pytest.mark.parametrize("strategy, apps, quota, largest",
                         [*STRATEGIES[:2], *(pytest.param(*row, marks=pytest.mark.hand) for row in STRATEGIES[2:])])
def test_attack(program, strategy, apps, quota, largest):
    """Memory stays below the sum of docs/SERVER.md whatever applications do within their limits (notes/attacks.md)."""
    quota, largest, sent = quota * MEGABYTE, round(largest * MEGABYTE), 0
    limits = {"--app-bytes": quota, "--bundle-bytes": largest, "--reply-bytes": 65536, "--line-bytes": 2 * largest + 65536, "--apps": apps,
              "--steps": 20000}
    settings, words = [f"{name}={value}" for name, value in SETTINGS.items()], itertools.chain.from_iterable(limits.items())
    server = Server(["env", *settings, program, "serve", *words, "--keep-serving"], keeps=False)
    for request in strategy(apps, quota, largest):
        server.send(line_of(request) + b"\n")
        sent += 1
    server.await_replies(sent)
    peak = server.peak()
    assert server.end() == 0 and server.longest <= limits["--reply-bytes"] and (strategy is not fragmenters or server.good == sent)
    if peak is None:
        raise Skipped("the system doesn't tell the memory of a process")
    assert peak < bound(limits), f"{peak / MEGABYTE:.1f} MB of memory, of {bound(limits) / MEGABYTE:.1f} MB"


@pytest.mark.alone
def test_without_memory(resb):
    """A text for which there is no memory is answered by `--keep-serving`, and the server continues; without it, serving ends."""
    memory = {"preexec_fn": limited(least_memory(resb.program) + 40 * MEGABYTE)}
    requests = [ONE[0], install("shop", "fr", big(250000)), look("shop", "fr", "a"), look("shop", "de", "a"), usage("shop")]
    assert served(resb, [], requests[:4], **memory) == (1, [reply_of(OK)], b"Memory\n")
    wanted = [reply_of(answer) for answer in (OK, refused("Memory"), refused("NoBundle"), FOUND, used(76, 1))]
    assert served(resb, ["--keep-serving"], requests, **memory) == (0, wanted, b"")


def over_a_file(resb, source, prepare):
    """Runs a server over a file of lines, which it reads in buffers that are full: its status, its replies and its standard error."""
    with open(resb.folder / resb.put("lines", source), "rb") as lines, open(resb.folder / "replies", "wb") as replies:
        done = resb("serve", stdin=lines, stdout=replies, preexec_fn=prepare)
    return done.status, resb.get("replies").splitlines(keepends=True), done.stderr


@pytest.mark.alone
def test_waiting_replies(resb):
    """Replies that wait, as the buffer holds further lines, are written before serving ends without memory; if they can't be, the code is `Write`."""
    source = b"".join(line_of(install(f"app{number:08}", "de", TEXT)) + b"\n" for number in range(100000))
    flushed = [source.count(b"\n", 0, end) for end in range(0, len(source), READER)]
    for spare in (4, 5, 6):
        size = least_memory(resb.program) + spare * MEGABYTE
        status, replies, errors = over_a_file(resb, source, limited(size))
        assert (status, set(replies), errors) == (1, {reply_of(OK)}, b"Memory\n")
        before = max(count for count in flushed if count <= len(replies))
        if before < len(replies):
            break
    assert before < len(replies), "replies that waited are lost"
    status, replies, errors = over_a_file(resb, source, limited_output(before * len(reply_of(OK)), size))
    assert (status, len(replies), errors) == (1, before, b"Write\n")


BAD_VALUES = ("0", "00", "", "-1", "1.0", "1e3", "0x10", "10k", " 1", "1 ", "one", "1_000", str(MOST + 1), str(1 << 64), "9" * 40)


@pytest.mark.parametrize("limit", NUMBERS)
def test_bad_limit(resb, limit):
    """A limit that is no number from 1 to 2^63 is refused before anything is read or written."""
    for value in BAD_VALUES:
        status, replies, errors = served(resb, [f"{limit}={value}"], [names("shop")])
        assert (status, replies) == (2, []) and limit.encode() in errors, value
    for words in ([limit], [limit, "1", limit, "2"], [limit, "--keep-serving"]):
        status, replies, errors = served(resb, words, [names("shop")])
        assert (status, replies, bool(errors)) == (2, [], True), words
    for value in ("1", "0001", str(MOST)):
        assert served(resb, [limit, value], []) == (0, [], b"")


@pytest.mark.parametrize("words", [["--keep-serving=yes"], ["--keep-serving", "--keep-serving"], ["--keep-serving", "x"]])
def test_bad_command_line(resb, words):
    assert served(resb, words, [])[:2] == (2, [])
