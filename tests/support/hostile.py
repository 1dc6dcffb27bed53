"""Inputs that are built to be expensive: files, texts, and lines of requests. Each is valid unless its docstring says otherwise."""
import random
import struct
from array import array

from support.files import ALIAS, ARRAY, FIRST_KEY, LONG_TABLE, STRING, TABLE, Builder, item, suffixes, words


def mixed(count, is_mixed):
    """The numbers below a count, in order or not."""
    numbers = list(range(count))
    if is_mixed:
        random.Random(3).shuffle(numbers)
    return numbers


def overlapping_arrays(count, is_mixed=False):
    """Each word of a long run is the length of one array and an item of others, a String."""
    made = Builder(b"a\0")
    # odd, or a multiple of 2 to the 16th, so that the String at this word ends in a zero unit
    length = count + 1 - count % 2 if count < 1 << 16 else count + -count % (1 << 16)
    first = made.add([length] * (count + length + 1))
    items = [item(ARRAY, first + i) for i in mixed(count, is_mixed)]
    return made.file_of_one(item(ARRAY, made.add([count] + items)))


def overlapping_over_arrays(size):
    """Arrays that overlap, met in random order, of which each second item is one of as many other arrays, without items."""
    count, made, dice = size // 20, Builder(b"a\0"), random.Random(7)
    empty = made.add([0] * count)
    length = empty + count - 2  # as an item a String at this word, which is empty
    run = []
    for _ in range(count + length // 2 + 1):
        run += [length, item(ARRAY, empty + dice.randrange(count))]
    first = made.add(run)
    items = [item(ARRAY, first + 2 * i) for i in mixed(count, True)]
    return made.file_of_one(item(ARRAY, made.add([count] + items)))


def overlapping_ends(size):
    """Overlapping arrays whose lengths are also Strings at random words with zero units at other random words, and each run
    ends at the last word of a group of 32, so that the items at its end are checked one by one."""
    words_in_all, made, dice = size // 4, Builder(b"a\0"), random.Random(7)
    texts, empties = words_in_all * 12 // 100, words_in_all // 10
    first = made.here()
    rooms = ((texts - 2 - i) * 2 >> 16 for i in range(texts))
    made.data += words(dice.randrange(room + 1) << 16 if room > 0 else 0 for room in rooms)
    empty = made.add([0] * empties)
    count = (words_in_all - 2 * texts - empties - 40) // 3
    start, run = made.here(), []
    for i in range(2 * count + texts + 2):
        if i % 2:
            run.append(item(ARRAY, empty + dice.randrange(empties)))
        else:
            length = first + dice.randrange(texts - 64)
            run.append(length + (31 - (start + i + 1 + length)) % 32)
    made.data += words(run)
    items = [item(ARRAY, start + 2 * i) for i in mixed(count, True)]
    return made.file_of_one(item(ARRAY, made.add([count] + items)))


def overlapping_tables(count, is_mixed=False):
    """Each word of a long run is the length of a long table, a key offset of others, and an item of others, an empty String."""
    base = 3 * count + 16
    longest = 3 * count + 2 * base
    key = b"a" * (base + longest) + b"b\0"  # each suffix is below the next
    made = Builder(key)
    made.add([0] * (base + longest + 4 - made.here()))  # a String at each of these words
    first = made.add([base + i for i in range(longest)])
    items = [item(LONG_TABLE, first + i) for i in mixed(count, is_mixed)]
    return made.file_of_one(item(ARRAY, made.add([count] + items)))


def overlapping_half_tables(size):
    """Tables with key offsets of 16 bits, met in random order. Each word of a falling list of numbers is the count of one
    table, and a key offset of those before it. All tables of a list end where it ends; their items are arrays without
    items, at random words. There are as many lists as the size allows."""
    letters = 65_400
    last = FIRST_KEY + letters + FIRST_KEY
    # n keys follow each number n: the ends of `aaa..` whose offsets are below n, and for those below the first key, ends of `bbb..`
    made = Builder(b"a" * letters + b"\0" + b"b" * FIRST_KEY + b"\0")
    numbers = [*range(FIRST_KEY + letters - 1, FIRST_KEY - 1, -1), *range(last, last - FIRST_KEY, -1)]
    run, items, dice = array("H", numbers).tobytes(), [], random.Random(7)
    lists = max(1, size // (9 * letters))
    empties = lists * letters // 4
    empty = made.add([0] * empties)
    for _ in range(lists):
        at = made.here()
        made.data += run + b"\0" * (-len(run) % 4)
        made.add([item(ARRAY, empty + dice.randrange(empties)) for _ in numbers])
        items += [item(TABLE, at + i) for i in range(letters // 2)]
    random.Random(3).shuffle(items)
    return made.file_of_one(item(ARRAY, made.add([len(items)] + items)))


def plain_table(size):
    """A long table of Ints with keys of eight letters, of about `size` bytes."""
    count = max(1, size // 17)
    made = Builder(b"".join(b"k%07d\0" % i for i in range(count)))
    return made.file(item(LONG_TABLE, made.table(range(0, 9 * count, 9))))


# ---- letters of long keys


def random_letters(count):
    return random.Random(1).randbytes(count).translate(bytes(33 + i % 94 for i in range(256)))


def thue_morse(count):
    text, swapped = b"a", bytes.maketrans(b"ab", b"ba")
    while len(text) < count:
        text += text.translate(swapped)
    return text[:count]


def fibonacci(count):
    text, shorter = b"ab", b"a"
    while len(text) < count:
        text, shorter = text + shorter, text
    return text[:count]


def periodic(count):
    period = random_letters(1_000_003)
    return (period * (count // len(period) + 1))[:count]


def by_turns(count):
    """Alternating low and high letters, so that half of the places are sorted again, and not a third."""
    dice, half = random.Random(1), count // 2 + 1
    text = bytearray(2 * half)
    text[0::2] = dice.randbytes(half).translate(bytes(33 + i % 47 for i in range(256)))
    text[1::2] = dice.randbytes(half).translate(bytes(126 - i % 47 for i in range(256)))
    return bytes(text[:count])


def runs(count):
    """Runs of one letter of random length, so that many pieces of the key begin alike."""
    dice, text = random.Random(7), bytearray()
    while len(text) < count:
        text += b"a" * dice.randrange(100, 700) + b"b"
    return bytes(text[:count])


def repeated(text):
    return lambda count: (text * (count // len(text) + 1))[:count]


# ---- files of about `size` bytes


def one_key(letters, tables=12):
    """Tables of one key each, ends of one long key."""
    def make(size):
        return Builder(letters(size - 20 * tables) + b"\0").file_of_tables([[i] for i in range(tables)])
    return make


def random_ends(size):
    """12 tables of 1,000 ends each of one long key of random letters."""
    tables, count = 12, 1_000
    key = random_letters(size - 8 * tables * count)
    dice = random.Random(2)
    ends = [sorted(dice.sample(range(len(key) - 64), count), key=lambda end: key[end:end + 64]) for _ in range(tables)]
    return Builder(key + b"\0").file_of_tables(ends)


def many_tables(size):
    """Half of the file is one key, and the other half tables of that key."""
    return Builder(random_letters(size // 2) + b"\0").file_of_tables([[i] for i in range(size // 32)])


def copies(letters, count, tables):
    """Copies of a long key with other last letters, and tables that have one end of each."""
    def make(size):
        long = (size - tables * (count + 1) * 8) // count - 2
        key = letters(long)
        made = Builder(b"".join(key + bytes([97 + i // 16, 97 + i % 16, 0]) for i in range(count)))
        dice = random.Random(4)
        ends = [dice.randrange(max(1, long // 8)) for _ in range(tables)]
        return made.file_of_tables([[end + i * (long + 3) for i in range(count)] for end in ends])
    return make


def each(make, size, *arguments):
    """A maker over a number of parts, each of about `size` bytes."""
    return lambda whole: make(whole // size, *arguments)


# ---- texts


def text_of(begin, part, length, end):
    """A text of many parts, each of about this many bytes, which may have their number."""
    return lambda size: begin + b"".join(part % i if b"%" in part else part for i in range(size // length)) + end


plain_text = text_of(b"root{", b'k%07d{"value of some letters"}', 34, b"}")
# the last two are compared with the root's text, here with themselves: a string of placeholders with other names, and an array of short strings
small_tables = text_of(b"root{", b"k%d{a{}}", 13, b"}")
nested_arrays = text_of(b"root{a{", b"{" * 59 + b"}" * 59, 118, b"}}")
placeholders = text_of(b'root{a{"', b"{n%06d}", 9, b'"}}')
one_array = text_of(b"root{a{", b'"x",', 4, b"}}")
KEY_BYTES = bytes(byte for byte in range(0x21, 0x7F) if byte not in b'"{}:,/\\*%')


def random_keys(size):
    """One table of keys of four letters in random order, each with an empty array."""
    kinds = len(KEY_BYTES)
    numbers = random.Random(5).sample(range(kinds ** 4), size // 6)
    keys = (bytes(KEY_BYTES[i // kinds ** j % kinds] for j in range(4)) for i in numbers)
    return b"root{" + b"".join(key + b"{}" for key in keys) + b"}"


def random_keys_with_one_again(size):
    """`random_keys` with the first key once more at the end: refused as DuplicateKey."""
    text = random_keys(size - 6)
    return text[:-1] + text[5:9] + b"{}}"


def falling_keys(size):
    """Tables of 57 levels, each with an entry and then one with a lower key. Up to 6 MB they are light enough."""
    one = b"b{}a{" * 57 + b"a{}" + b"}" * 57
    return b"root{" + b"".join(b"%x{" % i + one + b"}" for i in range(size // (len(one) + 8))) + b"}"


def keys_of_one_slot(size):
    """Tables of 64 keys in random order that the writer's table of keys puts into one place."""
    letters = b"0123456789ABCDEFGHIJKLMNOPQRSTUVWXYZabcdefghijklmnopqrstuvwxyz"
    alike = [bytes((a, b, c)) for a in letters for b in letters for c in letters
             if ((a * 31 + b) * 31 + c) % 1024 == 7][:64]
    dice, tables = random.Random(1), []
    for _ in range(size // (5 * len(alike) + 2)):
        dice.shuffle(alike)
        tables.append(b"{" + b"".join(key + b"{}" for key in alike) + b"}")
    return b"root{a{" + b"".join(tables) + b"}}"


def long_key(size):
    """Entries under a key of half the text, which is in the path of each; the text is compared with itself too."""
    entries = b"".join(b'a%06d{"b"}' % i for i in range(size // 24))
    return b"root{" + b"k" * (size // 2) + b"{" + entries + b"}}"


# ---- requests: the lines that prepare, and the expensive line


def install(locale, text):
    return b'{"op":"install","app":"a","locale":"%s","text":"%s"}\n' % (locale, text.replace(b'"', b'\\"'))


def look(locale, path):
    return b'{"op":"look","app":"a","locale":"%s","path":"%s"}\n' % (locale, path)


def alias_to_itself(path):
    """An alias to itself with a long keyword after its locale. A longer path grows each time, so that no level is asked what an earlier one was."""
    return lambda size: (install(b"root", b'root{a:alias{"root@' + b"x" * size + b"/" + path + b'"}}'), look(b"root", path))


def install_file(locale, data):
    return b'{"op":"install","app":"a","locale":"%s","file":"%s"}\n' % (locale, data.hex().encode())


def aliases_by_turns(size):
    """Two bundles, each with an alias to the other that has a long keyword."""
    def bundle(other):
        made = Builder(b"a\0")
        return made.file_of_one(item(ALIAS, made.text(other + b"@" + b"x" * (size // 4) + b"/a")))
    return install_file(b"aa", bundle(b"bb")) + install_file(b"bb", bundle(b"aa")), look(b"aa", b"a")


def overlapping_aliases(size):
    """Long aliases to 120 bundles that share their end: the count of units and the name of each are printable, and so may
    be in the texts of those before it. Each bundle leads on to the next alias. From 5 to 16 MB."""
    highs = [high for high in range(0x20, size // 2 >> 16) if high != ord("/")]
    steps = [high << 16 | low for high in highs for low in range(0x20, 0x7F, 6)][:-121:-1]
    names = [b"n%c%c" % (97 + i // 26, 97 + i % 26) for i in range(len(steps))]
    long, made = steps[0] + 2, Builder(b"".join(name + b"\0" for name in names))
    text = made.text(b"x" * (long - 2) + b"/k")
    places = [text + (long - step) // 2 for step in steps]
    for place, step, name in zip(places, steps, names):
        at = 4 * place - FIRST_KEY
        made.data[at:at + 12] = struct.pack("<I", step) + (name + b"@").decode().encode("utf-16-le")
    keys = [FIRST_KEY + 4 * i for i in range(len(steps))]
    root = item(LONG_TABLE, made.add([len(steps)] + keys + [item(ALIAS, place) for place in places]))
    onward = (install(name, name + b'{k:alias{"root/' + next + b'"}}') for name, next in zip(names, names[1:] + names[:1]))
    return install_file(b"root", made.file(root)) + b"".join(onward), look(b"root", names[0])


def long_parent(size):
    """A `%%Parent` that is no name and has no `@`, which is looked for."""
    made = Builder(b"%%Parent\0")
    return install_file(b"de", made.file_of_one(item(STRING, made.text(b"x" * (size // 2))))), look(b"de", b"k")


def long_key_reply(size):
    """A table with one long key, for which the reply is longer than 1,000 bytes."""
    made = Builder(b"k" * size + b"\0")
    return install_file(b"root", made.file(item(LONG_TABLE, made.table([0])))), look(b"root", b"")


def trail(path, body, end):
    """Returns the lines of a trail of 32 names, each with a body, of which the last has what leads to an alias to the whole way again."""
    names = [b"b%c%c" % (97 + i // 26, 97 + i % 26) for i in range(30)]
    bundles = (install(name, name + b'{%%Parent{"' + parent + b'"}' + body() + b"}") for name, parent in zip(names, [*names[1:], b"root"]))
    alias = path[-1] + b':alias{"baa/' + b"/".join(path) + b'"}'
    return b"".join([*bundles, install(b"root", b"root{" + end(alias) + b"}")]), look(b"baa", b"/".join(path))


def deep_trail(size):
    """A trail with tables 60 deep, each with other entries up to that length of text."""
    filler = b"".join(b"%05d{}" % i for i in range(size // 30 // 59 // 7))
    return trail([b"k"] * 60, lambda: (b"k{" + filler) * 59 + b"}" * 59, lambda alias: b"k{" * 59 + alias + b"}" * 59)


def deep_random_trail(size):
    """A trail as in `deep_trail`, over tables of random keys, so that each halving of a table waits for memory; the texts have this many bytes in all."""
    dice, letters = random.Random(2), b"abcdefghijklmnopqrstuvwxyz"
    path, count = [bytes(dice.choices(letters, k=13)) for _ in range(60)], size // 31 // 59 // 15

    def nested(last=b""):
        for key in path[-2::-1]:
            others = b"".join(bytes(dice.choices(letters, k=13)) + b"{}" for _ in range(count))
            last = key + b"{" + others + last + b"}"
        return last

    return trail(path, nested, nested)


def shared_keys(size):
    """A table whose keys are the ends of one key, so that they are far longer together than the file."""
    return install_file(b"root", suffixes(size // 9)), look(b"root", b"")


def other_members(size):
    """A line with a list that isn't part of the request."""
    return b"", b'{"op":"list","app":"a","x":[' + b"0," * (size // 2) + b"0]}\n"
