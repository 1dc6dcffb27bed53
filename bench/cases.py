"""The measured cases of each table, in a folder that they fill. Those of expensive input are in hostile.py."""
import functools
import importlib
import importlib.util
import json
import os
import pathlib
import random
import re
import shutil
import statistics
import subprocess
import sys
import tempfile
import time
import zipfile
from typing import NamedTuple

import hostile
from measuring import MB, RUNS, Case, Goal, seconds
from support import icu, texts
from support.measured import measured
from support.program import TOP, Resb, Skipped
from support.server import ADVISED, SETTINGS, Server, line_of


class Bench(Resb):
    """The program, a folder, the folder of a built library, and the package of ICU's data, which is made when it is first asked for."""

    def __init__(self, program, folder, package=None, library=None):
        super().__init__(program, pathlib.Path(folder))
        self.named, self.library = package, library and pathlib.Path(library).resolve()

    def put(self, name, data):
        return self.folder / super().put(name, data)

    def compiled(self, name, text):
        source, made = self.put(f"{name}/root.txt", text), self.folder / name / "root.res"
        subprocess.run([self.program, "compile", "-q", source, made], check=True)
        return made

    @functools.cached_property
    def data(self):
        return icu.package(self.folder, self.named)

    @functools.cached_property
    def cldr_texts(self):
        return icu.texts(self.data, self.folder)

    @functools.cached_property
    def cldr_trees(self):
        """The paths of the texts of locales: CLDR's main data, then those of regions, units and zones."""
        others = (icu.texts(self.data, self.folder, tree) for tree in ("region", "unit", "zone"))
        return [path for tree in (self.cldr_texts, *others) for path in tree if icu.is_locale(path.stem)]

    @functools.cached_property
    def cldr_files(self):
        """The .res files of CLDR's locales, in version 1 of the format."""
        return sorted(pathlib.Path(icu.files(self.data, self.folder)).glob("*.res"))

    @functools.cached_property
    def icu_server(self):
        return icu.server(self.folder)


# ---- texts that are compiled

FLAT = {f"a table of {count:,} keys": functools.partial(texts.keys, count) for count in (2_500, 5_000, 10_000, 20_000, 40_000)}
NESTED = {f"nested text of {size / MB:g} MB": functools.partial(texts.nested, size) for size in (500_000, 1_000_000, 2_000_000, 4_000_000, 8_000_000)}
OTHER = {
    "a million numbers": lambda: "root{\nv:intvector{" + "1," * 1_000_000 + "}\n}\n",
    "a million empty arrays": lambda: "root{\na:array{" + ":array{}" * 1_000_000 + "}\n}\n",
    "a million empty strings": lambda: 'root{\na:array{""' + ',""' * 999_999 + "}\n}\n",
    "a million strings of a letter": lambda: "root{\na:array{b" + ",b" * 999_999 + "}\n}\n",
    "two million pairs of braces": lambda: "root{\na:array{" + "{}" * 2_000_000 + "}\n}\n",
}
COMPILE_GOALS = {"nested text of 8 MB": [Goal("time", 0.3), Goal("memory", 0.6)], "a table of 40,000 keys": [Goal("time", 0.01), Goal("memory", 1)]}


def check_speed(bench, compiling, output):
    if not output.exists():
        seconds(compiling)
    return os.path.getsize(output) / MB / max(seconds([bench.program, "check", output]), 1e-3)


def compile_case(bench, name, sources, output, goals):
    """Returns the case of `resb compile` beside `genrb` over texts, one by one; memory is that of the last one."""
    genrb = shutil.which("genrb")
    ours = [[bench.program, "compile", "-q", source, output] for source in sources]
    theirs = [[genrb, "--formatVersion", "1", "-q", "-e", "UTF-8", "-d", bench.folder, source] for source in sources]
    return Case("compile", name, lambda: measured(*ours).seconds, genrb and (lambda: measured(*theirs).seconds), "genrb", goals=goals,
                memory=[ours[-1], *[theirs[-1]] * bool(genrb)], size=sum(map(os.path.getsize, sources)))


def compile_cases(bench):
    for name, make in {**NESTED, **FLAT, **OTHER}.items():
        source, output = bench.put("root.txt", make()), bench.folder / "out.res"
        output.unlink(missing_ok=True)
        yield compile_case(bench, name, [source], output, COMPILE_GOALS.get(name, ()))
        yield Case("compile", f"check of {name}", lambda source=source: check_speed(bench, [bench.program, "compile", source, output], output), unit="MB/s")
    whole, largest = bench.put("cldr/root.txt", one_text(bench.cldr_trees)), sorted(bench.cldr_trees, key=os.path.getsize)[-500:]
    yield compile_case(bench, "8 MB of CLDR as one text", [whole], output, [Goal("time", 0.35), Goal("memory", 0.7)])
    yield compile_case(bench, "the 500 largest texts of CLDR, one by one", largest, output, [Goal("time", 0.35)])


BODY = re.compile(r"(?://[^\n]*\n|\s)*\w+(?::table(?:\(nofallback\))?)?\s*\{(.*)\}\s*", re.S)


def one_text(paths, size=8_000_000):
    """Returns a text with the tables of texts, in random order, as many as fit: a source has at most 8,388,608 bytes."""
    parts, left = [], size
    for path in random.Random(3).sample(paths, len(paths)):
        part = f"{path.parent.name}_{path.stem}{{{BODY.fullmatch(path.read_text(encoding='utf-8-sig'))[1]}}}\n"
        left -= len(part.encode())
        if left < 0:
            break
        parts.append(part)
    return "root{\n" + "".join(parts) + "}\n"


# ---- what is printed

WORDS = "Grüße aus München, Öl und Äpfel für 12 Straßen; heute ist es schön, und morgen wird es regnen.".split()


def strings(size):
    lines = (f'k{number:06}{{"{" ".join(WORDS[(number + i) % len(WORDS)] for i in range(14))}"}}\n' for number in range(size // 112))
    return "root{\n" + "".join(lines) + "}\n"


def numbers(size):
    return "root{\nv:intvector{" + "".join(f"{number * 7919 % 9_000_000},-{number}," for number in range(size // 20)) + "}\n}\n"


def binaries(size):
    binary = "".join(f"{number * 7919 % 256:02x}" for number in range(4096))
    return "root{\n" + "".join(f"b{number:03}:bin{{{binary}}}\n" for number in range(max(size // 9_600, 1))) + "}\n"


PRINTED = {"strings": strings, "keys": lambda size: texts.keys(size // 33), "numbers": numbers, "binaries": binaries, "nested": lambda size: texts.nested(size * 3 // 8)}


def print_cases(bench, size=8_000_000):
    """`resb text` and `resb json` beside `derb`. Goals: 60 MB of output a second, and five times derb's speed."""
    derb = shutil.which("derb")
    for name, make in PRINTED.items():
        file = bench.compiled(name, make(size))
        for command in ("text", "json"):
            words = [bench.program, command, file]
            length = len(subprocess.run(words, check=True, stdout=subprocess.PIPE).stdout)
            goals = [Goal("seconds", length / MB / 60), Goal("speed", 5, True), Goal("MB", max((file.stat().st_size + 2 * length) / MB, 10))]
            yield Case("print", f"{command} of {name}, {length / MB:.2f} MB", lambda words=words: seconds(words),
                       derb and (lambda file=file: seconds([derb, "-A", "-c", "-s", file.parent, file.stem])), "derb", goals=goals, memory=[words], size=length)


def groups(count):
    """Returns a text as people write it, which formatting changes."""
    lines = "".join(f'        Key{j}{{"Vereinigte Arabische Emirate"}}\n        AD{j}{{"Ägypten"}}\n' for j in range(8))
    end = '        v:intvector{1, 2, 3}\n        b:bin{00ff}\n        // a comment\n        l{"a","b"}\n    }\n'
    return "root{\n" + "".join(f"    Group{i}{{\n{lines}{end}" for i in range(count)) + "}\n"


def speed_case(bench, table, name, path, words, bound, runs=7):
    size = os.path.getsize(path)
    return Case(table, name, lambda: size / MB / seconds([bench.program, *words]), unit="MB/s", goals=[Goal("MB/s", bound, True)], size=size, runs=runs)


def text_cases(bench):
    """`fmt --check` over a text that formatting changes and over the formatted one, and `compile --json` beside `compile`."""
    text = bench.put("groups.txt", groups(10_000))
    yield speed_case(bench, "text", "fmt --check of a text that changes", text, ["fmt", "--check", text], 20)._replace(
        ours=lambda: os.path.getsize(text) / MB / seconds([bench.program, "fmt", "--check", text], status=1))
    formatted = bench.put("formatted.txt", text.read_bytes())
    subprocess.run([bench.program, "fmt", "-q", formatted], check=True)
    yield speed_case(bench, "text", "fmt --check of the formatted text", formatted, ["fmt", "--check", formatted], 20)
    file, other = bench.compiled("json", text.read_bytes()), bench.folder / "other.res"
    for name, options in (("JSON", []), ("JSON, indented", ["--pretty"])):
        path = bench.put(f"{len(options)}.json", subprocess.run([bench.program, "json", *options, file], check=True, stdout=subprocess.PIPE).stdout)
        words = ["compile", "-q", "--json", path, other]
        plain = [bench.program, "compile", "-q", text, other]
        yield speed_case(bench, "text", f"compile of {name}", path, words, 20)
        yield Case("text", f"compile of {name}, seconds", lambda words=words: seconds([bench.program, *words]), lambda: seconds(plain), "the bundle text", goals=[Goal("time", 1)])
        if other.read_bytes() != file.read_bytes():
            raise SystemExit(f"{name} gives another file")


# ---- one server

BUNDLES_EACH = 100  # of an application, but no fewer than 10 applications
LOOKS = 200_000
MONTHS, DAYS = ",".join(f'"month {i}"' for i in range(12)), ",".join(f'"day {i}"' for i in range(7))
TRAIL = {"root": f"root{{months{{{MONTHS}}} days{{{DAYS}}}}}", "de": f"de{{months{{{MONTHS}}} days{{{DAYS}}}}}",
         "de_AT": 'de_AT{countries{AT{"Österreich"} DE{"Deutschland"}}}'}


def lines(requests):
    return b"".join(line_of(request) + b"\n" for request in requests)


def spot(bundle, apps=10):
    """Returns the application and the locale of a bundle by its number."""
    apart, letters = bundle // apps, "abcdefghijklmnopqrstuvwxyz"
    return {"app": f"app{bundle % apps}", "locale": "q" + "".join(letters[apart // 26**i % 26] for i in range(3))}


def filled(bundles, each):
    """Returns the lines that install bundles of some strings, and those that look strings up."""
    apps, entries = max(10, bundles // BUNDLES_EACH), " ".join(f'key{i:03}{{"value {i}"}}' for i in range(each))
    places = [spot(number, apps) for number in range(bundles)]
    installs = lines({"op": "install", **place, "text": f"{place['locale']}{{{entries}}}"} for place in places)
    return installs, lines({"op": "look", **places[number * 7919 % bundles], "path": f"key{number % each:03}"} for number in range(LOOKS))


def ahead_case(bench, name, setup, asked, goals=()):
    """The microseconds of a lookup, where all lines are written ahead: the time of all lines less that of the installs."""
    before, whole = bench.put("setup", setup), bench.put("whole", setup + asked)
    words = [bench.program, "serve"]
    return Case("serve", name, lambda: (seconds(words, whole) - seconds(words, before)) / LOOKS * 1e6, unit="microseconds", goals=goals)


class Asked(Server):
    """A server that has its bundles, and is asked again and again; each call awaits all replies."""

    def __init__(self, words, setup, keeps=False):
        super().__init__(words, keeps=keeps)
        self.send_all(setup)

    def send_all(self, asked):
        count = self.count + asked.count(b"\n")
        self.send(asked)
        self.await_replies(count)

    def used(self, parts):
        """Returns microseconds of processor time a line, where each part, one or more lines, is written when the one before is answered."""
        before = self.microseconds()
        for part in parts:
            self.send_all(part)
        return (self.microseconds() - before) / sum(part.count(b"\n") for part in parts)


class Fresh(NamedTuple):
    """A server that is started anew for each figure, since where a process lies in memory changes its times by up to a third."""

    words: list[object]
    setup: bytes

    def used(self, parts):
        server = Asked(self.words, self.setup)
        server.used(parts)  # the C server opens its bundles
        figure = server.used(parts)
        server.end()
        return figure


def beside_changes(server, looks):
    """Lookups of an application while another one replaces a bundle before each, beside lookups alone."""
    change = lines([{"op": "replace", "app": "other", "locale": "de", "text": "de{a{\"b\"}}"}])
    server.send_all(change.replace(b"replace", b"install"))
    alone, changes, both = ([part] for part in (b"".join(looks), change * len(looks), b"".join(change + look for look in looks)))
    return Case("serve", "a lookup beside changes of another application, with limits", lambda: 2 * server.used(both) - server.used(changes),
                functools.partial(server.used, alone), "lookups alone", "microseconds", [Goal("time", 1.1)], runs=3 * RUNS)


def filling_case(words):
    """The time of an install where 4,096 fill an application, beside the first 100 of it."""
    text, filled = "de{" + " ".join(f'key{i:03}{{"value {i}"}}' for i in range(20)) + "}", 4_096
    installs = lines({"op": "install", **spot(i, 1), "text": text} for i in range(filled))
    first = lines({"op": "install", **spot(i, 1), "text": text} for i in range(100))

    def used(asked):
        server = Asked(words, b"")
        figure = server.used([asked])
        server.end()
        return figure

    return Case("serve", "an install of 4,096 into one application, with limits", lambda: used(installs),
                lambda: statistics.median(used(first) for _ in range(9)), "the first 100", "microseconds", [Goal("time", 1.3)])


def install_case(bench, name, member, value, size, bound, count=100):
    path, words = bench.put("installs", lines({"op": "install", **spot(i), member: value} for i in range(count))), [bench.program, "serve"]
    return Case("serve", f"installs of {name}", lambda: count * size / MB / (seconds(words, path) - seconds(words)), unit="MB/s", goals=[Goal("MB/s", bound, True)])


def memory_case(bench, each, count, goals=()):
    """The memory of a server over the sum of its files, which were installed as texts."""
    text = "root{" + " ".join(f'key{i:05}{{"value {i}"}}' for i in range(each)) + "}"
    size = bench.compiled("table", text).stat().st_size

    def used():
        server = Asked([bench.program, "serve"], lines({"op": "install", **spot(i), "text": text} for i in range(count)))
        held = server.proc("status", "VmRSS") * 1024
        server.end()
        return held / (count * size)

    return Case("serve", f"memory of {count:,} files of {each:,} strings over them", used, unit="times", goals=goals, runs=1)


def serve_cases(bench):
    text = "root{" + " ".join(f'key{i:05}{{"value {i}"}}' for i in range(9_000)) + "}"
    data, tree = bench.compiled("table", text).read_bytes(), texts.nested(230_000)
    yield install_case(bench, "texts of 9,000 keys", "text", text, len(text), 25)
    yield install_case(bench, "nested texts", "text", tree, len(tree.encode()), 25)
    yield install_case(bench, "files in hexadecimal", "file", data.hex(), len(data), 150)
    yield memory_case(bench, 9_000, 500, [Goal("figure", 1.3)])
    yield memory_case(bench, 20, 20_000)
    for bundles, each in ((100, 200), (1_000, 200), (10_000, 20), (100_000, 20)):
        setup, asked = filled(bundles, each)
        yield ahead_case(bench, f"a lookup in {bundles:,} bundles, written ahead", setup, asked, [Goal("microseconds", 4)] if bundles == 1_000 else ())
        if bundles == 1_000:
            few, wanted = (setup, asked), asked.splitlines(keepends=True)[:LOOKS // 4]
            server = Asked([bench.program, "serve"], setup)
            yield Case("serve", "a lookup in 1,000 bundles, one by one", lambda server=server: server.used(wanted), unit="microseconds")
            server.end()
    settings = ["env", *(f"{name}={value}" for name, value in SETTINGS.items()), bench.program, "serve"]
    for words, how in ((settings, ""), ([*settings, *ADVISED], ", with limits")):
        one, other = Asked(words, setup), Asked(words, few[0])
        yield Case("serve", f"a lookup in 100,000 bundles, with the settings of bin/resb{how}", functools.partial(one.used, [asked]),
                   functools.partial(other.used, [few[1]]), "a server of 1,000", "microseconds", [Goal("time", 1.5)], runs=3 * RUNS)
        one.end()
        if how:
            yield beside_changes(other, few[1].splitlines(keepends=True)[:LOOKS // 10])
            yield filling_case(words)
        other.end()
    paths = ["months/7", "countries/AT", "days/1"]
    setup = lines({"op": "install", "app": "app0", "locale": locale, "text": text} for locale, text in TRAIL.items())
    looks = lines({"op": "look", "app": "app0", "locale": "de_AT_WIEN", "path": paths[number % 3]} for number in range(LOOKS))
    yield ahead_case(bench, "a lookup over a trail of 4 names, written ahead", setup, looks, [Goal("microseconds", 6)])
    yield from text_to_lookup(bench)


def text_to_lookup(bench):
    """From nested text of 8 MB to a lookup in it: one line of resb, and genrb with a server over libicu."""
    text, asked = texts.nested(8_000_000), {"op": "look", "app": "app0", "locale": "root", "path": "part00001/Countries/AT"}
    ours = bench.put("install", lines([{"op": "install", "app": "app0", "locale": "root", "text": text}, asked]))
    source, look = bench.put("root.txt", text), bench.put("look", lines([asked]))
    icu.need("genrb")
    genrb = [shutil.which("genrb"), "--formatVersion", "1", "-q", "-d", bench.folder, source]
    yield Case("serve", "an install of nested text of 8 MB and a lookup", lambda: seconds([bench.program, "serve"], ours),
               lambda: seconds(genrb) + seconds([bench.icu_server, bench.folder], look), "genrb and ures_open", goals=[Goal("time", 0.25)])


# ---- all of CLDR

LOCALES = ("root", "en", "de", "zh_Hant", "sr_Latn")
AHEAD, ONE_BY_ONE, TRIED, HOT = 100_000, 40_000, 50_000, 500


def look(locale, path, op="look"):
    return line_of({"op": op, "app": "cldr", "locale": locale, "path": path})


def strings_of(server, locale):
    """Yields the paths of the strings that a lookup finds from a locale, by the keys and lengths of tables and arrays."""
    left = [""]
    while left:
        path = left.pop()
        item = json.loads(server.ask(look(locale, path)))
        kind = item.get("type")
        if kind == "string":
            yield path
        parts = item["keys"] if kind == "table" else range(item["len"]) if kind == "array" else ()
        left.extend(f"{path}/{part}" if path else str(part) for part in parts if "/" not in str(part) and str(part).isascii())


def lookups(server, other, locales, paths):
    """Returns lookups that find a string. Those that the two servers answer differently are left out (docs/LOOKUP.md says why)."""
    chosen, alike = random.Random(1), []
    for _ in range(TRIED):
        line = look(chosen.choice(locales), chosen.choice(paths))
        ours, theirs = json.loads(server.ask(line)), json.loads(other.ask(line))
        if ours == theirs and "error" not in ours:
            alike.append(line + b"\n")
    return alike


def chosen_files(files, count):
    """Returns this many files, each after those that its name says to be its parents: languages in random order."""
    languages = {}
    for path in sorted(files, key=lambda path: (path.stem != "root", len(path.stem), path)):
        languages.setdefault(path.stem.split("_")[0], []).append(path)
    first, *rest = languages.values()
    random.Random(2).shuffle(rest)
    return [path for group in (first, *rest) for path in group][:count]


def whole_cases(name, theirs, without, within, asked):
    """The cases of a server without limits, of one with those that are advised, beside the C server, and of the second beside the first."""
    for kind, bound, limited in (("cold", 1.3, 1.3), ("hot", 2.2, 2), ("one by one", 1.1, 1.1)):
        for ours, how, least in ((without, "", bound), (within, ", with limits", limited)):
            yield Case("cldr", f"{kind} lookups in {name}{how}", functools.partial(ours.used, asked[kind]), functools.partial(theirs.used, asked[kind]),
                       "the C server", "microseconds", [Goal("speed", least, True)])
    yield Case("cldr", f"hot lookups in {name}, with limits and without", functools.partial(within.used, asked["hot"]),
               functools.partial(without.used, asked["hot"]), "a server without", "microseconds", [Goal("time", 1.1)])


def cldr_cases(bench):
    """`resb serve` beside a line server over libicu: cold lookups in random order, hot ones of which HOT repeat, and one by one."""
    without, within = ([bench.program, "serve", *options] for options in ((), ADVISED))
    installs = {path: lines([{"op": "install", "app": "cldr", "locale": path.stem, "file": path.read_bytes().hex()}]) for path in bench.cldr_files}
    server = Asked([bench.program, "serve"], b"".join(installs.values()), keeps=True)
    paths = sorted({path for locale in LOCALES for path in strings_of(server, locale)})
    server.end()
    for count in (10, 30, 100, 300, len(installs)):
        files, folder = chosen_files(installs, count), bench.folder / str(count)
        folder.mkdir()
        for path in files:
            os.link(path, folder / path.name)
        setup = b"".join(installs[path] for path in files)
        servers = [([bench.icu_server, folder], b""), (without, setup), (within, setup)]
        theirs, *ours = (Asked(*server, keeps=True) for server in servers)
        asked = lookups(ours[0], theirs, [path.stem for path in files], paths)
        for one in (theirs, *ours):
            one.keeps = False
        kinds = {"cold": (asked * (AHEAD // len(asked) + 1))[:AHEAD], "hot": (asked[:HOT] * (AHEAD // HOT + 1))[:AHEAD]}
        parts = {kind: [b"".join(wanted)] for kind, wanted in kinds.items()}
        if count == len(installs):
            parts["one by one"] = (asked * (ONE_BY_ONE // len(asked) + 1))[:ONE_BY_ONE]
            yield from whole_cases(f"{count} bundles", *(Fresh(*server) for server in servers), parts)
        else:
            for kind, wanted in parts.items():
                yield Case("cldr", f"{kind} lookups in {count} bundles", functools.partial(ours[0].used, wanted), functools.partial(theirs.used, wanted),
                           "the C server", "microseconds")
        for one in (theirs, *ours):
            one.end()
    yield from extended_cases(bench)


def extended_cases(bench):
    sources = [path for path in bench.cldr_texts if icu.is_locale(path.stem)]
    puts = (lines([{"op": "put", "app": "cldr", "locale": path.stem, "text": path.read_text(encoding="utf-8")}]) for path in sources)
    asked = Asked([bench.program, "serve", "--extended"], b"".join(puts), True)
    for locale, goals in (("de_AT", [Goal("ms", 5)]), ("root", [])):
        line = line_of({"op": "tree", "app": "cldr", "locale": locale}) + b"\n"
        yield Case("cldr", f"a tree of {locale}", lambda line=line: asked.used([line] * 20) / 1e3, unit="ms", goals=goals)
    sizes = json.loads(asked.ask(line_of({"op": "list", "app": "cldr", "sizes": True})))["bundles"]
    exports, size = [lines([{"op": "export", "app": "cldr", "locale": bundle["locale"]}]) for bundle in sizes], sum(bundle["bytes"] for bundle in sizes)
    yield Case("cldr", "exports of all files", lambda: size / (asked.used(exports) * len(exports)), unit="MB/s", goals=[Goal("MB/s", 300, True)], size=size)
    asked.end()


def daily_cases(bench):
    """Many texts at once: `compile --to` beside one genrb process, and `lines` on the clock."""
    sources, genrb = bench.cldr_texts, shutil.which("genrb")

    def fresh(name):
        # those of earlier runs stay, since ext4 is slow to make files soon after many were deleted
        return tempfile.mkdtemp(prefix=name, dir=bench.folder)

    words = [genrb, "-q", "-e", "UTF-8", "--formatVersion", "1", "-s", sources[0].parent]
    names = [text.name for text in sources]
    yield Case("daily", f"compile --to of {len(sources)} texts", lambda: seconds([bench.program, "compile", "-q", "--to", fresh("ours"), *sources]),
               genrb and (lambda: seconds([*words, "-d", fresh("theirs"), *names])), "one genrb", goals=[Goal("time", 0.6)])
    files = [f"de_a{number:05}={path}" for number, path in enumerate(bench.cldr_files)]

    def on_the_clock():
        began = time.monotonic()
        seconds([bench.program, "lines", "cldr", *files])
        return time.monotonic() - began

    yield Case("daily", f"lines of {len(files)} files, on the clock", on_the_clock, goals=[Goal("s", 1)])


# ---- lookups in process: libresb beside libicu, and the module resb beside PyICU

WAYS = "by name", "from an open locale", "by name with steps limited", "from an open locale with steps limited"
LOCALE, KEYS, ROUNDS = "de_AT", ("calendar", "gregorian", "monthNames", "format", "wide"), 20_000


def library_program(bench, *options):
    """Returns library.c, built with the library. It chooses questions, which both libraries answer: strings at paths of five locales, from any locale."""
    icu.need("gcc")
    program = bench.folder / "-".join(["library", *options])
    words = ["gcc", "-O2", "-Wall", "-D_GNU_SOURCE", *options, "-I", bench.library, TOP / "bench" / "library.c", bench.library / "libresb.a", "-licuuc"]
    subprocess.run([*words, "-o", program], check=True)
    return program


def instructions(bench, files, part):
    """Counts the instructions of a question by callgrind. The first parts ask those without an alias on their way, in each of WAYS and of libicu, the next
    ones the others."""
    icu.need("valgrind")
    dump = bench.folder / "dump"
    words = ["valgrind", "--tool=callgrind", "--collect-atstart=no", f"--callgrind-out-file={dump}", library_program(bench, "-DCOUNTED"), files, str(part)]
    printed = subprocess.run(words, check=True, capture_output=True, text=True).stdout
    count = re.search(rf"(\d+) {'through aliases' if part > len(WAYS) else 'direct'}", printed)[1]
    return int(re.search(r"^totals: (\d+)", dump.read_text(), flags=re.M)[1]) / int(count)


def library_cases(bench):
    wheels = list(bench.library.glob("*.whl")) if bench.library else []
    if not wheels:
        raise Skipped("--library names no folder that tools/library --wheel made")
    files = icu.files(bench.data, bench.folder)
    printed = subprocess.run([library_program(bench), files, str(RUNS)], check=True, stdout=subprocess.PIPE, text=True).stdout
    turns = [tuple(map(int, times.split(", "))) for times in re.findall(r"^([\d, ]+) ns$", printed, flags=re.M)]
    for at, name in enumerate(WAYS):
        ours, theirs = (iter([turn[side] for turn in turns]) for side in (at, len(WAYS)))
        yield Case("library", f"a lookup {name}", ours.__next__, theirs.__next__, "libicu", "ns", [Goal("speed", 1.3, True)])
        for first, kind, most in ((0, "direct", 3_000), (len(WAYS) + 1, "through aliases", 7_000)):
            yield Case("library", f"a lookup {name}, {kind}", functools.partial(instructions, bench, files, first + at),
                       functools.partial(instructions, bench, files, first + len(WAYS)), "libicu", "instructions", [Goal("instructions", most)], runs=1)
    yield from python_cases(bench, files, wheels[0])


def python_cases(bench, files, wheel):
    """One string by the module resb, and by PyICU, whose bundle is kept: key by key, and by a path of keys."""
    with zipfile.ZipFile(wheel) as packed:
        packed.extractall(bench.folder / "wheel")
    sys.path.insert(0, str(bench.folder / "wheel"))
    bundles, path = importlib.import_module("resb").Bundles(), "/".join(KEYS)
    for locale in ("root", "de", "de_AT"):
        bundles.install("cldr", locale, pathlib.Path(files, f"{locale}.res").read_bytes())
    pyicu = importlib.import_module("icu") if importlib.util.find_spec("icu") else None
    kept = pyicu and pyicu.ResourceBundle(files, pyicu.Locale(LOCALE))

    def ours():
        return bundles.look("cldr", LOCALE, path + "/0")

    def by(*steps):
        return functools.reduce(lambda item, step: item.getWithFallback(step), steps, kept).get(0).getString()

    def timed(call):
        began = time.process_time()
        for _ in range(ROUNDS):
            call()
        return (time.process_time() - began) / ROUNDS * 1e6

    if kept and not by(*KEYS) == by(path) == ours():
        raise SystemExit("the answers differ")
    for name, steps in (("key by key", KEYS), ("by a path", (path,))):
        theirs = kept and functools.partial(timed, functools.partial(by, *steps))
        yield Case("library", f"a lookup in Python, {name} in PyICU", lambda: timed(ours), theirs, "PyICU", "microseconds", [Goal("speed", 1.2, True)])


TABLES = {"compile": compile_cases, "print": print_cases, "text": text_cases, "serve": serve_cases, "cldr": cldr_cases, "daily": daily_cases,
          "hostile": hostile.cases, "library": library_cases}
