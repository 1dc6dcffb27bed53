"""Settings of a project: the same names in the program, the schema and the language server; many modules; old warnings; `init`."""
import json
import os
import pathlib
import resource
import sys

import pytest
from support.program import TOP, run

sys.path.insert(0, str(TOP / "tools"))
from lsp import settings  # noqa: E402

SCHEMA = json.loads((TOP / "editors" / "resb.schema.json").read_text(encoding="utf-8"))
MODULE = '[[module]]\nfolder = "m"\n'


def value_of(kind):
    """Returns a good value of a kind, as TOML, and a wrong one."""
    if isinstance(kind, tuple):
        return str(kind[1]), str(kind[1] + 1)
    return {
        settings.TEXT: ('"m"', "1"),
        settings.TEXTS: ('["m"]', '"m"'),
        settings.NAMES: ('["bundle-name"]', '["no-such"]'),
        settings.FLAG: ("true", '"true"'),
    }[kind]


def key_kinds():
    return [(table, key, kind) for table, keys in settings.KEYS.items() for key, kind in keys.items()]


def written(table, key, value):
    """Returns the text of a settings file with one key, and the line of the key."""
    needed = 'folder = "m"\n' if table == "module" and key not in ("folder", "patterns") else ""
    header = f"[[{table}]]" if table in settings.MANY else f"[{table}]"
    return f"# one key\n{header}\n{needed}{key} = {value}\n", 3 + bool(needed)


@pytest.fixture(scope="module")
def rules(program):
    return [line.partition(":")[0] for line in run([program, "lint", "--list"]).stdout.decode().splitlines()]


@pytest.mark.parametrize("table, key, kind", key_kinds())
def test_each_key(resb, rules, table, key, kind):
    resb.put("m/root.txt", "root {\n}\n")
    good, wrong = value_of(kind)
    text, _ = written(table, key, good)
    resb.put("resb.toml", text)
    status, _, stderr = resb("fmt", "--check", "m/root.txt")
    assert (status, stderr) == (0, b""), text
    assert not [it for it in settings.read(text, str(resb.folder), rules)[1] if "no file of the root" not in it.message]
    text, line = written(table, key, wrong)
    resb.put("resb.toml", text)
    status, _, stderr = resb("lint", "m/root.txt")
    (problem,) = (it for it in settings.read(text, str(resb.folder), rules)[1] if "no file of the root" not in it.message)
    assert (status, stderr.decode()) == (2, f"resb.toml:{line}:1: {problem.message}\n"), text
    assert text.count("\n", 0, problem.offset) + 1 == line


def test_the_schema():
    def kind(value):
        if "$ref" in value:
            return {"strings": settings.TEXTS, "warnings": settings.NAMES}[value["$ref"].rpartition("/")[2]]
        if value["type"] == "integer":
            return value["minimum"], value["maximum"]
        return {"string": settings.TEXT, "boolean": settings.FLAG}[value["type"]]

    tables = {name: value.get("items", value) for name, value in SCHEMA["properties"].items()}
    assert {name: {key: kind(one) for key, one in table["properties"].items()} for name, table in tables.items()} == settings.KEYS
    assert {name for name, value in SCHEMA["properties"].items() if value["type"] == "array"} == set(settings.MANY)


def test_many_modules(resb):
    texts = 0
    for module in range(78):
        keys = "".join(f'    key{number} {{ "text {number} of {{0}}" }}\n' for number in range(20))
        for locale in ("root", "de", "fr", "it", "es", "pt", "ja", "ru", "zh"):
            less = keys.replace("key7 ", "other7 ") if locale == "fr" else keys
            resb.put(f"texts/m{module:02}/{locale}.txt", f"{locale} {{\n{less}}}\n")
            texts += 1
    before = resource.getrusage(resource.RUSAGE_CHILDREN)
    status, stdout, _ = resb("lint", "--format", "sarif", ".")
    after = resource.getrusage(resource.RUSAGE_CHILDREN)
    taken = after.ru_utime + after.ru_stime - before.ru_utime - before.ru_stime
    (log,) = json.loads(stdout)["runs"]
    found = [(it["locations"][0]["physicalLocation"]["artifactLocation"]["uri"], it["ruleId"]) for it in log["results"]]
    assert status == 0 and found == [
        (f"texts/m{module:02}/fr.txt", rule) for module in range(78) for rule in ("missing-key", "unused-key")
    ]
    assert taken <= 2, f"{texts} texts took {taken:.1f} s of processor time"


def test_old_warnings(resb):
    resb.put("m/root.txt", 'root { a { "A" } b { "B" } }\n')
    resb.put("m/de.txt", 'de {\n  a { "A" }\n  x { "x" y }\n}\n')
    _, first, _ = resb("lint", "--format", "json", ".")
    assert first.count(b"\n") == 3
    resb.put("old", first.decode())
    resb.put("resb.toml", '[lint]\nstrict = true\nbaseline = "old"\n')
    assert resb("lint", ".") == (0, b"", b"")
    resb.put("m/de.txt", 'de {\n  a { "A" }\n\n  x { "x" y }\n  y { "x" y }\n}\n')
    status, stdout, _ = resb("lint", ".")
    assert status == 1 and [line.split(b": ")[0] for line in stdout.splitlines()] == [b"m/de.txt:5:3", b"m/de.txt:5:11"]
    resb.put("m/de.txt", "de {\n")
    assert resb("lint", ".").status == 1


def test_source_language(resb):
    resb.put("resb.toml", '[[module]]\nfolder = "m"\nsource-language = "en-GB"\n')
    resb.put("m/root.txt", 'root { a { "A" } }\n')
    resb.put("m/de.txt", "de { }\n")
    words = ("export", "--format", "xliff1", "--source", "m/root.txt", "--target", "m/de.txt")
    done = run([TOP / "tools" / "resb-exchange", *words], cwd=resb.folder, env={**os.environ, "RESB": resb.program})
    assert done.status == 0 and b'source-language="en-GB"' in done.stdout, done.stderr


def test_init(resb):
    for name in ("root.txt", "a/root.txt", "a/b/root.txt", "c/de.txt"):
        resb.put(f"p/{name}", pathlib.Path(name).stem + " { }\n")
    assert resb("init", "p") == (0, b"p/resb.toml: written\n", b"")
    text = resb.get("p/resb.toml").decode()
    assert [line for line in text.splitlines() if line.startswith("folder")] == ['folder = "."', 'folder = "a"', 'folder = "a/b"']
    assert settings.read(text, str(resb.folder / "p"), ["bundle-name"])[1] == []
    assert resb("lint", "--config", "p/resb.toml", "p").status == 0
    assert resb("init", "p").status == 2 and resb.get("p/resb.toml").decode() == text


def test_limits(resb):
    """The lowest limit of the settings, of the text's comments and of those in the root's text counts; words are forbidden by file."""
    resb.put("resb.toml", '[[limit]]\npaths = ["menu/**"]\nlength = 4\n[[limit]]\nfiles = ["m/fr.txt"]\nlength = 6\n[[forbid]]\nfiles = ["m/de.txt"]\nwords = ["Ware"]\n')
    resb.put("m/root.txt", 'root {\n  menu { a { "Open" } }\n  // resb-lint: max 8\n  list { "12345678", "1" }\n  b { "goods" }\n}\n')
    entries = '  menu { a { "12345" } }\n  list { "123456789", "1234567" }\n  // resb-lint: max 3\n  b { "Ware" }\n}\n'
    for name in ("de", "fr"):
        resb.put(f"m/{name}.txt", name + " {\n" + entries)
    status, stdout, _ = resb("lint", ".")
    found = [(*line.decode().split(":")[:2], line.decode().rpartition("[")[2][:-1]) for line in stdout.splitlines()]
    german = [("2", "too-long"), ("3", "too-long"), ("5", "too-long"), ("5", "forbidden-word")]
    french = [("2", "too-long"), ("3", "too-long"), ("3", "too-long"), ("5", "too-long")]
    assert status == 0 and found == [("m/de.txt", *one) for one in german] + [("m/fr.txt", *one) for one in french]
    limits = [int(line.split(b"at most ")[1].split()[0]) for line in stdout.splitlines() if b"too-long" in line]
    assert limits == [4, 8, 3, 4, 6, 6, 3]


# A path in ICUDATA by an alias of each kind, from a locale of a module.
ALIASES = {"de": ["/ICUDATA/de/menu/open", "/ICUDATA/de_AT/menu/open", "/ICUDATA/de/none", "/ICUDATA/fr/menu/close", "/ICUDATA/fr/menu/none", "/ICUDATA/root/short",
                  "/ICUDATA/root/list/1", "/ICUDATA/root/list/2", "/ICUDATA/iw/menu/open", "/ICUDATA/iw/menu/none", "/ICUDATA/root/there", "/ICUDATA/root/gone",
                  "/ICUDATA/alone/menu/close", "/ICUDATA/alone/menu/open", "/ICUDATA/en_GB/x", "/ICUDATA/zh_Hant/x"],
           "nl": ["/ICUDATA/root/short", "/ICUDATA/root/only"], "it": ["/ICUDATA/root/only"]}
DATA = {
    "root": 'root{menu{open{"O"} close{"C"}} months{"M"} short:alias{"/LOCALE/months"} list{"0","1"} there:alias{"de/menu/open"} gone:alias{"de/no"}'
            ' only:alias{"/LOCALE/it"}}',
    "de": 'de{menu{open{"Ö"}} months{"Monate"}}', "iw": 'iw{%%ALIAS{"he"}}', "he": 'he{menu{open{"H"}}}', "it": 'it{it{"I"}}', "en": 'en{x{"X"}}',
    "en_GB": 'en_GB{%%Parent{"root"}}', "zh": 'zh{x{"X"}}', "alone": 'alone:table(nofallback){menu{open{"A"}}}',
}


def test_aliases_beside_the_server(resb):
    """A lookup of an alias is Missing exactly if `lint` calls it one to nothing."""
    resb.put("parents.txt", 'p{parentLocales{root{"zh_Hant"}}}')
    resb.put("resb.toml", '[data]\nicudata = "icu"\nparents = "parents.txt"\n[[module]]\nfolder = "m"\n')
    words = [f"{name}={resb.put(f'icu/{name}.txt', text)}" for name, text in DATA.items()]
    requests = []
    for locale, aliases in ALIASES.items():
        text = locale + "{\n" + "".join(f'k{at}:alias{{"{alias}"}}\n' for at, alias in enumerate(aliases)) + "}"
        resb.put(f"m/{locale}.txt", text)
        requests += [{"op": "install", "app": "a", "locale": locale, "text": text}]
    requests += [{"op": "look", "app": "a", "locale": locale, "path": f"k{at}"} for locale, aliases in ALIASES.items() for at in range(len(aliases))]
    lines = "".join(json.dumps(request) + "\n" for request in requests)
    done = resb("serve", "--parents", "parents.txt", *words, stdin=lines.encode())
    replies = [json.loads(line) for line in done.stdout.splitlines()][len(ALIASES):]
    wanted = [reply.get("error") == "Missing" for reply in replies]
    assert True in wanted and False in wanted and not [reply for reply in replies if reply.get("error") not in (None, "Missing")]
    found = {tuple(line.split(b":")[:2]) for line in resb("lint", *(f"m/{locale}.txt" for locale in ALIASES)).stdout.splitlines()
             if line.endswith(b"[alias-to-nothing]")}
    assert [(b"m/%s.txt" % locale.encode(), b"%d" % (at + 2)) in found for locale, aliases in ALIASES.items() for at in range(len(aliases))] == wanted


# The texts of a module, and the keys whose strings in `de` are the root's where others translate them.
SAME = {
    "a": ('"Save the file"', '"Save the file"', '"Enregistrer"', '"Salva"', True),
    "b": ('"Save the file"', '"Save the file"', '"Save the file"', '"Salva"', False),
    "c": ('"Name"', '"Name"', '"Nom"', '"Nome"', False),
    "d": ('"Save {0, number} of {name}"', '"Save {0, number} of {name}"', '"{name} : {0, number}"', '"{0, number} di {name}"', True),
    "e": ('"<b>OK</b> {long name}"', '"<b>OK</b> {long name}"', '"{long name}"', '"<b>OK</b>"', False),
    "f": ('"x", "Log out"', '"x", "Log out"', '"x", "Quitter"', '"x", "Esci"', True),
    "g": ('"2 + 3"', '"2 + 3"', '"3 + 2"', '"5"', False),
    "h": ('"Log out"', '"Abmelden"', '"Quitter"', '"Esci"', False),
    "i": ('"New York"', '"New York"', '"New York"', '"New York"', False),
}


def same_texts(resb, *names, settings="", words=("lint", "m")):
    """Returns the lines of a module's texts that are called the root's, by files."""
    resb.put("resb.toml", f'[[module]]\nfolder = "m"\n{settings}')
    for place, name in enumerate(("root", *names)):
        texts = (column[0 if name.startswith("en") else place] for column in SAME.values())
        resb.put(f"m/{name}.txt", name + "{\n" + "".join(f"{key} {{ {text} }}\n" for key, text in zip(SAME, texts)) + "}")
    found = [line.decode().split(":")[:2] for line in resb(*words).stdout.splitlines() if line.endswith(b"[same-text]")]
    return {name: sorted({list(SAME)[int(line) - 2] for file, line in found if file == f"m/{name}.txt"}) for name in ("root", *names)}


def test_texts_that_others_translate(resb):
    wanted = [key for key, row in SAME.items() if row[4]]
    assert same_texts(resb, "de", "fr", "it") == {"root": [], "de": wanted, "fr": [], "it": []}
    assert same_texts(resb, "de", "fr", "it", "en_GB")["en_GB"] == []
    assert same_texts(resb, "de", "fr", "it", settings='source-language = "de"\n')["de"] == []
    assert same_texts(resb, "de", "fr", "it", words=("lint", "--allow", "same-text", "m"))["de"] == []
    assert same_texts(resb, "de", "fr", "it", words=("lint", "m/de.txt", "m/fr.txt"))["de"] == []
    denied = same_texts(resb, "de", "fr", "it", words=("lint", "--deny", "same-text", "m"))
    assert denied["de"] == [key for key, row in SAME.items() if row[0] == row[1]] and denied["fr"] == ["b", "f", "i"]


def test_a_root_in_no_language(resb):
    """A root beside which its language has other texts isn't that language's, unless the settings say so."""
    same_texts(resb, "de", "fr", "it")
    resb.put("m/en.txt", 'en{a{"Save file"}}')
    assert b"same-text" not in resb("lint", "m").stdout
    resb.put("resb.toml", '[[module]]\nfolder = "m"\nsource-language = "en"\n')
    assert b"same-text" in resb("lint", "m").stdout
