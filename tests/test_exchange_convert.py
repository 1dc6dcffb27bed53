"""Tests `resb-exchange convert`: catalogues of other formats become bundle texts and back. What is expected is written
by hand (exchange/), or read by other readers: javaproperties, translate-toolkit, Python's gettext and plistlib, and
ICU's MessageFormat.

A row of exchange/convert.jsonl has "catalogues" of exchange/catalogues/ and "files", some in other "encodings"; the
format "from", the file or folder "in", and further "options" of the command; and what it must print ("said", or the
beginning of the "last" line), the "trees" of texts that it writes, which are "all" of them if the row says so, and
parts that a text "has".
"""
import importlib.util
import json
import os
import plistlib
import re
import time

import pytest
from support.exchange import Exchange, need_modules
from support.program import TOP, need, rows, run

from exchange.common import Failure
from exchange.convert import CONVERTERS, catalogue, files_in, placeholders, plurals
from exchange.convert.readers import Options

CATALOGUES = TOP / "tests" / "exchange" / "catalogues"
PLACEHOLDERS = rows("exchange/placeholders.jsonl")
# texts that Python's operator % takes
PRINTF = [row["text"] for row in PLACEHOLDERS if (row["of"], row["doubts"]) == ("printf", 0)]
PRINTF = [text for text in PRINTF if not set("@$(") & set(text)]


def needs(*modules):
    missing = [module for module in modules if not importlib.util.find_spec(module)]
    return pytest.mark.skipif(bool(missing), reason=f"the module {missing} is missing")


class Folder(Exchange):
    def put(self, name, data, encoding="utf-8"):
        return super().put(name, data if isinstance(data, bytes) else data.encode(encoding))

    def take(self, name, source):
        """Writes a file of exchange/catalogues/ into the folder."""
        self.put(name, (CATALOGUES / source).read_bytes())

    def convert(self, *words):
        """Returns what a conversion prints that must succeed."""
        status, printed, said = self.tool("convert", *words)
        assert (status, printed) == (0, ""), said
        return said


@pytest.fixture
def at(program, tmp_path):
    return Folder(program, tmp_path)


@pytest.mark.parametrize("row", PLACEHOLDERS, ids=lambda row: f"{row['of']}-{row['text']}")
def test_placeholders(row):
    made = getattr(placeholders, f"of_{row['of']}")(row["text"])
    assert (made.text, len(made.doubts)) == (row["message"], row["doubts"]), made.doubts


@needs("icu")
@pytest.mark.parametrize("text", PRINTF)
def test_messages_say_what_printf_does(text):
    import icu

    kinds = re.findall(r"%l*([sdu])", text.replace("%%", ""))
    if not kinds:
        return
    values = ["Anna" if kind == "s" else 7 + at for at, kind in enumerate(kinds)]
    message = icu.MessageFormat(placeholders.of_printf(text).text, icu.Locale("en"))
    # Python's operator reads one letter of a length
    assert message.format([icu.Formattable(one) for one in values]) == text.replace("%ll", "%l") % tuple(values)


LOCALES = {
    "de": "de", "pt-BR": "pt_BR", "pt-rBR": "pt_BR", "b+sr+Latn": "sr_Latn", "sr@latin": "sr_Latn",
    "zh-Hant-TW": "zh_Hant_TW", "zh_CN.UTF-8": "zh_CN", "ca@valencia": "ca__VALENCIA", "es-419": "es_419",
    "de_DE_1996": "de_DE_1996", "x": None, "strings": None,
}


@pytest.mark.parametrize("tag", LOCALES)
def test_locales(tag):
    assert catalogue.locale_of(tag) == LOCALES[tag]


@pytest.mark.parametrize("text", ["a", "Größe", "a\\b", "\\u00f6", "", "tab\there", "a/b", "\U0001F600", "\\0", "ctx\x04id"])
def test_keys(text):
    key = catalogue.key_of(text)
    assert key and key.isascii() and key.isprintable()
    assert catalogue.name_of(key) == text


@needs("translate")
@pytest.mark.parametrize("row", rows("exchange/plurals.jsonl"), ids=lambda row: row["language"])
def test_plurals(row):
    """A row has the language, its header, the forms by their numbers, and the categories of CLDR."""
    found, doubt = plurals.of_gettext(row["language"], row["header"], dict(enumerate(row["forms"])))
    assert (found, bool(doubt)) == (row["wanted"], row["is_doubtful"])


@pytest.mark.parametrize("row", rows("exchange/convert.jsonl"), ids=lambda row: row["name"])
def test_convert(at, row):
    need_modules(*row.get("needs", ()))
    encodings = row.get("encodings", {})
    files = {name: (CATALOGUES / source).read_text("utf-8") for name, source in row.get("catalogues", {}).items()}
    for name, text in {**files, **row.get("files", {})}.items():
        at.put(name, text, encodings.get(name, "utf-8"))
    said = at.convert("--from", row["from"], *row.get("options", ()), "--to", "out", row["in"]).splitlines()
    assert said == row.get("said", said) and said[-1].startswith(row.get("last", ""))
    made = {str(path.relative_to(at.folder / "out").with_suffix("")) for path in (at.folder / "out").rglob("*.txt")}
    assert made == set(row["trees"]) if row.get("all") else made >= set(row["trees"])
    for name, tree in row["trees"].items():
        assert at.tree(f"out/{name}.txt") == tree
    for name, part in row.get("has", {}).items():
        assert part in at.text(f"out/{name}.txt")


@needs("javaproperties")
def test_properties_and_back(at):
    import javaproperties

    at.take("in/app.properties", "app.properties")
    at.convert("--from", "properties", "--to", "out/root.txt", "in/app.properties")
    at.output("fmt", "--check", "out/root.txt")
    wanted = javaproperties.loads(at.text("in/app.properties"))
    assert at.tree("out/root.txt") == dict(wanted)
    at.convert("--from", "resb", "--as", "properties", "--module", "app", "--to", "back", "out")
    assert javaproperties.loads(at.text("back/app.properties")) == wanted


@needs("polib", "translate")
def test_po_beside_gettext(at):
    import gettext

    need("msgfmt")
    at.take("po/de.po", "de.po")
    at.convert("--from", "po", "--keep-placeholders", "--to", "out", "po")
    assert run(["msgfmt", "-o", at.path("de.mo"), at.path("po/de.po")]).status == 0
    with open(at.path("de.mo"), "rb") as file:
        texts = {key: text for key, text in gettext.GNUTranslations(file)._catalog.items() if isinstance(key, str) and key}
    ours = {catalogue.name_of(key): text for key, text in at.tree("out/de.txt").items() if "plural" not in text}
    assert ours == texts


@needs("translate")
def test_android_and_back(at):
    from translate.storage import aresource

    at.take("res/values/strings.xml", "strings.xml")
    at.convert("--from", "android", "--to", "out", "res")
    at.convert("--from", "resb", "--as", "android", "--to", "back", "out")
    at.convert("--from", "android", "--to", "again", "back")
    assert at.tree("again/root.txt") == at.tree("out/root.txt")
    store = aresource.AndroidResourceFile.parsefile(at.path("back/values/strings.xml"))
    texts = {unit.getid(): unit.target for unit in store.units if unit.istranslatable()}
    assert texts["who"] == "Hi %1$s Ö @"
    assert texts["files"].strings == ["%1$d file in %2$s", "%1$d files in %2$s"]


@needs("translate")
def test_ios_and_back(at):
    from translate.storage import properties

    for name in ("Localizable.strings", "Localizable.stringsdict"):
        at.take(f"app/en.lproj/{name}", name)
    at.convert("--from", "ios", "--to", "out", "app")
    at.convert("--from", "resb", "--as", "ios", "--to", "back", "out")
    store = properties.stringsutf8file()
    store.parse(at.get("back/Base.lproj/Localizable.strings"))
    assert {unit.name: unit.source for unit in store.units if unit.name} == {"title": 'Hello, %1$@! "%2$@"\n', "plain": "It's"}
    found = plistlib.loads(at.get("back/Base.lproj/Localizable.stringsdict"))["files"]
    assert found["NSStringLocalizedFormatKey"] == "In all %#@count@ on %2$@"
    assert {name: text for name, text in found["count"].items() if not name.startswith("NS")} == {
        "zero": "no file", "one": "%1$ld file", "other": "%1$ld files",
    }


# --- Refusals

DEEP = {"kind": "json", "name": "de.json", "data": "[" * 100_000, "what": "de.json:1: "}


@pytest.mark.parametrize("row", [*rows("exchange/catalogues_refused.jsonl"), DEEP], ids=lambda row: row["what"])
def test_refused(at, row):
    need_modules(*["polib"] * (row["kind"] == "po"))
    at.put(row["name"], row["data"])
    status, _, said = at.tool("convert", "--from", row["kind"], "--to", "out", row["name"])
    assert status == 1
    assert row["what"] in said
    assert not (at.folder / "out").exists()


def test_files_that_are_there(at):
    at.put("a.properties", "a=b\n")
    at.put("out/root.txt", "root {\n /* mine */ }")
    words = ("--from", "properties", "--to", "out", "a.properties")
    status, _, said = at.tool("convert", *words)
    assert (status, said.splitlines()[-1]) == (2, "out/root.txt:2: is there, and differs; --force replaces it")
    assert at.text("out/root.txt") == "root {\n /* mine */ }"
    at.convert("--force", *words)
    assert at.tree("out/root.txt") == {"a": "b"}
    os.utime(at.path("out/root.txt"), (1, 1))
    at.convert(*words)
    assert os.stat(at.path("out/root.txt")).st_mtime == 1


def test_a_bad_file_among_others(at):
    at.put("in/a.properties", "a=b\n")
    at.put("in/b.properties", "a=\\u1\n")
    status, _, said = at.tool("convert", "--from", "properties", "--to", "out", "--report", "report.json", "in")
    assert (status, said.splitlines()[-1]) == (1, "in/b.properties:1: \\u without four hexadecimal digits")
    assert at.tree("out/root.txt") == {"a": "b"}
    report = json.loads(at.get("report.json"))
    assert (report["written"], report["errors"]) == (["out/root.txt"], ["in/b.properties:1: \\u without four hexadecimal digits"])


# --- Costs

PLIST_ENTRY = "<key>k%d</key>\n<dict><key>NSStringLocalizedFormatKey</key><string>x</string></dict>\n"
LARGE = {
    "de.json": "{" + ",\n".join(f'"\\u00e9{number}": true' for number in range(30_000)) + "}",
    "de.lproj/a.stringsdict": "<plist><dict>\n" + "".join(PLIST_ENTRY % number for number in range(20_000)) + "</dict></plist>",
    "de.lproj/a.strings": "".join(f'"k{number}" = "v";\n' for number in range(40_000)),
    "de.properties": "".join(f"k{number}=a\\\nb\n" for number in range(40_000)),
    "values/a.xml": "<resources>\n" + '<dimen name="d">1</dimen>\n' * 20_000 + '<string name="a">A</string></resources>',
}


@pytest.mark.parametrize("name", LARGE)
def test_large_catalogues_take_linear_time(at, name):
    """Keys that are left out are reported with their lines, in the order of the file."""
    at.put(name, LARGE[name])
    read = next(readers[end] for readers in CONVERTERS.values() for end in readers if name.endswith(end))
    began = time.process_time()
    catalogues = list(read(at.path(name), str(at.folder), Options(False, "de")))
    assert time.process_time() - began < 10
    lines = [doubt.line for one in catalogues for doubt in one.doubts]
    assert lines == sorted(lines) and (not lines or lines[-1] > 19_000)


# --- Catalogues of packages


def names_by_toolkit(path):
    """Returns the names of a PO file's finished translations, by translate-toolkit."""
    from translate.storage import pypo

    units = [unit for unit in pypo.pofile.parsefile(path).units if not unit.isheader() and not unit.isobsolete() and unit.istranslated()]
    return {"\x04".join(filter(None, (unit.getcontext(), str(unit.source)))) for unit in units}


def names_by_java(path):
    import javaproperties

    data = open(path, "rb").read()
    try:
        return set(javaproperties.loads(data.decode("utf-8-sig")))
    except UnicodeDecodeError:
        return set(javaproperties.loads(data.decode("latin-1")))


def names_by_lxml(path):
    """Returns the names of an Android file's strings, and the ids of an XLIFF file's units."""
    from lxml import etree

    root = etree.parse(path).getroot()
    if etree.QName(root).localname == "resources":
        return {one.get("name") for one in root if one.tag in ("string", "string-array", "plurals")}
    return {one.get("id") for one in root.iter("{*}trans-unit")}


READERS = {"po": names_by_toolkit, "properties": names_by_java, "android": names_by_lxml, "xliff": names_by_lxml}


def names_in(kind, path, folder):
    """Returns the names that come over from a file or are in its report, or None if it is refused."""
    try:
        made = list(CONVERTERS[kind][os.path.splitext(path)[1]](path, folder, Options(False, None)))
    except Failure as failure:
        assert re.match(re.escape(path) + r":\d+: ", str(failure))
        return None
    return {catalogue.name_of(key) for one in made for key in one.tree} | {doubt.key for one in made for doubt in one.doubts}


@pytest.mark.hand
@pytest.mark.parametrize("kind", READERS)
def test_catalogues_of_packages(at, kind):
    """Each string that another reader finds in the catalogues below $RESB_CATALOGUES, such as the sources of Debian packages, comes over
    or is in the report; and all of a package become texts at once. Refused files are counted."""
    top = os.environ.get("RESB_CATALOGUES") or pytest.skip("RESB_CATALOGUES names no folder of catalogues")
    for package in sorted(os.listdir(top)):
        folder, strings, files, refused = os.path.join(top, package), 0, 0, []
        for path, _ in files_in(kind, [folder]):
            found = names_in(kind, path, folder)
            if found is None:
                refused.append(path)
                continue
            wanted = READERS[kind](path)
            assert wanted <= found, (path, sorted(wanted - found)[:5])
            strings, files = strings + len(wanted), files + 1
        if files:
            _, _, said = at.tool("convert", "--from", kind, "--to", package, "--report", f"{package}.json", folder)
            report = json.loads(at.get(f"{package}.json"))
            assert report["written"] and len(report["errors"]) <= len(refused), said
            print(f"{package}: {files} files, {strings} strings, {len(report['doubts'])} to look at, refused {len(refused)}:", report["errors"][:9])
