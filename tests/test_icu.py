"""Compiling, printing and lookups beside ICU: genrb and derb, libicu over CLDR's explicit parents, and, by hand, over all of CLDR.

Of each text the two files must have equal trees and be printed alike by derb; what `resb text` prints must compile to the same bytes, and genrb must
read it to the same tree. The folders of a package of ICU's data are its ten trees, 3,682 texts (docs/ICU.md). libicu answers through bench/icu_server.c.
"""
import collections
import json
import os
import pathlib
import random
import re
import subprocess

import pytest
from model import files
from model.trees import leaves
from support import icu
from support.program import TOP, run
from support.server import line_of

TREES = ("brkitr", "coll", "curr", "lang", "main", "rbnf", "region", "translit", "unit", "zone")
BATCH, DERB_SECONDS = 40, 20


@pytest.fixture(scope="module")
def data(tmp_path_factory):
    return icu.package(tmp_path_factory.mktemp("package"))


@pytest.fixture(scope="module")
def icu_server(tmp_path_factory):
    return icu.server(tmp_path_factory.mktemp("server"))


def stem(path):
    return pathlib.Path(path).stem


def bytes_of(path):
    return path.read_bytes() if path.exists() else None


def same_tree(first, second):
    return first == second or files.read(first)[0][0] == files.read(second)[0][0]


def derb_lines(folder, names):
    """Returns what derb prints of files without its comments, or None if it doesn't end: it looks for a parent that is missing (`nb_NO`)."""
    try:
        printed = run(["derb", "-s", folder, "-c", *names], timeout=DERB_SECONDS).stdout
    except subprocess.TimeoutExpired:
        return None
    return [line for line in printed.splitlines() if not line.startswith(b"//")]


class Batch:
    """Texts that are compiled together, each with the first fault that is found, and why it is left out."""

    def __init__(self, resb, texts):
        icu.need("genrb", "derb")
        self.resb, self.texts = resb, {stem(text): text for text in texts}
        self.faults, self.left_out = {}, {}

    def path(self, folder, name, end=".res"):
        (self.resb.folder / folder).mkdir(exist_ok=True)
        return self.resb.folder / folder / (name + end)

    def names(self):
        return [name for name in self.texts if name not in self.faults and name not in self.left_out]

    def genrb(self, texts, folder):
        """Compiles texts, whose bundles have the names of their files; of one alone the bundle may have another name."""
        path = self.path(folder, "").parent
        icu.genrb(list(texts), path)
        made = os.listdir(path)
        if len(self.texts) == 1 and len(made) == 1:
            os.rename(path / made[0], self.path(folder, next(iter(self.texts))))

    def compile(self, texts, folder):
        """Compiles texts by resb; returns the error of each that has one, by its name."""
        done = self.resb("compile", "-q", "--to", self.path(folder, "").parent, *texts)
        return {stem(line.split(":")[0]): line for line in done.stderr.decode().splitlines()}

    def compare(self):
        self.genrb(self.texts.values(), "theirs")
        errors = self.compile(self.texts.values(), "ours")
        for name in self.texts:
            if not self.path("theirs", name).exists():
                self.left_out[name] = "genrb refuses the text"
            elif name in errors:
                self.left_out[name] = f"the text is refused: {errors[name]}"
        theirs = [self.path("theirs", name) for name in self.names()]
        for line in self.resb("check", "-q", *theirs).stderr.decode().splitlines() if theirs else []:
            self.faults[stem(line.split(":")[0])] = f"genrb's file is refused: {line}"
        for name in self.names():
            if not same_tree(bytes_of(self.path("ours", name)), bytes_of(self.path("theirs", name))):
                self.faults[name] = "the trees differ"
        if self.names():
            self.compare_printed_by_derb(self.names())
            self.compare_printed_texts()

    def compare_printed_by_derb(self, names):
        """Compares what derb prints of the files together, and one by one where it differs or doesn't end."""
        ours, theirs = (derb_lines(self.path(folder, "").parent, names) for folder in ("ours", "theirs"))
        if ours is not None and ours == theirs or ours is None is theirs and len(names) == 1:
            return
        if len(names) == 1:
            self.faults[names[0]] = "derb prints them differently"
        for name in names if len(names) > 1 else ():
            self.compare_printed_by_derb([name])

    def compare_printed_texts(self):
        """Compiles what `resb text` prints, by resb and by genrb."""
        folder = pathlib.Path(next(iter(self.texts.values()))).resolve().parent
        for name in self.names():
            self.path("printed", name, ".txt").write_bytes(self.resb.output("text", self.path("ours", name)))
        printed = [self.path("printed", name, ".txt") for name in self.names()]
        for text in folder.glob("*.txt"):
            # collation rules import the folder's other texts
            if not self.path("printed", text.stem, ".txt").exists():
                self.path("printed", text.stem, ".txt").symlink_to(text)
        errors = self.compile(printed, "again")
        self.genrb(printed, "read")
        for name in self.names():
            ours, theirs, again, read = (bytes_of(self.path(kind, name)) for kind in ("ours", "theirs", "again", "read"))
            if name in errors:
                self.faults[name] = f"the printed text is refused: {errors[name]}"
            elif again != ours:
                self.faults[name] = "the printed text compiles to other bytes"
            elif read is None:
                self.faults[name] = "genrb refuses the printed text"
            elif read != theirs and not same_tree(read, ours):
                self.faults[name] = "genrb reads another tree in the printed text"


@pytest.mark.parametrize("name", sorted(path.name for path in (TOP / "examples").glob("*.txt")))
def test_example_beside_genrb(resb, name):
    batch = Batch(resb, [TOP / "examples" / name])
    batch.compare()
    assert (batch.faults, batch.left_out) == ({}, {})


@pytest.mark.hand
@pytest.mark.parametrize("tree", TREES)
def test_tree_beside_genrb(resb, data, tmp_path, tree):
    texts, faults, left_out = icu.texts(data, tmp_path / "texts", tree), {}, {}
    for at in range(0, len(texts), BATCH):
        (resb.folder / f"batch{at}").mkdir()
        batch = Batch(type(resb)(resb.program, resb.folder / f"batch{at}"), texts[at:at + BATCH])
        batch.compare()
        faults |= batch.faults
        left_out |= batch.left_out
    print(f"{tree}: {len(texts)} texts, left out: {left_out}")
    assert faults == {}


def replies(words, requests):
    """Returns the data of the replies to requests, of a server of resb or of libicu."""
    done = run(words, b"".join(line_of(request) + b"\n" for request in requests), env={**os.environ, "LC_ALL": "C"})
    assert done.status == 0
    return [json.loads(reply) for reply in done.stdout.splitlines()]


def looks(app, asked):
    return [{"op": "look", "app": app, "locale": locale, "path": path} for locale, path in asked]


# ---- explicit parents

PARENTS = TOP / "examples" / "parents" / "cldr.txt"
CODE = TOP / "crates" / "rb_console" / "src" / "cldr.rt"
EVERYDAY = "zh_CN zh_SG zh_Hans_SG zh_Hant_TW de_AT pt_BR pt_AO en_AU es_MX sr_RS sr_ME sr_Latn_ME uz_AF nb_NO nn_NO az_AZ pa_PK".split()


def is_compared(name, table):
    """Checks whether libicu 72 takes a locale as CLDR has it. It never ends on nb and nn, and its table of scripts by region has no Latin ones, so that
    it takes sr_ME for Cyrillic where no bundle is an alias."""
    has_region = re.fullmatch(r"[a-z]+_[A-Z]{2}", name)
    return name.split("_")[0] not in ("nb", "nn") and not (has_region and table.get(name, "").endswith("_Latn"))


def bundles_with_parents(names, table):
    """Returns the texts of the bundles of root, languages, and languages with a script, by locale: each has its own name at `id`, and a language without
    a script at `usual`; one with an explicit parent names it at %%Parent, as CLDR's own bundles do."""
    wanted = {"root"} | {part for name in names for part in (name.split("_")[0], name) if not re.search(r"_([A-Z]{2}|[0-9]{3})$", part)}
    for name in sorted(wanted):
        parent = f' %%Parent {{ "{table[name]}" }}' if name in table else ""
        usual = f' usual {{ "{name}" }}' if "_" not in name else ""
        yield name, f'{name} {{{parent} id {{ "{name}" }}{usual} }}\n'


def test_explicit_parents(resb, icu_server):
    """Looks both paths up from each locale of the file and of a list of everyday ones, with the file and with the text in the program."""
    rows = re.findall(r"^        (\w+) \{(.*?)\}", PARENTS.read_text(encoding="utf-8"), flags=re.M | re.S)
    table = {child: parent for parent, children in rows for child in re.findall(r'"(\w+)"', children)}
    names = sorted(name for name in {*table, *EVERYDAY} - {"root"} if is_compared(name, table))
    texts = dict(bundles_with_parents([*names, *table.values()], table))
    resb.output("compile", "-q", "--to", ".", *(resb.put(f"{name}.txt", text) for name, text in texts.items()))
    installs = [{"op": "install", "app": "a", "locale": name, "text": text} for name, text in texts.items()]
    asked = [(name, path) for name in names for path in ("id", "usual")]
    theirs = replies([icu_server, resb.folder, "indexes"], looks("a", asked))
    for words in (["--parents", PARENTS], ["--cldr-parents"]):
        ours = replies([resb.program, "serve", *words], installs + looks("a", asked))[len(installs):]
        found = [(one, reply.get("actual"), reply.get("value")) for one, reply in zip(asked, ours, strict=True)]
        assert found == [(one, reply.get("actual"), reply.get("value")) for one, reply in zip(asked, theirs, strict=True)]


def test_text_of_parents_in_the_program():
    text = "".join(line for line in PARENTS.read_text(encoding="utf-8").splitlines(True) if not line.startswith("//"))
    assert text.replace('"', '\\"') in CODE.read_text(encoding="utf-8"), "run tools/cldr-parents --code"


def test_source_of_parents(data):
    """The file is what tools/cldr-parents writes, if the installed ICU is the one that it names."""
    version = re.search(r"icudt([0-9]+)", os.path.basename(data))[1]
    if f"from ICU {version}." not in PARENTS.read_text(encoding="utf-8"):
        pytest.skip(f"the ICU of {PARENTS.name} is missing")
    assert run([TOP / "tools" / "cldr-parents", "--package", data, "--check", PARENTS]).status == 0


# ---- all of CLDR

MARKER = "\u2205\u2205\u2205"
LOOKUPS = 20000


class Tree:
    """The bundles of a tree, in both servers."""

    def __init__(self, name, data, folder, program, server):
        texts = [text for text in icu.texts(data, folder, name) if icu.is_locale(text.stem)]
        run([program, "compile", "-q", "--to", folder / name, *texts])
        self.name, self.files = name, {text.stem: text.with_suffix(".res").read_bytes() for text in texts}
        self.resb = [program, "serve"]
        self.libicu = [server, "ICUDATA" if name == "main" else f"ICUDATA-{name}", "indexes"]
        self.installs = [{"op": "install", "app": name, "locale": locale, "file": file.hex()} for locale, file in sorted(self.files.items())]

    def ours(self, asked, *words):
        return self.shared(replies([*self.resb, *words], self.installs + looks(self.name, asked))[len(self.installs):])

    def theirs(self, asked):
        return self.shared(replies(self.libicu, looks(self.name, asked)))

    @staticmethod
    def shared(found):
        """Returns replies without what libicu isn't asked for: the keys of a table and the length of an array."""
        return [{name: value for name, value in reply.items() if name not in ("keys", "len")} for reply in found]


def reason(our, their, begun, ended, alone):
    """Returns why two replies differ, as docs/LOOKUP.md has it, or None. `begun` is our reply from the valid locale of libicu's reply, `ended`
    libicu's reply from the actual locale of ours, `alone` our reply without explicit parents."""
    if our == {"error": "BadLocale"}:
        return "left out: a locale with an empty part, or with one of more than 8 characters"
    if our.get("value") == MARKER:
        return "left out: three U+2205, which are an ordinary string in resb"
    if begun == their:
        return "left out: libicu begins at the script that is likely for the locale, resb at the locale without its last part"
    if their == {"error": "Missing"} and our.get("value", "") == ended.get("value"):
        return "left out: an array of an earlier bundle is too short, and resb reads the index in the later ones too"
    return "left out: a bundle has an explicit parent, for which libicu asks only if there is no bundle" if alone == their else None


@pytest.mark.hand
def test_all_of_cldr(program, data, icu_server, tmp_path):
    """Looks up strings at paths and from locales chosen at random, and counts differing replies by their reason."""
    trees = [Tree(name, data, tmp_path, program, icu_server) for name in TREES if name != "translit"]
    names, counts, parents = {name for tree in trees for name in tree.files}, collections.Counter(), ("--parents", tmp_path / "main" / "supplementalData.txt")
    names = sorted(names | {f"{name}_ZZ" for name in names})
    for tree in trees:
        items = (leaf for file in tree.files.values() for leaf in leaves(files.read(file)[0][0]))
        # a path can't name a key that has a slash
        paths = sorted({"/".join(parts) for parts, (kind, _) in items if kind == "string" and not any("/" in part for part in parts)})
        chosen = random.Random(tree.name)
        asked = [(chosen.choice(names), chosen.choice(paths)) for _ in range(LOOKUPS)]
        both = list(zip(asked, tree.ours(asked, *parents), tree.theirs(asked), strict=True))
        differing = [(one, our, their) for one, our, their in both if our != their]
        begun = tree.ours([(their.get("valid", locale), path) for (locale, path), _, their in differing], *parents)
        ended = tree.theirs([(our.get("actual", locale), path) for (locale, path), our, _ in differing])
        alone = tree.ours([one for one, _, _ in differing])
        for (one, our, their), *others in zip(differing, begun, ended, alone):
            why = reason(our, their, *others)
            assert why, f"{tree.name}: {one}: {our} {their}"
            counts[why] += 1
        counts["alike"] += len(both) - len(differing)
    print(counts)
