"""Pages beside the program and the sources: the commands that they show with what they print, their links, and what they name.

A fenced block of `console` has commands as they are typed, with their output on both streams. The blocks of a page are run in their order, by one shell, in
a folder that has only examples/; `resb` is the program, `icu2text` and `resb-exchange` the scripts in tools/, and $EXAMPLES is examples/. If a page has a block of `console
first`, each other block is run by a separate shell, after that one, in a folder that has bin/, tools/ and examples/ as this repository does. Blocks of
`console by-hand` need the package of ICU's data. The indented blocks of README.md are run in one shell.
"""
import functools
import os
import re

import pytest
from support import icu
from support.pages import PAGES, bad_links, blocks, commands, differences, indented, outside_blocks, output_of, script_of, text_of
from support.program import TOP, run

README_LINES, README_WIDTH = 80, 200
FULL = "/dev/full"
TOOLS = [(f"tools/{name}", TOP / "tools" / name) for name in ("icu2text", "resb-exchange")]
SHOWN = [name for name in PAGES if name.startswith(("docs/", "tests/notes/")) and "\n```console" in text_of(name)]
SHOWN += sorted(str(path.relative_to(TOP)) for path in (TOP / "tests" / "console").glob("*.txt"))
CRATES = {name.split()[0]: uses.split() for name, colon, uses in (line.partition(":") for line in text_of("crates.txt").splitlines()) if colon}


# ---- commands


@pytest.fixture
def folder(program, tmp_path):
    """A folder with the program, the tools and the examples, and one to run in."""
    for name in ("bin", "tools", "run"):
        (tmp_path / name).mkdir()
    for name, target in (("bin/resb", program), ("examples", TOP / "examples"), ("run/examples", TOP / "examples"), *TOOLS):
        (tmp_path / name).symlink_to(target)
    return tmp_path


def shell(script, folder, place="run", **variables):
    path = os.pathsep.join([str(folder / "bin"), str(folder / "tools"), os.environ.get("PATH", "")])
    given = {"PATH": path, "EXAMPLES": str(TOP / "examples"), "LC_ALL": "C.UTF-8", **variables}
    return output_of(script, cwd=folder / place, env={**os.environ, **given})


def wrong_commands(name, folder, kinds=("console",)):
    """Returns where the commands of a page print something else than it says."""
    found = [(info, commands(first, lines)) for info, first, lines in blocks(text_of(name)) if info in kinds or info == "console first"]
    if not os.path.exists(FULL):
        found = [(info, [command for command in block if FULL not in command[1]]) for info, block in found]
    groups = [block for info, block in found if info != "console first"]
    if len(groups) == len(found):
        whole = [command for block in groups for command in block]
        return differences(name, whole, shell(script_of(whole), folder))
    first = "".join(f"{command}\n" for info, block in found if info == "console first" for _, command, _ in block)
    variables = {"PATH": os.environ.get("PATH", ""), "TMPDIR": str(folder / "run")}
    return [line for block in groups for line in differences(name, block, shell(first + script_of(block), folder, "", **variables))]


@pytest.mark.parametrize("name", SHOWN)
def test_commands(folder, name):
    assert wrong_commands(name, folder) == []


@pytest.mark.hand
def test_commands_by_hand(folder):
    icu.package(folder / "run")
    assert wrong_commands("docs/ICU.md", folder, ("console", "console by-hand")) == []


def test_readme(folder):
    asked, lines = indented(text_of("README.md")), text_of("README.md").splitlines()
    assert differences("README.md", asked, shell(script_of(asked), folder)) == []
    assert len(lines) <= README_LINES and max(map(len, lines)) <= README_WIDTH


# ---- links and names


@pytest.mark.parametrize("name", PAGES)
def test_links(name):
    assert list(bad_links(name)) == []


@functools.cache
def files_of(crate="*"):
    """Returns the paths of the sources, definitions, proofs and mutants of a crate, or of all."""
    return [str(path.relative_to(TOP)) for path in (TOP / "crates").glob(f"{crate}/[!o]*/**/*") if path.is_file()]


@functools.cache
def sources(crate):
    """Returns the code of a crate, without the tests in it."""
    return text_of(*(path for path in (TOP / "crates" / crate / "src").glob("*.rt") if path.name != "tests.rt"))


def is_named(name, crate):
    """Checks whether a crate has a definition, law, function, type or clause of this name."""
    word, specs = re.escape(name.rpartition("::")[2]), [file for file in files_of(crate) if file.endswith(".antt") and "/specs/" in file]
    forms = (rf"\bfn {word}\b", rf"\b(struct|enum|trait|const) {word}\b", rf"\bensures {word} ")
    return (any(os.path.basename(file) == f"{name}.antt" for file in specs) or any(re.search(form, sources(crate)) for form in forms)
            or bool(re.search(rf"^(abbrev pub|pub record|pub data) {word} ", text_of(*specs), flags=re.M)))


def is_there(named, page):
    """Checks whether a path from the top or the page's folder exists, a source or definition is one of any crate, and a crate has an item."""
    item = re.fullmatch(r"(rb_\w+)::([\w:]+)", named)
    if item:
        return item[1] in CRATES and is_named(item[2], item[1])
    if re.fullmatch(r"(bin|tools|tests|docs|deploy|bench|examples|crates)/[\w./-]+", named):
        is_made = re.search(r"\b(NAME|CRATE)\b|/out\b", named)
        return is_made or any((TOP / place / named).exists() for place in ("", os.path.dirname(page)))
    return not re.fullmatch(r"[\w./-]+\.(rt|antt)", named) or any(f"/{file}".endswith(f"/{named}") for file in files_of())


@pytest.mark.parametrize("name", PAGES)
def test_names(name):
    """What a page names between backticks, outside its blocks, exists."""
    assert [named for named in re.findall(r"`([^`\n]+)`", outside_blocks(name)) if not is_there(named, name)] == []


# ---- crates, on docs/ARCHITECTURE.md and in crates.txt


def test_table_of_crates():
    """The table has a row for each crate, below those of the crates that it uses."""
    table = text_of("docs/ARCHITECTURE.md").partition("| Crate | What it does |\n")[2].partition("\n\n")[0]
    rows = re.findall(r"^\| (\w+) \| [^|]* \|$", table, flags=re.M)
    assert {name for name in rows if re.match("(rb|tests)_", name)} <= set(CRATES) <= set(rows)
    assert [(name, used) for name, uses in CRATES.items() for used in uses if used in rows and rows.index(used) > rows.index(name)] == []


@pytest.mark.parametrize("name", CRATES)
def test_uses(name):
    """A crate cites the crates that its line in crates.txt names."""
    known = {*CRATES, *(used for uses in CRATES.values() for used in uses)}
    text = re.sub(r"//.*|--.*", "", text_of(*(file for file in files_of(name) if file.endswith((".rt", ".antt")))))
    assert {*re.findall(r"\bRattle\.(\w+)\.", text), *re.findall(r"\b(\w+)::", text)} & known - {name} == set(CRATES[name])


def test_crates_that_reach_files():
    row = re.search(r"^\| ([^|]*) reach files and standard streams", text_of("docs/ARCHITECTURE.md"), flags=re.M)
    assert set(re.findall(r"rb_\w+", row[1])) == {name for name in CRATES if re.search(r"\bR: [^>{}]*\bFiles\b", sources(name))}


# ---- error codes


def error_words():
    """Returns the codes that the calls `word` of the crates and the gateway give for errors."""
    bodies = "".join(re.findall(r"fn word\(&?self\).*?\n    }\n", "".join(map(sources, CRATES)), flags=re.S))
    variants = "".join(re.findall(r"variant_name!\(self: \w+ \{(.*?)\}\)", bodies, flags=re.S))
    words = {*re.findall(r'"([A-Z]\w*)"', bodies), *re.findall(r"\b([A-Z]\w*)", variants)} - {"Done", "Names"}
    gateway = re.findall(r'"([A-Z][a-z]\w+)"', text_of("deploy/internal/wire/problems.go"))
    return words | {"BadLine", *gateway, "BadPatch", "BadRelease", "NeedsTLS"}


def listed_errors():
    """Returns the error codes that tools/pages lists, each as its word, its cause and its remedy."""
    rows = re.findall(r"^\| `(\w+)` \| .*? \| (.*?) \| (.*?) \|$", run([TOP / "tools/pages", "--errors"]).stdout.decode(), flags=re.M)
    return [(word, *(re.sub(r"\\(.)", r"\1", text) for text in texts)) for word, *texts in rows]


def test_errors_are_explained(resb):
    """Each error code of the crates and of the gateway is in the list of tools/pages and of `resb explain`, in the same words."""
    listed, shown = listed_errors(), resb.output("explain").decode()
    words = {word for word, _, _ in listed}
    assert error_words() - words == set() and [word for word in sorted(error_words()) if f"  {word}: " not in shown] == []
    explained = {word: resb.output("explain", word).decode() for word in words}
    assert [word for word, cause, remedy in listed if f"  likely cause: {cause}\n  what to do: {remedy}\n" not in explained[word]] == []
