"""Each command on a page runs in a test. Blocks of `console` and of README.md are run by test_documents.py, other indented blocks and inline commands by
the calls `block PAGE SECTION [NUMBER]` and `inline PAGE START` of page_commands.sh. An inline command of `resb` is one that a block or a case of commands/
runs with the same options. All others are in page_commands.tsv, each with a file and a text in it that runs the command; with `help` and a command whose
output has all of its words, if it proves or measures for long; or with `data`, if a block has no commands."""
import json
import os
import re

import pytest
from support import pages
from support.pages import blocks, commands, outside_blocks, text_of
from support.program import TOP, need, run

PAGES = [page for page in pages.PAGES if page != "CHANGELOG.md"]
TABLE = {row[0]: row[1:] for row in (line.split("\t") for line in text_of("tests/page_commands.tsv").splitlines()) if not row[0].startswith("#")}
SCRIPT = text_of("tests/page_commands.sh").replace("\\\\?", "?")
STARTS = tuple(found.strip("'") for found in re.findall(r"\(inline \S+ ('[^']*'|[\w./-]+)", SCRIPT))
# programs that aren't files of this repository
PROGRAMS = set("""apt-get cc chown code derb gateway genrb git icu2text install journalctl ls make man measure objcopy podman pytest resb resb-ci resb-exchange
    resb-gateway resb-lsp rt runuser set sqlite3 systemctl systemd-sysusers tar time touch ulimit xxd (add-to-list :set :%!resb""".split())


def words_of_runs():
    """Returns the words after `resb` of each command in blocks of console and in commands/."""
    shown = [command for name in [*PAGES, *(TOP / "tests" / "console").glob("*.txt")] for info, first, lines in blocks(text_of(name))
             if info in ("console", "console first") for _, command, _ in commands(first, lines)]
    cases = [["resb", *case["args"]] for path in (TOP / "tests" / "commands").glob("*.json") for case in json.loads(text_of(path))["cases"]]
    found = [*(part.split() for command in shown for part in re.split(r"[|;&(){}\n]", command)), *cases]
    return [words[words.index("resb") + 1:] for words in found if "resb" in words]


RUNS = words_of_runs()


def is_run(command):
    words = re.split(r"[ \[\]|]+", re.split(r" [|<] ", command)[0])
    options = {word for word in words if re.match("--?[a-z]", word)}
    return command in TABLE or command.startswith(STARTS) or words[0] == "resb" and any(words[1] in found[:1] and options <= set(found) for found in RUNS)


def inline(page):
    """Yields the commands between backticks, outside of blocks and of what tools/pages writes."""
    text = re.sub(r"^    .*?$|<!-- commands, .*?<!-- end -->", "", outside_blocks(page), flags=re.M | re.S)
    for found in re.findall(r"`([^`\n]+)`", text):
        word = found.split()[0]
        files = [file for file in (TOP / word, TOP / os.path.dirname(page) / word) if "/" in word and file.is_file()]
        if " " in found and (word in PROGRAMS or any(os.access(file, os.X_OK) for file in files)):
            yield found.replace(r"\|", "|")


def indented(page):
    """Yields each indented block: its section, its number in it, and its lines."""
    for part in re.split(r"^#+ ", outside_blocks(page), flags=re.M):
        for number, block in enumerate(re.findall(r"(?:^ {4}.*\n(?:\n(?= {4}))?)+", part, flags=re.M), 1):
            yield part.partition("\n")[0], number, [line.strip() for line in block.splitlines() if line.strip()]


def is_run_as_block(page, section, number, lines):
    call = rf"\bblock {re.escape(page)} ['\"]?{re.escape(section)}['\"]?" + (rf" {number}\b" if number > 1 else r"(?! \d)")
    return lines[0].startswith("$ ") and page == "README.md" or TABLE.get(lines[0]) == ["data"] or re.search(call, SCRIPT)


@pytest.mark.parametrize("page", PAGES)
def test_each_command_runs(page):
    fenced = [info for info, _, lines in blocks(text_of(page)) if any(line.startswith("$ ") for line in lines)]
    assert all(info.startswith("console") and page.startswith(("docs/", "tests/notes/")) for info in fenced)
    shown = [line for section, number, lines in indented(page) if not is_run_as_block(page, section, number, lines) for line in lines if line not in TABLE]
    assert [*(command for command in inline(page) if not is_run(command)), *shown] == []


def test_table():
    """Each row is of a command that a page has, and names a text of a file."""
    known = {command for page in PAGES for command in [*inline(page), *(line for _, _, lines in indented(page) for line in lines)]}
    assert sorted(set(TABLE) - known) == []
    assert [command for command, row in TABLE.items() if row[0] not in ("data", "help") and row[1] not in text_of(row[0])] == []


@pytest.mark.parametrize("asked", sorted({row[1] for row in TABLE.values() if row[0] == "help"}))
def test_words_of_help(asked):
    need(*([] if "/" in asked.split()[0] else asked.split()[:1]))
    printed = run(asked.split(), cwd=TOP)
    words = [word for command, row in TABLE.items() if row == ["help", asked] for word in re.findall(r"(?<![\w/.])(?:--?)?[a-z]+(?![\w/.])", command)]
    assert [word for word in words if word not in (printed.stdout + printed.stderr).decode()] == []
