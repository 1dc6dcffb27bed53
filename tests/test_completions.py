"""The completions in docs/completions/ have the commands and the flags of `resb --help` and `resb COMMAND --help`, no more and no fewer; and the first
version in CHANGELOG.md, after a section "Unreleased" if there is one, is that of `resb --version`.
"""
import re

import pytest
from support.program import TOP, run


def of_program(resb):
    listed = re.search(r"^Commands:\n((?:  .*\n)+)", resb.output("--help").decode(), flags=re.M).group(1)
    commands = [word for word in re.findall(r"^  (\w+)", listed, flags=re.M) if word != "help"]
    return {name: set(re.findall(r"^ .*?--([\w-]+)", resb.output(name, "--help").decode().partition("Options:")[2], flags=re.M)) for name in commands}


def of_cases(text):
    rows = re.findall(r"^        (\w+)\) flags=(.*) ;;$", text, flags=re.M)
    return {name: set(re.findall(r"--([\w-]+)", flags)) for name, flags in rows}


def of_fish(text):
    commands = re.search(r"-f -a '([a-z ]*)'", text).group(1).split()
    found = {name: {"help"} for name in commands if name != "help"}
    for name, flag in re.findall(r"seen_subcommand_from (\w+)' -l ([\w-]+)", text):
        found.setdefault(name, {"help"}).add(flag)
    return found


@pytest.mark.parametrize("name, read", [("resb.bash", of_cases), ("_resb", of_cases), ("resb.fish", of_fish)])
def test_completions(resb, name, read):
    assert read((TOP / "docs" / "completions" / name).read_text(encoding="utf-8")) == of_program(resb)


@pytest.mark.parametrize("words, wanted", [
    (("lint", "--format", ""), "text full json sarif github"), (("lint", "--color", "a"), "auto always"), (("coverage", "--format", "c"), "csv"),
    (("lint", "--allow", "missing-o"), "missing-open-brace missing-other"), (("explain", "BadI"), "BadInt"), (("help", "expl"), "explain"),
    (("lines", "--op", ""), "install replace")])
def test_values(resb, words, wanted):
    """The completions of bash offer the values of options."""
    (resb.folder / "resb").symlink_to(resb.program)
    script = f'source "$0"; COMP_WORDS=(resb "$@"); COMP_CWORD=$#; PATH={resb.folder}:$PATH; _resb; echo "${{COMPREPLY[*]}}"'
    done = run(["bash", "-c", script, str(TOP / "docs" / "completions" / "resb.bash"), *words])
    assert (done.stdout.decode().strip(), done.stderr) == (wanted, b"")


def test_version(resb):
    first = re.search(r"^## (?!Unreleased$)(\S+)", (TOP / "CHANGELOG.md").read_text(encoding="utf-8"), flags=re.M)[1]
    assert resb.output("--version") == f"resb {first}\n".encode()
