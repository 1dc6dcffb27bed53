"""The benches, small: tables of the stored figures, the command of the page, and a case of each kind."""
import os
import re
import sys

import pytest
from support.pages import text_of
from support.program import TOP, run

ENVIRONMENT = {**os.environ, "PYTHONDONTWRITEBYTECODE": "1"}


def measure(*words):
    return run([sys.executable, TOP / "bench" / "measure", *words], env=ENVIRONMENT, cwd=TOP)


def test_tables_of_the_page():
    assert measure("--check").status == 0


def test_command_of_the_page(program):
    """The command of bench/README.md measures one case."""
    line = re.search(r"^    (bench/measure .*)$", text_of("bench/README.md"), flags=re.M)[1]
    command = line.replace("[--store] ", "").replace("[--package DATA] ", "").replace("PROGRAM", program).replace("WORD ..", "print binaries")
    done = run(re.sub(r"[\[\]]", "", command).split(), env=ENVIRONMENT, cwd=TOP)
    assert done.stderr == b"" and "print: json of binaries" in done.stdout.decode()


@pytest.mark.parametrize("words, case", [
    (("compile", "nested text of 0.5 MB"), "compile: nested text of 0.5 MB: "),
    (("serve", "installs of nested"), "serve: installs of nested texts: "),
    (("hostile", "62 shared arrays"), "hostile: check of 62 shared arrays"),
])
@pytest.mark.hand
def test_case(program, words, case):
    done = measure("--program", program, *words)
    assert done.stderr == b"" and case in done.stdout.decode()
