"""Runs `tools/resb-exchange` in a folder: in this process, as an interpreter takes longer to start than a file to
import; and as a separate process where it writes to standard output, or runs with another program."""
import contextlib
import importlib
import importlib.util
import io
import json
import os
import sys
from typing import Any

from support.program import TOP, Commands, Resb, Skipped, run, shown

TOOL = str(TOP / "tools" / "resb-exchange")
sys.dont_write_bytecode = True
sys.path.insert(0, str(TOP / "tools"))
main = importlib.import_module("exchange.command_line").main


def need_modules(*names: str) -> None:
    """Raises Skipped for the first module that is missing."""
    for name in names:
        if not importlib.util.find_spec(name):
            raise Skipped(f"the module {name} is missing")


class Exchange(Resb):
    """The tool in a folder."""

    def path(self, name: str) -> str:
        return str(self.folder / name)

    def text(self, name: str) -> str:
        """Returns a file of the folder as a text."""
        return (self.get(name) or b"").decode()

    def tree(self, name: str) -> Any:
        """Returns the tree of a text, as `resb json` prints it."""
        return json.loads(self.output("json", "-", stdin=self.compiled(self.get(name) or b"")))

    def process(self, *words: object, program: object = None) -> tuple[int, str, str]:
        """Returns the status, standard output and standard error of the tool, which may run with another program."""
        done = run([TOOL, *words], cwd=self.folder, env={**os.environ, "RESB": str(program or self.program)})
        return done.status, done.stdout.decode(), done.stderr.decode()

    def tool(self, *words: str) -> tuple[Any, str, str]:
        """Returns the status of the tool, its standard output, and its standard error."""
        if "-" in words or words[0] == "export" and "-o" not in words:
            return self.process(*words)
        Commands.last = [*Commands.last[-2:], shown(["resb-exchange", *words])]
        before, argv, said = os.getcwd(), sys.argv, io.StringIO()
        try:
            os.chdir(self.folder)
            sys.argv = [TOOL, *words]
            with contextlib.redirect_stderr(said):
                return main(), "", said.getvalue()
        except SystemExit as end:
            return end.code, "", said.getvalue()
        finally:
            os.chdir(before)
            sys.argv = argv
