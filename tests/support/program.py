"""The built program, commands with their outcomes, and limits of their memory and their output."""
import functools
import importlib.machinery
import json
import pathlib
import resource
import shutil
import signal
import subprocess
import sys
import types
import unittest
from collections.abc import Callable, Iterable
from typing import Any, NamedTuple

TOP = pathlib.Path(__file__).resolve().parent.parent.parent
PROGRAM = str(TOP / "crates" / "rb_tool" / "out" / "rb_tool")
WAIT = 600
MEGABYTE = 1 << 20


class Skipped(unittest.SkipTest):
    """Names what is missing, without which a test or a bench can't run. A test that raises it is skipped."""


class Outcome(NamedTuple):
    """The status, standard output and standard error of a command."""

    status: int
    stdout: bytes = b""
    stderr: bytes = b""


class Commands:
    """The last commands, which a failed test prints."""

    last: list[str] = []


def rows(name: str) -> list[Any]:
    """Returns the lines of a file in tests/, each a value of JSON."""
    return [json.loads(line) for line in (TOP / "tests" / name).read_text(encoding="utf-8").splitlines()]


def need(*tools: str) -> None:
    for tool in tools:
        if not shutil.which(tool):
            raise Skipped(f"{tool} is missing")


def loaded(name: str, path: object) -> Any:
    loader = importlib.machinery.SourceFileLoader(name, str(path))
    module = types.ModuleType(name)
    module.__file__, sys.modules[name] = str(path), module
    loader.exec_module(module)
    return module


def shown(words: Iterable[object]) -> str:
    """Returns a command as one line, with long words shortened."""
    return " ".join(word if len(word) < 200 else f"{word[:190]}..({len(word)} characters)" for word in map(str, words))


def run(words: Iterable[Any], stdin: Any = b"", **options: Any) -> Outcome:
    """Runs a command with bytes or a file as its standard input."""
    words = [word if isinstance(word, (str, bytes)) else str(word) for word in words]
    Commands.last = [*Commands.last[-2:], shown(words)]
    given: dict[str, Any] = {"timeout": WAIT, "check": False, "stdout": subprocess.PIPE, "stderr": subprocess.PIPE}
    given["input" if isinstance(stdin, bytes) else "stdin"] = stdin
    done: subprocess.CompletedProcess[bytes] = subprocess.run(words, **given | options)
    return Outcome(done.returncode, done.stdout or b"", done.stderr or b"")


class Resb:
    """The program, run in a folder."""

    def __init__(self, program: str, folder: pathlib.Path):
        self.program, self.folder = program, folder

    def __call__(self, *words: object, **options: Any) -> Outcome:
        options.setdefault("cwd", self.folder)
        return run([self.program, *words], **options)

    def output(self, *words: object, **options: Any) -> bytes:
        """Returns the standard output of a command that must succeed without a message."""
        done = self(*words, **options)
        assert (done.status, done.stderr) == (0, b"")
        return done.stdout

    def put(self, name: object, data: str | bytes) -> str:
        """Writes a file into the folder and returns its name."""
        path = self.folder / str(name)
        path.parent.mkdir(parents=True, exist_ok=True)
        path.write_bytes(data.encode("utf-8", "surrogatepass") if isinstance(data, str) else data)
        return str(name)

    def get(self, name: object) -> bytes | None:
        try:
            return (self.folder / str(name)).read_bytes()
        except OSError:
            return None

    def compiled(self, text: str | bytes, *options: str) -> bytes:
        data = text.encode("utf-8", "surrogatepass") if isinstance(text, str) else text
        return self.output("compile", *options, "-", "-", stdin=data)

    def serve(self, lines: Iterable[bytes], *words: object, **options: Any) -> Outcome:
        """Serves lines, each without its line feed."""
        return self("serve", *words, stdin=b"".join(line + b"\n" for line in lines), **options)


def limited(size: int) -> Callable[[], None]:
    return lambda: resource.setrlimit(resource.RLIMIT_AS, (size, size))


def limited_output(most: int, size: int | None = None) -> Callable[[], None]:
    """Returns a function that gives a new process files of at most `most` bytes, and at most `size` bytes of address space."""

    def prepare() -> None:
        if size is not None:
            limited(size)()
        signal.signal(signal.SIGXFSZ, signal.SIG_IGN)
        resource.setrlimit(resource.RLIMIT_FSIZE, (most, most))

    return prepare


@functools.cache
def least_memory(program: str) -> int:
    low, high = 0, 512 * MEGABYTE
    while high - low > MEGABYTE // 8:
        middle = (low + high) // 2
        low, high = (low, middle) if run([program, "serve"], preexec_fn=limited(middle)).status == 0 else (middle, high)
    return high
