"""A server that runs, and lines of requests."""
import json
import os
import subprocess
import threading
from collections.abc import Sequence
from typing import Any

from support.program import WAIT, Commands, shown

# The settings of bin/resb and deploy/. docs/OPERATIONS.md asks an operator for the first.
SETTINGS = {"MALLOC_MMAP_THRESHOLD_": "4096", "GLIBC_TUNABLES": "glibc.malloc.hugetlb=1"}

# The limits that docs/OPERATIONS.md advises, with more and larger applications: CLDR's bundles have 10 MB, and 100,000 bundles are in 1,000.
ADVISED = ["--app-bytes", "16777216", "--bundle-bytes", "1048576", "--reply-bytes", "1048576", "--line-bytes", "6356992", "--apps", "1024",
           "--steps", "10000", "--keep-serving"]


def line_of(request: Any) -> bytes:
    """Returns a request as a line, without its line feed; a text or bytes are a line already."""
    line = request if isinstance(request, (bytes, str)) else json.dumps(request, separators=(",", ":"))
    return line.encode() if isinstance(line, str) else line


def reply_of(answer: Any) -> bytes:
    """Returns the line of a reply, whose members ascend, with its line feed."""
    return json.dumps(answer, separators=(",", ":"), sort_keys=True).encode() + b"\n"


class Server:
    """A running server whose replies a thread takes. Without `keeps` they are only counted, and the good ones of changes too."""

    def __init__(self, words: Sequence[object], keeps: bool = True, **options: Any):
        Commands.last = [*Commands.last[-2:], shown(words)]
        streams: dict[str, Any] = dict.fromkeys(("stdin", "stdout"), subprocess.PIPE)
        self.process = subprocess.Popen(list(map(str, words)), bufsize=0, **streams | options)
        self.lock = threading.Condition()
        self.replies: list[bytes] = []
        self.count = self.longest = self.good = 0
        self.keeps, self.is_over = keeps, False
        self.listener = threading.Thread(target=self.listen, daemon=True)
        self.listener.start()

    def listen(self) -> None:
        assert self.process.stdout
        with os.fdopen(self.process.stdout.fileno(), "rb", closefd=False) as replies:
            for reply in replies:
                with self.lock:
                    self.count += 1
                    self.good += reply == b'{"ok":true}\n'
                    self.longest = max(self.longest, len(reply))
                    if self.keeps:
                        self.replies.append(reply)
                    self.lock.notify_all()
        with self.lock:
            self.is_over = True
            self.lock.notify_all()

    def send(self, data: bytes) -> None:
        assert self.process.stdin
        rest = memoryview(data)
        while rest:
            rest = rest[self.process.stdin.write(rest):]

    def await_replies(self, count: int, seconds: float = WAIT) -> list[bytes]:
        """Waits until `count` replies came, and returns those that are kept."""
        with self.lock:
            self.lock.wait_for(lambda: self.count >= count or self.is_over, seconds)
            assert self.count >= count, f"{self.count} of {count} replies came"
            return self.replies[:count]

    def ask(self, line: bytes) -> bytes:
        count = self.count + 1
        self.send(line + b"\n")
        return self.await_replies(count)[-1]

    def proc(self, name: str, field: str) -> int | None:
        """Returns a number that the system tells of the process, or None."""
        try:
            with open(f"/proc/{self.process.pid}/{name}", encoding="ascii") as file:
                return next(int(line.split()[1]) for line in file if line.startswith(field + ":"))
        except (OSError, StopIteration):
            return None

    def peak(self) -> int | None:
        found = self.proc("status", "VmHWM")
        return found and found * 1024

    def microseconds(self) -> float:
        with open(f"/proc/{self.process.pid}/schedstat", encoding="ascii") as file:
            return int(file.read().split()[0]) / 1e3

    def end(self) -> int:
        """Ends the input, and returns the status once the last reply came; standard error, if it is a pipe, is in `errors`."""
        if self.process.stdin and not self.process.stdin.closed:
            self.process.stdin.close()
        self.listener.join(WAIT)
        status = self.process.wait(WAIT)
        self.errors = self.process.stderr.read() if self.process.stderr else b""
        for stream in (self.process.stdout, self.process.stderr):
            if stream:
                stream.close()
        return status
