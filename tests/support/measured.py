"""Processor time and peak memory of commands."""
import os
import subprocess
import sys
from collections.abc import Sequence
from typing import NamedTuple

# Runs in a separate interpreter, as a child's peak memory is at least that of the process that starts it. Reads a command a line, its words separated
# by NULs.
MEASURE = """
import os, sys
seconds = memory = status = 0
for line in sys.stdin.buffer.read().split(b"\\n\\n"):
    words = line.split(b"\\0")
    pid = os.posix_spawn(words[0], words, os.environ, file_actions=[
        (os.POSIX_SPAWN_OPEN, 0, sys.argv[1], os.O_RDONLY, 0)] + [(os.POSIX_SPAWN_OPEN, out, os.devnull, os.O_WRONLY, 0) for out in (1, 2)])
    _, ended, used = os.wait4(pid, 0)
    seconds += used.ru_utime + used.ru_stime
    memory = max(memory, used.ru_maxrss / 1024)
    status = status or os.waitstatus_to_exitcode(ended)
print(seconds, memory, status)
"""


class Measured(NamedTuple):
    """Seconds of processor time, peak memory in MB (no less than some 10, the measuring interpreter's own), and the status."""

    seconds: float
    memory: float
    status: int


def measured(*commands: Sequence[object], source: object = os.devnull) -> Measured:
    """Measures commands, one after the other, with a file as their standard input: the sum of their times, and the most memory of one."""
    lines = b"\n\n".join(b"\0".join(os.fsencode(str(word)) for word in words) for words in commands)
    found = subprocess.run([sys.executable, "-S", "-c", MEASURE, str(source)], input=lines, check=True, stdout=subprocess.PIPE)
    seconds, memory, status = found.stdout.split()
    return Measured(float(seconds), float(memory), int(status))
