"""Pages: their commands with what they print, their headings and their links."""
import os
import pathlib
import re
import subprocess
from collections.abc import Iterator, Sequence
from typing import Any

from support.program import TOP, WAIT

MARK = "-- the end of a command --"
# a command of a page: its line, its text, and the lines that it should print
Command = tuple[int, str, list[str]]


def text_of(*names: object) -> str:
    """Returns the texts of some files, one after the other; names are relative to the top."""
    return "".join((TOP / str(name)).read_text(encoding="utf-8") for name in sorted(map(str, names)))


PAGES = sorted(str(page.relative_to(TOP)) for place in ("*.md", "*/*.md", "*/*/*.md") for page in TOP.glob(place))


def outside_blocks(page: object) -> str:
    return re.sub(r"^```.*?^```", "", text_of(page), flags=re.M | re.S)


def anchors(page: object) -> set[str]:
    """Returns the names of a page's headings in links."""
    headings = re.findall(r"^#+ (.*)$", outside_blocks(page), flags=re.M)
    return {re.sub(r"[^\w\- ]", "", heading.strip().lower()).replace(" ", "-") for heading in headings}


def bad_links(page: object, folder: object = "/") -> Iterator[str]:
    """Yields the relative links of a page that lead out of a folder or nowhere."""
    for link in re.findall(r"\]\(([^)\s]+)\)", text_of(page)):
        file, _, heading = link.partition("#")
        target = pathlib.Path(os.path.realpath(TOP / str(page))).parent / file if file else TOP / str(page)
        if not re.match(r"[a-z]+:", link):
            is_inside = pathlib.Path(os.path.realpath(target)).is_relative_to(os.path.realpath(str(folder)))
            if not is_inside or not target.exists() or heading and heading not in anchors(target):
                yield link


def blocks(page: str) -> Iterator[tuple[str, int, list[str]]]:
    """Yields the fenced blocks of a page: what follows the fence on its line, the number of the line after it, and its lines."""
    for found in re.finditer(r"^```(.*)\n((?:.*\n)*?)```$", page, flags=re.M):
        yield found[1].strip(), page[:found.start(2)].count("\n") + 1, found[2].splitlines()


def commands(first: int, lines: Sequence[str]) -> list[Command]:
    """Returns the commands of a block: a line that begins with `$ ` is one, lines after it that begin with `> ` are more of it."""
    found: list[Any] = []
    for number, line in enumerate(lines, first):
        if line.startswith("$ "):
            found.append((number, line[2:], []))
        elif line.startswith("> ") and not found[-1][2]:
            found[-1] = (found[-1][0], f"{found[-1][1]}\n{line[2:]}", [])
        else:
            assert found, f"line {number}: a block begins with something else than a command"
            found[-1][2].append(line)
    return found


def inline(page: object, start: str) -> str:
    """Returns the first command between backticks on a page that begins with a text."""
    return next(found for found in re.findall(r"`([^`\n]+)`", text_of(page)) if found.startswith(start))


def indented(page: str) -> list[Command]:
    """Returns the commands of a page's indented blocks, such as README.md's, after one that makes the files of sentences with "`FILE` is `TEXT`". Lines
    that begin with `{"op"` after `resb serve` are its input."""
    files = re.findall(r"`(\w+\.txt)` is `([^`]+)`", page)
    found: list[Any] = [(0, "\n".join(f"printf '%s\\n' '{text}' > {name}" for name, text in files) or ":", [])]
    is_shown = False  # whether the lines are of a block with a command
    for number, line in enumerate(page.splitlines(), 1):
        at, command, wanted = found[-1]
        if line.startswith("    $ "):
            is_shown = True
            found.append((number, line[6:], []))
        elif line.startswith('    {"op"') and command.startswith("resb serve"):
            end = "" if "<<" in command else " <<'END'"
            found[-1] = at, command.removesuffix("\nEND") + f"{end}\n{line[4:]}\nEND", wanted
        elif not line.startswith("    "):
            is_shown = False
        elif is_shown:
            wanted.append(line[4:])
    return found


def script_of(asked: Sequence[Command]) -> str:
    """Returns a script of commands, with a mark after what each prints."""
    return "".join(f"{command}\nstatus_of_it=$?\nprintf '%s\\n' '{MARK}'\n(exit $status_of_it)\n" for _, command, _ in asked)


def output_of(script: str, *before: object, **options: Any) -> str:
    """Returns what a shell prints of a script on both streams; `before` are words in front of the shell's."""
    words = [*map(str, before), "/bin/sh", "-c", script]
    done = subprocess.run(words, stdin=subprocess.DEVNULL, stdout=subprocess.PIPE, stderr=subprocess.STDOUT, timeout=WAIT, check=False, **options)
    return done.stdout.decode("utf-8", "replace")


def differences(name: str, asked: Sequence[Command], output: str) -> list[str]:
    """Returns where the output of a script is something else than the page says."""
    answers = [part.splitlines() for part in output.split(MARK + "\n")[:-1]]
    wrong = []
    for at, (number, command, wanted) in enumerate(asked):
        answer = answers[at] if at < len(answers) else ["(nothing: the shell ended)"]
        if answer != wanted:
            lines = [*(f"  written: {line}" for line in wanted), *(f"  printed: {line}" for line in answer)]
            wrong.append("\n".join([f"{name}:{number}: $ {command}", *lines]))
    return wrong
