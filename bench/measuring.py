"""Measures cases: a case has a command of resb, at times a peer, and goals. One runner alternates the two; figures are stored as JSON."""
import datetime
import json
import os
import pathlib
import platform
import re
import shutil
import statistics
import sys
from collections.abc import Callable, Iterable, Iterator, Sequence
from typing import Any, NamedTuple

sys.path.insert(0, str(pathlib.Path(__file__).resolve().parent.parent / "tests"))

from support.measured import measured  # noqa: E402
from support.program import TOP, run  # noqa: E402

FOLDER = TOP / "bench" / "figures"
RUNS, LONG, MB = 5, 5, 1e6


class Goal(NamedTuple):
    """A bound of a case's figures, of their ratio to the peer's ("time": ours over the peer's, "speed": the inverse), or of memory: in MB, beside the
    peer's ("memory") or beside the input ("times")."""

    of: str
    bound: float
    is_least: bool = False


class Case(NamedTuple):
    """A measured case: a call that returns a figure in the unit, the peer's, and commands whose peak memory counts."""

    table: str
    name: str
    ours: Callable[[], float]
    peer: Callable[[], float] | None = None
    of: str = ""
    unit: str = "s"
    goals: Sequence[Goal] = ()
    memory: Sequence[Sequence[object]] = ()
    size: int = 0
    runs: int = RUNS


class Spread(NamedTuple):
    """The middle, the minimum and the maximum of a figure in some runs."""

    middle: float
    least: float
    greatest: float

    def __str__(self) -> str:
        if self.least == self.greatest:
            return figure(self.middle)
        return f"{figure(self.middle)} ({figure(self.least)} to {figure(self.greatest)})"


def figure(number: float) -> str:
    """Returns a number with two or three digits that count."""
    if number == int(number):
        return f"{number:.0f}"
    return f"{number:.{0 if number >= 100 else 1 if number >= 10 else 2 if number >= 0.1 else 4}f}"


def spread(figures: Sequence[float]) -> Spread:
    return Spread(statistics.median(figures), min(figures), max(figures))


def ratio(ours: Sequence[float], theirs: Sequence[float]) -> Spread:
    """Returns ours over theirs: that of the medians, and the minimum and maximum of one run."""
    runs = [our / max(their, 1e-6) for our, their in zip(ours, theirs)]
    return Spread(statistics.median(ours) / max(statistics.median(theirs), 1e-6), min(runs), max(runs))


def seconds(words: Sequence[object], source: object = os.devnull, status: int = 0) -> float:
    found = measured(words, source=source)
    if found.status != status:
        raise SystemExit(f"{' '.join(map(str, words))[:200]}: status {found.status}")
    return found.seconds


def row_of(case: Case) -> dict[str, Any]:
    ours: list[float] = []
    theirs: list[float] = []
    while len(ours) < case.runs and (case.unit != "s" or not ours or max(ours) < LONG):
        ours.append(case.ours())
        theirs += [case.peer()] if case.peer else []
    memory = [measured(words).memory for words in case.memory]
    goals = [list(goal) for goal in case.goals]
    told = {"table": case.table, "case": case.name, "unit": case.unit, "ours": ours, "peer": theirs, "of": case.of, "MB": memory, "bytes": case.size, "goals": goals}
    return {name: value for name, value in told.items() if value}


def reached(row: dict[str, Any], goal: Goal) -> Spread:
    if goal.of in ("memory", "times", "MB"):
        beside = {"memory": row["MB"][-1], "times": row.get("bytes", 1) / MB, "MB": 1}[goal.of]
        return spread([row["MB"][0] / beside])
    return {"time": lambda: ratio(row["ours"], row["peer"]), "speed": lambda: ratio(row["peer"], row["ours"])}.get(goal.of, lambda: spread(row["ours"]))()


def goals_of(row: dict[str, Any]) -> Iterator[tuple[str, str, Spread, bool]]:
    """Yields each goal of a row that could be measured: its name, the bound, the figure, and whether it holds."""
    for goal in (Goal(*given) for given in row.get("goals", ())):
        if goal.of in ("time", "speed", "memory") and "peer" not in row:
            continue
        found = reached(row, goal)
        holds = found.middle >= goal.bound if goal.is_least else found.middle <= goal.bound
        what = {"memory": "memory of ", "times": "memory over the input of ", "MB": "MB of memory of ", "time": "time of ", "speed": "speed of "}
        name = what.get(goal.of, row["unit"] + " of ") + row["case"]
        beside = f" beside {row['of']}" if goal.of in ("time", "speed", "memory") else ""
        yield name + beside, f"at {'least' if goal.is_least else 'most'} {goal.bound:g}", found, holds


def line(row: dict[str, Any]) -> str:
    said = f"{row['table']}: {row['case']}: {spread(row['ours'])} {row['unit']}"
    if "peer" in row:
        said += f"; {row['of']} {spread(row['peer'])}; over it {ratio(row['ours'], row['peer'])}"
    if "MB" in row:
        said += f"; {', '.join(f'{most:.1f}' for most in row['MB'])} MB of memory"
    return said + "".join(f"; {name}, {asked}: {'holds' if holds else 'NOT REACHED'}" for name, asked, _, holds in goals_of(row))


def measure(cases: Iterable[Case], words: Sequence[str]) -> list[dict[str, Any]]:
    rows = []
    for case in cases:
        if not words or any(word in f"{case.table}: {case.name}" for word in words):
            rows.append(row_of(case))
            print(line(rows[-1]), flush=True)
    return rows


def machine() -> dict[str, Any]:
    found = re.search(r"^model name\s*: (.*)$", pathlib.Path("/proc/cpuinfo").read_text(errors="replace"), flags=re.M)
    processor = found[1] if found else platform.processor()
    return {"machine": platform.machine(), "processor": processor, "cores": os.cpu_count(), "load": round(os.getloadavg()[0], 1)}


def versions(program: str) -> dict[str, str]:
    """Returns those of the program and of ICU's tools, as they print them."""
    commands = {"resb": program, "ICU": shutil.which("genrb")}
    found = {name: b"".join(run([path, "--version"])[1:]) for name, path in commands.items() if path}
    return {name: re.findall(r"[\d.]*\d", text.decode().partition("\n")[0])[-1] for name, text in found.items()}


def rounded(value: Any) -> Any:
    """Returns figures with six digits that count."""
    return json.loads(json.dumps(value), parse_float=lambda number: float(f"{float(number):.6g}"))


def store(table: str, program: str, rows: list[dict[str, Any]]) -> None:
    date = datetime.datetime.now(datetime.timezone.utc).strftime("%Y-%m-%d")
    head = json.dumps({"date": date, "machine": machine(), "versions": versions(program)})
    body = ",\n".join(" " + json.dumps(rounded(row)) for row in rows)
    (FOLDER / f"{table}.json").write_text(f'{head[:-1]}, "rows": [\n{body}\n]}}\n', encoding="utf-8")


def stored(table: str) -> dict[str, Any] | None:
    path = FOLDER / f"{table}.json"
    return json.loads(path.read_text(encoding="utf-8")) if path.exists() else None
