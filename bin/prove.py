#!/usr/bin/env python3
"""Proves the libraries below a program, several at a time, then the program, and builds it.

usage: prove.py CRATE JOBS   in the crate's folder
       prove.py --can        ends with status 0 if the toolchain on the PATH has the functions that this needs

Builds each library as `rt all check` does, by the toolchain's own functions, but without the pass over all sources that comes first there:
it proves nothing and takes 90 s and 8 GB. Begins with the crates that have the longest chain of others above them; no job waits for a
crate below its own.

Writes what the toolchain says to standard output, and the progress to standard error. Ends with status 1 if a crate isn't proved.
"""
import importlib.machinery
import importlib.util
import os
import shutil
import subprocess
import sys
import tempfile
import time
from concurrent.futures import FIRST_COMPLETED, ThreadPoolExecutor, wait

# Seconds of one core for a line of a crate, and for a line of those below it, which are read again; only the ratio counts.
OWN, BELOW = 0.085, 0.005


def toolchain():
    """Returns the toolchain's modules: `rt`, and the library that it uses."""
    loader = importlib.machinery.SourceFileLoader("rt", os.path.realpath(shutil.which("rt")))
    rt = importlib.util.module_from_spec(importlib.util.spec_from_loader("rt", loader))
    sys.modules["rt"] = rt
    loader.exec_module(rt)
    return rt, rt.rtlib


def can_prove():
    try:
        rt, rtlib = toolchain()
    except (Exception, SystemExit):  # another `rt` can fail in any way
        return False
    return all(hasattr(rtlib.Crate, name) for name in ("below", "build_rlib", "count", "is_built"))


class Plan:
    """The crates of a build, with their expected costs and what is above each."""

    def __init__(self, program):
        self.crates = [*program.below(), program]
        lines = {crate: crate.count(rb"\n") for crate in self.crates}
        self.cost = {crate: OWN * lines[crate] + BELOW * sum(lines[it] for it in crate.below()) for crate in self.crates}
        self.chain = {}  # the cost of the longest chain from each crate up
        for crate in reversed(self.crates):
            above = (self.chain[it] for it in self.crates if crate in it.deps)
            self.chain[crate] = self.cost[crate] + max(above, default=0)

    def ready(self, done, taken):
        """Returns the crates that can begin, those with the longest chain first."""
        ready = [it for it in self.crates if it not in taken and all(dep in done for dep in it.deps)]
        return sorted(ready, key=self.chain.get, reverse=True)

    def remaining(self, done, running, jobs):
        """Returns the seconds that the rest takes on `jobs` cores at the expected speed, given what each running crate still costs."""
        done, running, now = set(done), dict(running), 0.0
        while running or len(done) < len(self.crates):
            taken = done | set(running)
            for crate in self.ready(done, taken)[: jobs - len(running)]:
                running[crate] = self.cost[crate]
            crate, left = min(running.items(), key=lambda item: item[1])
            now += left
            running = {it: cost - left for it, cost in running.items() if it is not crate}
            done.add(crate)
        return now


class Progress:
    """Reports to standard error how far a build is, on a terminal in one line."""

    def __init__(self, plan, jobs):
        self.plan, self.jobs, self.began = plan, jobs, time.monotonic()
        self.measured = self.expected = 0.0  # seconds that crates took, and that they cost in the plan
        self.is_terminal = sys.stderr.isatty()

    def note(self, crate, seconds):
        self.measured += seconds
        self.expected += self.plan.cost[crate]

    def left(self, done, running):
        """Returns the minutes that are left, from the speed so far."""
        now = time.monotonic()
        slowness = self.measured / self.expected if self.expected else 1.0
        rest = {it: max(self.plan.cost[it] - (now - start) / slowness, 0.1 * self.plan.cost[it]) for it, start in running.items()}
        return self.plan.remaining(done, rest, self.jobs) * slowness / 60

    def report(self, done, running):
        seconds = int(time.monotonic() - self.began)
        names = ", ".join(it.name for it in running) or "nothing"
        line = f"{seconds // 60}:{seconds % 60:02}: {len(done)} of {len(self.plan.crates)} crates proved, at work on {names}"
        if self.expected:
            line += f"; about {self.left(done, running):.0f} min left"
        if self.is_terminal:
            width = shutil.get_terminal_size().columns - 7
            print(f"\r\033[Kresb: {line[:width]}", end="", file=sys.stderr, flush=True)
        else:
            print(f"resb: {line}", file=sys.stderr, flush=True)

    def end(self):
        if self.is_terminal:
            print("\r\033[K", end="", file=sys.stderr, flush=True)


def prove_library(crate):
    """Builds a library over those below it. Returns whether it is proved, and what the toolchain said."""
    with tempfile.TemporaryFile("w+", errors="replace") as crate.out:
        try:
            os.makedirs(f"{crate.folder}/out", exist_ok=True)
            status = crate.build_rlib(["--jobs", "1"], anew=False)
        except SystemExit:
            status = 1
        crate.out.seek(0)
        return not status, crate.out.read()


def build_program(crate):
    """Proves the program and builds it, all libraries being built. Returns as `prove_library` does."""
    run = subprocess.run(["rt", "run", "--jobs", "1", "--", "--version"], cwd=crate.folder, env={**os.environ, "RT_BACKEND": "llvm"},
                         stdin=subprocess.DEVNULL, stdout=subprocess.PIPE, stderr=subprocess.STDOUT, errors="replace")
    return not run.returncode, run.stdout


def prove_all(plan, jobs, prove):
    """Proves the crates of a plan by `prove`, and returns whether all are. After a failure no further one begins."""
    progress, done, running, is_well = Progress(plan, jobs), set(), {}, True
    with ThreadPoolExecutor(jobs) as pool:
        while is_well and len(done) < len(plan.crates) or running:
            taken = done | {crate for crate, _ in running.values()}
            for crate in plan.ready(done, taken)[: jobs - len(running)] if is_well else []:
                running[pool.submit(prove, crate)] = crate, time.monotonic()
            progress.report(done, dict(running.values()))
            for future in wait(running, timeout=60, return_when=FIRST_COMPLETED).done:
                crate, start = running.pop(future)
                is_proved, said = future.result()
                print(f"== {crate.name}\n{said}", end="", flush=True)
                is_well = is_well and is_proved
                done.add(crate)
                progress.note(crate, time.monotonic() - start)
    progress.end()
    return is_well


def main(name, jobs):
    rt, rtlib = toolchain()
    rtlib.guarded()  # its first call sets a handler of a signal, which only this thread may
    if hasattr(rt, "share_work"):
        rt.share_work(True)
    program = next(it for it in rtlib.crates_below(os.getcwd()) if it.name == name)
    plan = Plan(program)
    held = rtlib.lock(program.below())
    for crate in program.below():
        rtlib.stop_on_links(crate.folder)
        rtlib.stop_on_unread(crate.folder, program.below())
        rtlib.stop_on_text(crate, "check")

    def prove(crate):
        if crate is not program:
            return prove_library(crate)
        for lock in held:  # `rt run` takes them itself
            os.close(lock)
        return build_program(crate)

    return int(not prove_all(plan, jobs, prove))


if __name__ == "__main__":
    sys.exit(int(not can_prove()) if sys.argv[1:] == ["--can"] else main(sys.argv[1], int(sys.argv[2])))
