"""Random histories of several applications, each reply held against the model (model/), with actors that disturb the server.

A machine of hypothesis draws a start, limits and line after line; a running server must answer each as the model does. Then actors replay the history:
each application by itself, which must get the replies that it had among the others; killed in mid-stream; over outputs and inputs that fail; with little
memory. `pytest tests -k histories --hypothesis-profile long` runs for hours, with new cases each time.
"""
import contextlib
import functools
import os
import signal
import subprocess
import threading

from hypothesis import given, note, settings
from hypothesis import strategies as st
from hypothesis.stateful import RuleBasedStateMachine, initialize, rule, run_state_machine_as_test
from model import extended, files, lookups, texts
from model.server import Limits
from model.trees import gotten, is_printable, units_of
from support import histories, making
from support.files import OLDER
from support.making import sources
from support.program import MEGABYTE, Outcome, least_memory, limited, limited_output
from support.server import Server, line_of
from support.texts import big

MEMORY, TOO_MANY_APPS = b'{"error":"Memory"}\n', b'{"error":"TooManyApps"}\n'


def alone(machine, random):
    """Serves each application's lines by themselves, under the same limits with room for all applications. Except for lines that were refused for
    others' bundles and changed nothing, the replies are those that it had among the others."""
    limits = machine.history.limits.without_apps().arguments()
    for app in machine.history.apps:
        pairs = [pair for pair in machine.history.of_app(app) if pair[1] != TOO_MANY_APPS]
        done = machine.serve([line for line, _ in pairs], limits)
        machine.same([line for line, _ in pairs], [reply for _, reply in pairs], done.stdout)
        assert (done.status, done.stderr) == (0, b"")


def feed(process, source):
    """Writes an input to a process that may be gone."""
    with contextlib.suppress(OSError):
        process.stdin.write(source)
        process.stdin.close()


def interrupted(machine, random, end):
    """Reads some bytes of the replies, ends the server or the pipe, and returns what was written, the status and standard error."""
    process = subprocess.Popen([machine.resb.program, "serve", *machine.words()], cwd=machine.resb.folder, stdin=subprocess.PIPE, stdout=subprocess.PIPE,
                               stderr=subprocess.PIPE)
    feeder = threading.Thread(target=feed, args=(process, b"\n".join([*machine.history.lines, b""])))
    feeder.start()
    output = process.stdout.read(random.randrange(len(machine.output()) + 1)) + (end(process) or b"")
    feeder.join()
    errors, status = process.stderr.read(), process.wait()
    process.stdout.close()
    process.stderr.close()
    return output, status, errors


def killed(machine, random):
    output, _, _ = interrupted(machine, random, lambda process: process.kill() or process.stdout.read())
    assert machine.begins(output)


def closed_pipe(machine, random):
    output, *ended = interrupted(machine, random, lambda process: process.stdout.close())
    assert machine.begins(output) and tuple(ended) in ((0, b""), (1, b"Write\n"), (-signal.SIGPIPE, b""))


def full_device(machine, random):
    with open("/dev/full", "wb") as full:
        assert machine.serve(machine.history.lines, stdout=full) == Outcome(1, b"", b"Write\n")


def closed_output(machine, random):
    done = machine.serve(machine.history.lines, stdout=subprocess.DEVNULL, preexec_fn=lambda: os.close(1))
    assert done == Outcome(1, b"", b"Write\n")


def short_file(machine, random):
    """Serves to a file that takes some bytes: it has the beginning of the replies."""
    room, path = random.randrange(len(machine.output()) + 10), machine.resb.folder / "replies"
    with open(path, "wb") as output:
        done = machine.serve(machine.history.lines, stdout=output, preexec_fn=limited_output(room))
    is_whole = room >= len(machine.output())
    assert machine.begins(path.read_bytes()) and len(path.read_bytes()) == min(room, len(machine.output()))
    assert (done.status, done.stderr) == ((0, b"") if is_whole else (1, b"Write\n"))


def unreadable_input(machine, random):
    source = os.open(machine.resb.folder, os.O_RDONLY)
    done = machine.resb("serve", *machine.words(), stdin=source)
    os.close(source)
    assert done == Outcome(1, b"", b"Read\n")


def little_memory(machine, random):
    """Serves with little memory: each line is answered as by the model, or by `Memory` and changed nothing. Without --keep-serving, or if memory is
    out otherwise, `Memory` is reported after whole replies to the first lines."""
    history = machine.history
    limits = Limits(random.random() < 0.5, reply_bytes=history.limits.reply_bytes, steps=history.limits.steps)
    # 20 installs of 40,000 bytes come first
    server, request = machine.start.server(limits, history.is_extended), {"op": "install", "app": "big", "text": big(1500)}
    lines = [*(line_of({**request, "locale": f"xy_{i}"}) for i in range(20)), *history.lines]
    size = least_memory(machine.resb.program) + random.randrange(4 * MEGABYTE)
    done = machine.serve(lines, limits.arguments(), preexec_fn=limited(size))
    given = done.stdout.splitlines(keepends=True)
    assert limits.keep_serving or limits.is_any() or MEMORY not in given
    wanted = [MEMORY if reply == MEMORY else server.reply(line) for line, reply in zip(lines, given)]
    machine.same(lines, wanted, done.stdout)
    assert (done.status, done.stderr) == ((0, b"") if len(given) == len(lines) else (1, b"Memory\n"))


ACTORS = [alone, killed, closed_pipe, full_device, closed_output, short_file, unreadable_input, little_memory]


class Histories(RuleBasedStateMachine):
    """A server and the model, side by side."""

    def __init__(self, resb):
        super().__init__()
        self.resb, self.server, self.is_good = resb, None, True

    @initialize(random=sources, is_limited=st.booleans(), is_extended=st.booleans())
    def begin(self, random, is_limited, is_extended):
        self.start = histories.Start(random)
        self.files = self.start.arguments(self.resb)
        limits = histories.random_limits(random) if is_limited else Limits()
        self.history = (histories.ExtendedHistory if is_extended else histories.History)(random, self.start, limits)
        self.server = Server([self.resb.program, "serve", *self.words()], cwd=self.resb.folder)
        note(f"serve {' '.join(self.words())}")

    def words(self, limits=None):
        limits = self.history.limits.arguments() if limits is None else limits
        return [*self.files, *limits, *["--extended"] * self.history.is_extended]

    def serve(self, lines, limits=None, **options):
        return self.resb.serve(lines, *self.words(limits), **options)

    @rule(random=sources)
    def lines(self, random):
        """Sends a line, or several that belong together, one after the other."""
        first, self.history.random = len(self.history.lines), random
        self.history.add_random()
        for line, wanted in list(zip(self.history.lines, self.history.replies))[first:]:
            note(f"{line!r:.2000}")
            self.is_good = False
            self.same([line], [wanted], self.server.ask(line))
            self.is_good = True

    def same(self, lines, wanted, output):
        """Compares replies, of extended requests as far as the model is sure of them."""
        given = output.splitlines(keepends=True)
        for line, here, there in zip(lines, wanted, given):
            assert self.as_sure(here, there) == here, line
        assert len(given) == len(wanted)

    def as_sure(self, wanted, given):
        return extended.blurred(wanted, given) if self.history.is_extended else given

    def output(self):
        return b"".join(self.server.replies)

    def begins(self, output):
        return self.output().startswith(output)

    def teardown(self):
        if self.server is None:
            return
        status = self.server.end()
        if not self.is_good:
            return
        assert status == 0
        assert self.serve(self.history.lines) == Outcome(0, self.output(), b"")
        actors = [*[alone] * self.history.limits.is_any(), *self.history.random.sample(ACTORS, 2)]
        for actor in actors if self.history.lines else ():
            actor(self, self.history.random)


def test_histories(shared):
    steps = settings(max_examples=max(1, settings.default.max_examples // 2))
    run_state_machine_as_test(lambda: Histories(shared), settings=steps)


@making.times(2)
@given(sources)
def test_compiled_text(shared, random):
    """Compiles a text, damaged or not."""
    text = making.spelled(random, making.random_bundle(random))
    if random.random() < 0.7:
        text = making.damage_text(random, text.decode("utf-8")).encode("utf-8", "surrogatepass")
    if random.random() < 0.05:
        text = making.damage_line(random, text)
    source, target = shared.put("in.txt", text), shared.put("out.res", OLDER)
    done = shared("compile", source, target)
    try:
        wanted = files.write(texts.read(text))
    except texts.BadText as error:
        assert (done.status, done.stdout, shared.get(target)) == (1, b"", OLDER)
        assert error.word not in texts.LEXICAL or done.stderr.decode() == f"{source}:{error.line}: {error.word}\n"
        return
    assert done == Outcome(0, b"wrote %d bytes\n" % len(wanted), b"") and shared.get(target) == wanted


@making.times(2)
@given(sources)
def test_checked_file(shared, random):
    """Checks a file, damaged or not, and gets some of its items."""
    data = making.written(random, making.random_bundle(random))
    data = making.damage_file(random, data) if random.random() < 0.8 else data
    file = shared.put("in.res", data)
    done = shared("check", file)
    try:
        (tree, _), visits = files.read(data)
    except files.BadFile as error:
        assert done == Outcome(1, b"", f"{file}: {error}\n".encode()) and shared("get", file, "") == done
        return
    assert done == Outcome(0, b"ok, %d visits\n" % visits, b"")
    for _ in range(3):
        get_item(shared, random, file, tree)


def get_item(resb, random, file, tree):
    parts = making.random_path(random, tree, 0.8)
    asked = "/".join(parts) if random.random() < 0.8 else random.choice(making.PATHS)
    if not asked.startswith("-"):
        wanted, is_there = gotten(tree, asked)
        found = Outcome(0, f"{wanted}\n".encode()) if is_there else Outcome(1, b"", f"{asked}: {wanted}\n".encode())
        assert resb("get", file, asked) == found


def start_error(entries):
    """Returns the locale and the code with which a start is refused, or None."""
    for locale, is_text, content, _ in entries:
        try:
            texts.read(content) if is_text else files.read(content)
        except texts.BadText:
            return locale, "BadText"
        except files.BadFile:
            return locale, "BadFile"
    return None


@given(sources)
def test_damaged_start(shared, random):
    """Starts with a damaged file of ICUDATA."""
    start = histories.Start(random)
    for at, (locale, is_text, content, bundle) in list(enumerate(start.entries))[:1]:
        damaged = making.damage_text(random, content.decode()).encode("utf-8", "surrogatepass") if is_text else making.damage_file(random, content)
        start.entries[at] = locale, is_text, damaged, bundle
    words = start.arguments(shared)
    refused = start_error(start.entries)
    name = refused and next(word for word in words if word.startswith(refused[0] + "=")).partition("=")[2]
    assert shared.serve([], *words) == (Outcome(1, b"", f"{name}: {refused[1]}\n".encode()) if refused else Outcome(0))


@given(sources)
def test_odd_parents(shared, random):
    tree = making.random_table(random, 2)
    names = random.sample(making.LOCALES + making.BAD_LOCALES[:2], 4)
    values = [("array", [("string", units_of(random.choice(names)))] * random.choice((0, 1, 1, 2))), ("string", units_of(names[0])), making.random_leaf(random)]
    tree[1]["parentLocales"] = "table", {name: random.choice(values) for name in sorted(filter(is_printable, names)) if name}
    if random.random() < 0.2:
        tree[1]["parentLocales"] = making.random_item(random, 1)
    text = making.spelled(random, (("table", dict(sorted(tree[1].items()))), False))
    path = shared.put("any-parents.txt", text)
    try:
        lookups.parents_of(texts.read(text)[0])
        wanted = Outcome(0)
    except lookups.Refused as refused:
        wanted = Outcome(1, b"", f"{path}: {refused}\n".encode())
    assert shared.serve([], "--parents", path) == wanted


@functools.lru_cache
def big_files():
    text = big(20000).encode()
    return text, files.write(texts.read(text))


@making.times(0.3)
@given(sources)
def test_little_memory_for_files(shared, random):
    (text, data), least = big_files(), least_memory(shared.program)
    source, target = shared.put("big.txt", text), shared.put("big.res", OLDER)
    done = shared("compile", source, target, preexec_fn=limited(least + random.randrange(24 * MEGABYTE)))
    found = done.status, done.stderr, shared.get(target)
    assert found in ((0, b"", data), (1, f"{source}:0: Memory\n".encode(), OLDER))
    path = shared.put("big.res", data)
    done = shared("check", path, preexec_fn=limited(least + random.randrange(4 * MEGABYTE)))
    assert done in (Outcome(0, b"ok, 1 visits\n"), Outcome(1, b"", f"{path}: Memory\n".encode()))
