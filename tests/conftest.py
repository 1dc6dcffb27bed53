"""Common ground of the tests: the program, a folder for each test, skips with a reason, and what a failed test prints.

`pytest tests -k NAME` runs single tests, `-m hand` those that take minutes, and `--hypothesis-profile long` draws new random cases and more
of them. RESB_PROGRAM or `--program` names another program than the built one of this checkout.
"""
import collections
import os
import re
import shlex
import sys

import hypothesis
import pytest

sys.path.insert(0, os.path.dirname(os.path.abspath(__file__)))
pytest.register_assert_rewrite("support")

from support.program import PROGRAM, TOP, Commands, Resb  # noqa: E402

LONG = 50_000  # characters of two values
CALM = {"deadline": None, "suppress_health_check": list(hypothesis.HealthCheck), "print_blob": True}
hypothesis.settings.register_profile("gate", derandomize=True, database=None, max_examples=100, **CALM)
hypothesis.settings.register_profile("smoke", derandomize=True, database=None, max_examples=5, phases=[hypothesis.Phase.generate], **CALM)
hypothesis.settings.register_profile("long", max_examples=10000, stateful_step_count=100, **CALM)
hypothesis.settings.load_profile("gate")


def pytest_configure(config):
    """Names the program for tests that look it up themselves."""
    os.environ["RESB_PROGRAM"] = os.environ["RESB"] = os.path.abspath(config.getoption("--program"))


def pytest_addoption(parser):
    parser.addoption("--program", default=os.environ.get("RESB_PROGRAM", PROGRAM), help="the program that is tested")
    parser.addoption("--beside", help="another build, which must answer alike")


@pytest.fixture(scope="session")
def program(request):
    path = os.path.abspath(request.config.getoption("--program"))
    if not os.access(path, os.X_OK):
        pytest.skip(f"{os.path.relpath(path, TOP)} isn't built")
    return path


@pytest.fixture
def resb(program, tmp_path):
    return Resb(program, tmp_path)


@pytest.fixture(scope="module")
def shared(program, tmp_path_factory):
    """The program in a folder that the tests of a file share, such as for random cases, which overwrite their files."""
    return Resb(program, tmp_path_factory.mktemp("shared"))


def pytest_collection_modifyitems(config, items):
    """Leaves out what runs only by hand, unless `-m` or a test's full name asks for it."""
    if "hand" not in (config.getoption("-m") or "") and not any("::" in word for word in config.args):
        items[:] = [item for item in items if not item.get_closest_marker("hand")]


@pytest.hookimpl(hookwrapper=True)
def pytest_runtest_call(item):
    """Lets assertions print whole differences, as by `-vv`, though passed tests print a dot."""
    quiet, item.config.option.verbose = item.config.option.verbose, 2
    yield
    item.config.option.verbose = quiet


def pytest_assertrepr_compare(op, left, right):
    """Shows of long values only where they begin to differ, as the whole difference takes minutes to find."""
    one, other = repr(left), repr(right)
    if op != "==" or len(one) + len(other) < LONG:
        return None
    at = len(os.path.commonprefix([one, other]))
    around = slice(max(0, at - 200), at + 200)
    return [f"values of {len(one)} and {len(other)} characters that differ at {at}:", f"  ..{one[around]}..", f"  ..{other[around]}.."]


@pytest.hookimpl(hookwrapper=True)
def pytest_runtest_makereport(item):
    """Adds the last commands of a failed test and how to run it alone."""
    report = (yield).get_result()
    if report.failed:
        lines = [f"command: {line}" for line in Commands.last]
        report.sections.append(("the last commands", "\n".join([*lines, f"alone:   pytest {shlex.quote('tests/' + item.nodeid)}"])))


@pytest.fixture(autouse=True)
def _fresh_commands():
    Commands.last = []


def pytest_terminal_summary(terminalreporter):
    """Prints a line with its time for each file of tests, and counts the skipped tests by their reasons."""
    parts, reasons = collections.defaultdict(lambda: [0.0, 0, 0]), collections.Counter()
    for kind in ("passed", "failed", "error", "skipped", ""):
        for report in terminalreporter.stats.get(kind, []):
            name = re.sub(r".*?test_(\w+)\.py.*", r"\1", report.nodeid)
            is_whole = kind == "skipped" or getattr(report, "when", "call") == "call"
            parts[name] = [one + more for one, more in zip(parts[name], (getattr(report, "duration", 0), is_whole, kind in ("failed", "error")))]
            if kind == "skipped":
                reasons[f"{name}: {report.longrepr[2].removeprefix('Skipped: ')}"] += 1
    for name, (seconds, count, failed) in sorted(parts.items()):
        words = f"{name}: {count} tests" + f", {failed} failed" * bool(failed)
        terminalreporter.write_line(f"{'FAILED' if failed else 'ok    '}  {seconds:5.0f} s  {words}")
    for reason, count in sorted(reasons.items()):
        terminalreporter.write_line(f"skipped {count:5}    {reason}")
