"""`resb lint` reads messages beside ICU's MessageFormat, by PyICU (Debian's python3-icu): 10,000 patterns, written by hand, joined at random and mutated.

Each pattern comes after an argument with a type, so that lint takes it as a message: without one it says nothing of a string that may be something
else. Lint parses the patterns and doesn't look into the styles of numbers; MessageFormat makes formatters of them. A style of numbers explains
a difference if MessageFormat accepts the pattern with dates in place of numbers, for which it takes any style.
"""
import json
import re

import pytest
from hypothesis import given
from model.trees import units_of
from support import making
from support.program import TOP

AT_ONCE, BEFORE = 1000, "{t, number}"
# patterns, and pieces of which others are joined
WRITTEN, PIECES = json.loads((TOP / "tests" / "messages.json").read_text(encoding="utf-8")).values()


def error_of(icu, pattern):
    try:
        icu.MessageFormat(pattern, icu.Locale("en"))
    except icu.ICUError as error:
        return f"error {error.args[0]}"
    return None


def mutated(dice, pattern):
    for _ in range(dice.choice((1, 1, 1, 2, 3, 5))):
        first = dice.randint(0, len(pattern))
        past = min(len(pattern), first + dice.choice((0, 0, 1, 1, 2, 5)))
        other = dice.choice(("", dice.choice(PIECES), dice.choice(PIECES), dice.choice(WRITTEN), pattern[first:past] * 2))
        pattern = pattern[:first] + other + pattern[past:]
    return pattern


def patterns(dice):
    made = list(WRITTEN)
    while len(made) < AT_ONCE:
        is_joined = dice.random() < 0.25
        made.append("".join(dice.choices(PIECES, k=dice.randint(1, 12))) if is_joined else mutated(dice, dice.choice(WRITTEN)))
    return [BEFORE + pattern for pattern in made]


def escaped(pattern):
    """Returns a pattern as a quoted text of a bundle."""
    return "".join(chr(code) if 0x20 <= code < 0x7F and chr(code) not in '"\\' else f"\\u{code:04x}" for code in units_of(pattern))


def rejected(resb, made):
    text = "root {\n" + "".join(f'k{at:06} {{ "{escaped(pattern)}" }}\n' for at, pattern in enumerate(made)) + "}\n"
    found = [json.loads(line) for line in resb.output("lint", "--all", "--format", "json", resb.put("root.txt", text)).splitlines()]
    assert "error" not in {finding["severity"] for finding in found}
    return {finding["line"] - 2 for finding in found if finding["rule"] in ("bad-message", "missing-other")}


@making.times(0.1)
@given(making.sources)
def test_patterns(shared, dice):
    icu, made = pytest.importorskip("icu", reason="python3-icu is missing"), patterns(dice)
    ours = rejected(shared, made)
    for at, pattern in enumerate(made):
        error = error_of(icu, pattern)
        without_styles = re.sub("number", "date", pattern, flags=re.IGNORECASE)
        assert (at in ours) == (error is not None) or at not in ours and error_of(icu, without_styles) is None, (pattern, error)
