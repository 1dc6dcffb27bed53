"""`resb lint` finds mistakes that people make, and says nothing of good texts.

A mistake is an edit of a text written by hand (support/mistakes.py), or one character removed from a text, chosen by a fixed seed. Good texts are
translations of that text, the texts of examples/project, and texts laid out in the styles of support/layouts.py; by hand also all of CLDR, and what
compiles of the folder `source` of ICU's source, which ICU_SOURCE names, and has no warning about a brace.
"""
import os
import pathlib
import random
import re

import pytest
from support import icu, layouts, mistakes
from support.program import TOP, Skipped

SEED, NEAR, FIRST_NEAR, FIRST = 27, 2, 1, 50
# of the mistakes in the text of a shop: how many may pass in silence, and how many first warnings are near, and in the mistake itself
SHOP_SILENT, SHOP_FIRST, SHOP_COLUMN = 1, 34, 34
# how many of 60 removed characters must be found in CLDR's de.txt, and of 4 in a small text
FOUND = {'"': (60, 3), "{": (47, 3), "}": (48, 3)}
LOCALES = ("ar", "de", "de_AT", "en_GB", "es", "fr", "ja", "pt", "ru", "th", "zh", "zh_Hant")
# the plural categories of the languages that have others than German
PLURALS = {"ar": "zero one two few many other", "ru": "one few many other", "ja": "other", "th": "other", "zh": "other"}
PROJECT = sorted((TOP / "examples" / "project" / "texts").glob("*/*.txt"))
SOURCES = ("test/testdata", "samples/uresb", "samples/ufortune/resources", "extra/uconv/resources")
SMALL = (TOP / "tests" / "lint" / "small.txt").read_text(encoding="utf-8")


def lint_places(resb, path, *options):
    """Returns the lines and the columns that lint names of a text, in warnings and in the error, in the order of the output."""
    done = resb("lint", *options, path)
    found = re.findall(r"^%s:(\d+):(\d+): " % re.escape(str(path)), (done.stdout + done.stderr).decode("utf-8", "replace"), flags=re.M)
    return [(int(line), int(column)) for line, column in found]


def lint_lines(resb, path, *options):
    return [line for line, _ in lint_places(resb, path, *options)]


def planted(resb, kinds):
    """Returns the names of the mistakes that pass in silence, and of those whose first line is too far."""
    root, silent, far = resb.put("root.txt", mistakes.ROOT), [], []
    for name, text, line in mistakes.planted(kinds):
        lines = lint_lines(resb, resb.put("de.txt", text), "--against", root)
        silent += [name] * (not lines)
        far += [name] * (bool(lines) and abs(lines[0] - line) > FIRST_NEAR)
    return silent, far


def test_mistakes_by_hand(resb):
    silent, far = planted(resb, mistakes.MISTAKES)
    assert not silent and len(mistakes.MISTAKES) - len(far) >= FIRST, (silent, far)


def test_mistakes_in_messages(resb):
    assert planted(resb, mistakes.MESSAGE_MISTAKES)[0] == []


def test_mistakes_of_translators(resb):
    """The line and the column of the first warning about each mistake in the text of a shop, which has none itself."""
    root = resb.put("root.txt", mistakes.SHOP_ROOT)
    assert lint_lines(resb, resb.put("de.txt", mistakes.SHOP), "--against", root) == []
    silent, far, beside = [], [], []
    for name, text, line, first, past in mistakes.planted_in_shop():
        places = lint_places(resb, resb.put("de.txt", text), "--against", root)
        silent += [name] * (not places)
        far += [name] * (bool(places) and abs(places[0][0] - line) > FIRST_NEAR)
        beside += [name] * (bool(places) and not (places[0][0] == line and first <= places[0][1] <= past))
    count = len(mistakes.SHOP_MISTAKES) - len(silent)
    assert len(silent) <= SHOP_SILENT and count - len(far) >= SHOP_FIRST and count - len(beside) >= SHOP_COLUMN, (silent, far, beside)


def found(resb, text, character, count):
    """Returns of how many removed characters a line is named within NEAR lines, and how many were removed."""
    places = [match.start() for match in re.finditer(re.escape(character), text)]
    chosen = sorted(random.Random(SEED).sample(places, min(count, len(places))))
    hits = 0
    for place in chosen:
        line = text.count("\n", 0, place) + 1
        hits += any(abs(other - line) <= NEAR for other in lint_lines(resb, resb.put("de.txt", text[:place] + text[place + 1:])))
    return hits, len(chosen)


@pytest.mark.parametrize("character", FOUND)
def test_removed_characters(resb, character):
    hits, count = found(resb, SMALL, character, 4)
    assert hits >= FOUND[character][1] and count == 4


@pytest.mark.parametrize("locale", LOCALES)
def test_good_translation(resb, locale):
    """A good text beside its root's. A locale that inherits has only some keys."""
    plurals = " ".join(f"{category} {{#}}" for category in PLURALS.get(locale, "one other").split())
    text = mistakes.TEXT.replace("de {", f"{locale} {{", 1).replace("one {# Datei} other {# Dateien}", plurals)
    if "_" in locale:
        text = f'{locale} {{\n    title {{ "{locale}" }}\n    menu {{ open {{ "Öffnen" }} }}\n}}\n'
    assert lint_lines(resb, resb.put(f"{locale}.txt", text), "--against", resb.put("root.txt", mistakes.ROOT)) == []


@pytest.mark.parametrize("path", PROJECT, ids=lambda path: f"{path.parent.name}-{path.stem}")
def test_project(resb, path):
    """The texts of examples/project beside their roots; shop/el.txt lacks two strings on purpose."""
    is_incomplete = (path.parent.name, path.name) == ("shop", "el.txt")
    assert bool(lint_lines(resb, path, "--against", path.parent / "root.txt")) == is_incomplete


@pytest.mark.parametrize("style", layouts.STYLES)
def test_layout(resb, style):
    assert lint_lines(resb, resb.put("de.txt", layouts.laid_out(SMALL)[style])) == []


@pytest.mark.hand
def test_cldr(resb, tmp_path):
    """One character removed from CLDR's de.txt, and every 30th of its texts in all styles."""
    texts = icu.texts(icu.package(tmp_path), tmp_path)
    german = next(path for path in texts if path.name == "de.txt").read_text(encoding="utf-8")
    for character, (bound, _) in FOUND.items():
        assert found(resb, german, character, 60)[0] >= bound
    for path in texts[::30]:
        for text in layouts.laid_out(path.read_text(encoding="utf-8")).values():
            assert lint_lines(resb, resb.put(path.name, text)) == []


@pytest.mark.hand
def test_source_of_icu(resb):
    if "ICU_SOURCE" not in os.environ:
        raise Skipped("ICU_SOURCE doesn't name the folder `source` of ICU's source")
    for path in (path for name in SOURCES for path in sorted(pathlib.Path(os.environ["ICU_SOURCE"], name).glob("*.txt"))):
        if resb("compile", "-q", path, "-").status == 0:
            rules = set(re.findall(r" \[([a-z-]+)\]$", resb("lint", path).stdout.decode(), flags=re.M))
            assert not rules & {"missing-close-brace", "missing-open-brace"}, path
