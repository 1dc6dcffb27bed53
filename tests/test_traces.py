"""`resb look --trace` beside `resb look` over random bundles: the reply and the status are the same, the trace ends with the file or the error of the
reply, and the first file of its first level that is a stop is that of the reply's valid locale. Of an alias with a long text only the front is shown.
"""
import json
import re

from hypothesis import given
from model.trees import units_of
from support import making

LOCALES = ("root", "de", "de_AT", "de_Latn_AT", "fr", "fr_FR", "sr_Latn", "zh_Hant", "zh_Hant_TW")
KEYS = ["a", "b", "c"]


def path(random, most):
    return "/".join(random.choice([*KEYS, "0", "1"]) for _ in range(random.randint(0, most)))


def some_leaf(random):
    """Returns a leaf, often an alias, which at times leads nowhere."""
    head, tail = random.choice(("/LOCALE", "/ICUDATA/de", "/other", "?", *LOCALES[:5], *LOCALES[:5])), path(random, 2)
    return random.choice([("alias", units_of(f"{head}/{tail}" if tail else head)), ("string", units_of("text")), ("int", 1)])


def module(random):
    """Returns the bundles of some locales, and a locale and a path that are looked up."""
    bundles = {}
    for name in LOCALES:
        if name == "root" or random.random() < 0.6:
            kind, entries = making.random_table(random, 4, some_leaf, KEYS)
            for key, share in (("%%ALIAS", 0.1), ("%%Parent", 0.15)):
                if random.random() < share:
                    entries[key] = "string", units_of(random.choice(LOCALES + ("?",)))
            bundles[name] = (kind, dict(sorted(entries.items()))), random.random() < 0.2
    return bundles, random.choice(LOCALES), path(random, 4)


@making.times(2)
@given(making.cases(module), making.sources)
def test_trace(shared, asked, random):
    bundles, locale, steps = asked
    files = {shared.put(f"{name}.txt", making.Speller(random).bundle(bundle)): name for name, bundle in bundles.items()}
    plain = shared("look", locale, steps, *(f"{name}={file}" for file, name in files.items()))
    traced = shared("look", "--trace", locale, steps, *(f"{name}={file}" for file, name in files.items()))
    assert plain.stderr == b"" and traced[:2] == plain[:2]
    reply, trace = json.loads(plain.stdout), traced.stderr.decode()
    last = trace.splitlines()[-1]
    if "error" in reply:
        assert last.startswith(reply["error"] + ": ")
        return
    assert last.startswith("found in ") and files[last.removeprefix("found in ")] == reply["actual"]
    stops = re.findall(r"^  (\w+): \S+ (?:has |isn't asked)", trace.partition("level 2:")[0], flags=re.M)
    assert stops[:1] == [reply["valid"]]


def test_long_alias(resb):
    """A trace shows 1,000 characters of a text, at each of 255 levels and more."""
    file = resb.put("long.txt", 'de{a:alias{"de@' + "x" * 100_000 + '/a"}}')
    done = resb("look", "--trace", "de", "a", f"de={file}")
    assert json.loads(done.stdout) == {"error": "TooManyAliases"}
    assert done.stderr.decode().splitlines().count('  the alias of de: "de@' + "x" * 997 + '"..') > 250
