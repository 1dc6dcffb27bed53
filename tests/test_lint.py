"""`resb lint`: each warning and the nearest text without it, the texts of lint/texts.jsonl, docs/LINT.md, and the four formats.

A line of lint/warnings.jsonl has a "rule", a "text" that has this warning, and the "nearest" text that has none. In place of the text it may have
"entries": they replace those of the German text in lint/entries.json, which is compared with the root's there; so is "nearest" then.

A line of lint/texts.jsonl has "text" (or "hex", its bytes), "name" (that of the file, without .txt), "root" if it is linted against that text, and
"options". What is expected: "warnings", the line and the rule of each in order; "among", some of them; "messages", those of the warnings; "error",
the line, the column and the message of the error.
"""
import json
import re
import string
import unicodedata
import urllib.parse

import pytest
from support.program import TOP, rows

ENTRIES = json.loads((TOP / "tests" / "lint" / "entries.json").read_text(encoding="utf-8"))
# The warnings that are off unless they are denied.
OPTIONAL = {"other-numbers", "other-punctuation", "same-text"}
SETTINGS = {"forbidden-word": '[[forbid]]\nfiles = ["d?.txt"]\nwords = ["klicken", "Hände weg"]\n'}


def bundle(*entries, name="de"):
    return name + " {\n" + "".join(f"  {entry}\n" for entry in entries) + "}\n"


def texts_of(row):
    if "entries" not in row:
        return row["text"], row["nearest"]
    return tuple(bundle(*{**ENTRIES["de"], **row[name]}.values()) for name in ("entries", "nearest"))


WARNINGS = [(row["rule"], *texts_of(row), "entries" in row) for row in rows("lint/warnings.jsonl")]
ROOT = bundle(*ENTRIES["root"].values(), name="root")


def lint(resb, path, *options, stdin=b""):
    """Returns the warnings and the errors of a text as objects of JSON; its status says whether it has an error."""
    done = resb("lint", "--format", "json", *options, path, stdin=stdin)
    found = [json.loads(line) for line in done.stdout.splitlines()]
    errors = [finding for finding in found if finding["severity"] == "error"]
    assert (done.status, done.stderr) == (1 if errors else 0, b"")
    return [finding for finding in found if finding["severity"] == "warning"], errors


def name_of(text):
    return re.search(r"^\w+", text, re.M)[0].replace("fr", "de") + ".txt"


@pytest.mark.parametrize("at", range(len(WARNINGS)))
def test_each_warning_and_the_nearest_text(resb, at):
    rule, text, nearest, is_beside = WARNINGS[at]
    options = ("--against", resb.put("root.txt", ROOT)) if is_beside else ()
    options += ("--deny", rule) if rule in OPTIONAL else ()
    if rule in SETTINGS:
        resb.put("resb.toml", SETTINGS[rule])
    warnings, errors = lint(resb, resb.put(name_of(text), text), *options)
    rules = {finding["rule"] for finding in warnings + errors}
    # a text that isn't compiled may have others: the code of its error has capitals
    assert rule in rules and (rules == {rule} or not all(map(str.islower, rules)))
    assert lint(resb, resb.put(name_of(nearest), nearest), *options) == ([], [])


def test_mixed_forms_are_those_of_unicode(resb):
    """A letter and a mark beside `é` have a warning if Unicode has both as one character."""
    marks = [0x300, 0x301, 0x302, 0x303, 0x304, 0x306, 0x307, 0x308, 0x30A, 0x30C, 0x327, 0x328]
    pairs = [letter + chr(mark) for mark in marks for letter in string.ascii_letters]
    text = bundle(*(f'k{n} {{ "é {pair}" }}' for n, pair in enumerate(pairs)))
    warnings, _ = lint(resb, resb.put("de.txt", text), "--all")
    assert {finding["rule"] for finding in warnings} == {"mixed-forms"}
    wanted = [pair for pair in pairs if len(unicodedata.normalize("NFC", pair)) == 1]
    assert [pairs[finding["line"] - 2] for finding in warnings] == wanted


# Strings with a stray brace behind `¦`: the warning is there, whatever comes before it.
PLACES = [
    '"{0} é😀 ¦}"',
    r'"{0} \u00e9\U0001F600\x4\x41\101\"\\\q ¦}"',
    '"{0} " // }\n    "ab" /* } */ "¦}"',
    '"{0}\n\n  \\\n ¦}"',
    '"" "{0}", "{1}¦}"',
    '{ "x" } { "{0}"\n"¦}" }',
]


@pytest.mark.parametrize("at", range(len(PLACES)))
def test_place_in_a_string(resb, at):
    before, after = bundle("a { " + PLACES[at] + " }").split("¦")
    line = before.rpartition("\n")[2]
    place = before.count("\n") + 1, len(line.encode("utf-16-le")) // 2 + 1
    warnings, _ = lint(resb, resb.put("de.txt", before + after))
    assert [(finding["line"], finding["column"]) for finding in warnings if finding["rule"] == "stray-brace"] == [place]


def rules_of_program(resb):
    return [line.split(":")[0] for line in resb.output("lint", "--list").decode().splitlines()]


def spans(cell):
    """Returns the pieces of code in a cell of a table."""
    return [span.replace("\\|", "|") for span in re.findall(r"`` (.*?) ``|`([^`]+)`", cell) for span in span if span]


def test_the_page_has_each_warning(resb):
    """Each warning has a row in docs/LINT.md, whose example and fix are in the texts above."""
    page = (TOP / "docs" / "LINT.md").read_text(encoding="utf-8")
    rows = [(found[1], re.split(r"(?<!\\)\|", found[0])[1:-1]) for found in re.finditer(r"^\| `([a-z-]+)`: .*$", page, re.M)]
    rules = set(rules_of_program(resb))
    assert rules == {rule for rule, _ in rows} == {case[0] for case in WARNINGS}
    for rule, row in rows:
        for at in (1, 2):
            shown, texts = spans(row[at]), [case[at] for case in WARNINGS if case[0] == rule]
            assert not shown or any(span in text for span in shown for text in texts), (rule, shown)


def test_names_that_allow_takes(resb):
    names = rules_of_program(resb)
    assert len(names) >= 27
    assert resb("lint", *(word for name in names for word in ("--allow", name)), "-", stdin=b"de{}").status == 0
    assert resb("lint", "--allow", "joined", "-", stdin=b"de{}").status == 2


WRITTEN = rows("lint/texts.jsonl")


@pytest.mark.parametrize("at", range(len(WRITTEN)))
def test_text(resb, at):
    case = WRITTEN[at]
    words = ["--name", case["name"] + ".txt", *case.get("options", ())]
    if "root" in case:
        words += ["--against", resb.put("root.txt", case["root"])]
    text = bytes.fromhex(case["hex"]) if "hex" in case else case["text"].encode()
    warnings, errors = lint(resb, "-", *words, stdin=text)
    found = [[finding["line"], finding["rule"]] for finding in warnings]
    assert found == case.get("warnings", found)
    assert [wanted for wanted in case.get("among", ()) if wanted not in found] == []
    messages = [finding["message"] for finding in warnings]
    assert messages == case.get("messages", messages)
    if "error" in case:
        assert [f"{error['line']}:{error['column']} {error['message']}" for error in errors] == [case["error"]]


TEXTS = {
    "de.txt": 'de {\n  a { "é😀" b, "y" "z" }\n  open { "\\q" }\n  open { "x" }\n}\n',
    "größe ü%.txt": "de {\n  a { 'x' }\n}\n",
    "bad.txt": "bad { a { \"x\n } }",
    "many.txt": 'many { a { "' + "\\q" * 120 + '" } }',
}
LEVELS = {"none", "note", "warning", "error"}
# A line of lint/sarif.jsonl has a kind of object that resb writes, and its properties by the published JSON schema of SARIF 2.1.0: the required ones, and
# others of those that it names. It refuses all other names. A message needs a text or an id, and a physical location an artifact location or an address.
PROPERTIES = {kind: (set(required), set(others)) for kind, required, others in rows("lint/sarif.jsonl")}
# The characters of a reference of a URI; `%` is followed by two digits.
URI = re.compile(r"(?:[\w.~!$&'()*+,;=:@/?#-]|%[0-9A-F]{2})*", re.ASCII)


def of_text(output):
    """Yields each finding as a file, a line and a column or None, a level and a message."""
    for line in output.splitlines():
        file, number, column, level, text = re.fullmatch(r"(.*?):(?:(\d+):(\d+):)? (error|warning|note): (.*?)(?: \[[a-z-]+\])?", line).groups()
        yield file, number and int(number), column and int(column), level, text


def of_json(output):
    for line in output.splitlines():
        found = json.loads(line)
        yield found["file"], found.get("line"), found.get("column"), found["severity"], found["message"]


def of_github(output):
    def plain(text):
        return text.replace("%3A", ":").replace("%2C", ",").replace("%0A", "\n").replace("%0D", "\r").replace("%25", "%")

    for line in output.splitlines():
        command, properties, text = re.fullmatch(r"::(\w+) (.*?)::(.*)", line).groups()
        given = dict(part.split("=", 1) for part in properties.split(","))
        number, column = given.get("line"), given.get("col")
        yield plain(given["file"]), number and int(number), column and int(column), "note" if command == "notice" else command, plain(text)


def check_schema(kind, value):
    """Checks that an object of SARIF and the objects in it have the properties that they need and no unknown ones."""
    for one in value if isinstance(value, list) else [value]:
        required, others = PROPERTIES[kind]
        assert isinstance(one, dict) and required <= one.keys() <= required | others, (kind, one)
        for name, inner in one.items():
            if name.removesuffix("s") in PROPERTIES or name in PROPERTIES:
                check_schema(name if name in PROPERTIES else name.removesuffix("s"), inner)


def of_sarif(output):
    log = json.loads(output)
    check_schema("log", log)
    (found,) = log["runs"]
    assert (log["version"], found["columnKind"]) == ("2.1.0", "utf16CodeUnits")
    names = [rule["id"] for rule in found["tool"]["driver"]["rules"]]
    assert len(names) == len(set(names))
    for result in found["results"]:
        place = result["locations"][0]["physicalLocation"]
        region, uri = place.get("region", {}), place["artifactLocation"]["uri"]
        assert all(isinstance(number, int) and number >= 1 for number in region.values()) and URI.fullmatch(uri)
        assert result["level"] in LEVELS and (result["level"] != "warning" or result["ruleId"] in names)
        yield urllib.parse.unquote(uri, errors="strict"), region.get("startLine"), region.get("startColumn"), result["level"], result["message"]["text"]


def test_formats_say_the_same(resb):
    for name, text in TEXTS.items():
        resb.put(name, text)
    found = {}
    for reader in (of_text, of_json, of_github, of_sarif):
        done = resb("lint", "--format", reader.__name__.removeprefix("of_"), *TEXTS)
        assert (done.status, done.stderr) == (1, b"")
        found[reader] = list(reader(done.stdout.decode()))
        assert found[reader] == found[of_text]
    # `é` is one unit and U+1F600 two, as in editors and in SARIF
    line = TEXTS["de.txt"].splitlines()[1]
    column = len(line[:line.index("b,")].encode("utf-16-le")) // 2 + 1
    assert (2, column) in [(place[1], place[2]) for place in found[of_text] if place[0] == "de.txt"]


def test_punctuation_at_the_end(resb):
    """Each line of lint/endings.jsonl has the source's text, its translation, and whether that ends in the same way: by the names of the characters in
    Unicode and by CLDR's "punctuation" exemplars. Thai, Lao and Tibetan have no full stop; Greek writes `;`."""
    cases = rows("lint/endings.jsonl")
    root, text = (bundle(*(f'k{at} {{ "{case[side]}" }}' for at, case in enumerate(cases)), name=name) for side, name in ((0, "root"), (1, "de")))
    _, errors = lint(resb, resb.put("de.txt", text), "--against", resb.put("root.txt", root), "--deny", "other-punctuation")
    assert [finding["line"] - 2 for finding in errors] == [at for at, case in enumerate(cases) if not case[2]]
    assert {finding["rule"] for finding in errors} == {"other-punctuation"}
