"""`tools/resb-exchange import` over files that a translator's tools have damaged, changed or cut: a row of
exchange/damages.jsonl each. What a row expects is written by hand; the tools of gettext that some rows name make their
files themselves.

A row has its "name" and each "kind" of file that it is about. The file is "data", or what the writer here of this
kind, or of the kind "by", makes with the arguments "file", by default with one new translation; then it may be "cut",
have more "before" and "after", and "edits", pairs of old and new text, and another "encoding". "tool" is a command
that gets it as standard input and prints the file. "args" are further arguments of the import, "said" parts of what it
prints, "status" its status (0 if left out), and "changes" what of the target it changes (null removes).
"""
import json
import os
from xml.sax.saxutils import escape, quoteattr

import pytest
from support.exchange import Exchange, need_modules
from support.program import TOP, need, rows, run

FOLDER = TOP / "tests" / "exchange"
# the texts, the target's tree, and the strings that a file has, each with its source and its translation
SOURCE, TARGET, TREE = ((FOLDER / f"damages_{name}").read_text(encoding="utf-8") for name in ("en.txt", "de.txt", "tree.json"))
UNITS = rows("exchange/damages_units.jsonl")
SAVED = {"menu/save": "Sichern"}
XLIFF1, XLIFF2 = "urn:oasis:names:tc:xliff:document:1.2", "urn:oasis:names:tc:xliff:document:2.0"


def units(targets={}, kept=None, source={}):
    """Yields the name, the source and the translation of the strings that a file has, some of them others."""
    return ((name, source.get(name, text), targets.get(name, old)) for name, text, old in UNITS if kept is None or name in kept)


def po_quoted(text):
    return '"' + text.replace("\\", "\\\\").replace('"', '\\"').replace("\n", "\\n").replace("\r", "\\r") + '"'


def po(flags={}, language="de", **given):
    parts = [f'msgid ""\nmsgstr ""\n"Content-Type: text/plain; charset=UTF-8\\n"\n"Language: {language}\\n"\n']
    for name, text, target in units(**given):
        flag = f"#, {flags[name]}\n" if name in flags else ""
        parts.append(f"{flag}msgctxt {po_quoted(name)}\nmsgid {po_quoted(text)}\nmsgstr {po_quoted(target or '')}\n")
    return "\n".join(parts)


def xliff1(states={}, units_with={}, targets_with={}, language="de", original="en.txt", before="", **given):
    body = before
    for name, text, target in units(**given):
        state = f' state="{states[name]}"' if name in states else ""
        shown = "" if target is None else f"<target{state}{targets_with.get(name, '')}>{escape(target)}</target>"
        body += f"<trans-unit id={quoteattr(name)}{units_with.get(name, '')}><source>{escape(text)}</source>{shown}</trans-unit>\n"
    attributes = f'original="{original}" source-language="en" target-language="{language}" datatype="plaintext"'
    head = f'<?xml version="1.0" encoding="UTF-8"?>\n<xliff version="1.2" xmlns="{XLIFF1}" xmlns:mq="MQXliff">'
    return f"{head}<file {attributes}><body>\n{body}</body></file></xliff>\n"


def xliff2(states={}, sub={}, units_with={}, language="de", original="en.txt", default="final", **given):
    body = ""
    for number, (name, text, target) in enumerate(units(**given), 1):
        state = states.get(name, default if target is not None else "initial")
        state = (f' state="{state}"' if state else "") + (f' subState="{sub[name]}"' if name in sub else "")
        shown = "" if target is None else f"<target>{escape(target)}</target>"
        segment = f"<segment{state}><source>{escape(text)}</source>{shown}</segment>"
        body += f'<unit id="u{number}" name={quoteattr(name)}{units_with.get(name, "")}>{segment}</unit>\n'
    head = f'<?xml version="1.0"?>\n<xliff xmlns="{XLIFF2}" version="2.0" srcLang="en" trgLang="{language}">\n'
    return f'{head}<file id="f" original="{original}">\n{body}</file></xliff>\n'


def properties(**given):
    lines = (f"{name}={target}" if target is not None else f"#{name}=" for name, _, target in units(**given))
    return "".join(line.replace("\n", "\\n") + "\n" for line in lines)


def json_list(states={}, **given):
    listed = [{"id": name, "source": text, "target": target} | ({"state": states[name]} if name in states else {}) for name, text, target in units(**given)]
    return "[\n" + ",\n".join(json.dumps(one, ensure_ascii=False) for one in listed) + "\n]\n"


def csv(states={}, separator=",", **given):
    lines = [(name, text, target or "", states.get(name, "missing" if target is None else "translated")) for name, text, target in units(**given)]
    return "".join(separator.join('"' + cell.replace('"', '""') + '"' for cell in line) + "\n" for line in [("id", "source", "target", "state"), *lines])


WRITE = {"xliff1": xliff1, "xliff2": xliff2, "po": po, "properties": properties, "json": json_list, "csv": csv}
ROWS = [(kind, row) for row in rows("exchange/damages.jsonl") for kind in row["kind"].split()]


def file_of(kind, row):
    """Returns the bytes of the file of a row."""
    data = row["data"] if "data" in row else WRITE[row.get("by", kind)](**{"targets": SAVED} | row.get("file", {}))
    data = row.get("before", "") + data[:row.get("cut")] + row.get("after", "")
    for old, new in row.get("edits", ()):
        data = data.replace(old, new)
    data = data.encode(row.get("encoding", "utf-8"))
    if "tool" in row:
        need(row["tool"][0])
        status, data, errors = run(row["tool"], data)
        assert status == 0, errors
    return data


def with_changes(tree, changes):
    tree = json.loads(tree)
    for path, text in changes.items():
        *folders, key = path.split("/")
        place = tree
        for folder in folders:
            place = place[folder]
        if text is None:
            del place[key]
        else:
            place[key] = text
    return tree


@pytest.mark.parametrize("kind, row", ROWS, ids=[f"{kind}-{row['name']}" for kind, row in ROWS])
def test_damage(program, tmp_path, kind, row):
    need_modules(*["polib"] * (kind == "po"))
    at, changes = Exchange(program, tmp_path), row.get("changes", {})
    for name, data in (("bad", file_of(kind, row)), ("en.txt", SOURCE), ("de.txt", TARGET)):
        at.put(name, data)
    words = ("import", "--format", kind, "--source", "en.txt", "--into", "de.txt", "bad", *row.get("args", ()))
    status, printed, said = at.tool(*words)
    assert (status, printed) == (row.get("status", 0), ""), said
    for part in row.get("said", ()):
        assert part in said
    after = at.get("de.txt").decode()
    assert sorted(os.listdir(tmp_path)) == ["bad", "de.txt", "en.txt"]
    if not changes:
        assert after == TARGET
        return
    assert at.tree("de.txt") == with_changes(TREE, changes)
    kept = [line for line in TARGET.splitlines() if not any(path.split("/")[-1] in line or path in line for path in changes)]
    lines = after.splitlines()
    assert [line for line in lines if line in kept] == [line for line in kept if line in lines]
    for comment in ("// main", "/* Gruß */", "// start page", "\n\n"):
        assert comment in after
    # what was set is in the file now, so a second import changes nothing
    if None not in changes.values():
        at.tool(*words)
        assert at.get("de.txt").decode() == after
