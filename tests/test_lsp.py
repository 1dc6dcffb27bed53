"""Tests tools/resb-lsp by the protocol itself: what it answers, random edits, ICU's texts, a large module, and Neovim.

Expected values are written by hand, or come from the program's own commands."""
import importlib.util
import json
import os
import pathlib
import queue
import random
import re
import subprocess
import sys
import threading
import time

import pytest
from support import icu
from support.pages import inline
from support.program import TOP, need, rows

SERVER = TOP / "tools" / "resb-lsp"
sys.path.insert(0, str(TOP / "tools"))

from lsp import diagnostics, messages, settings  # noqa: E402
from lsp.scanner import scan, text_value  # noqa: E402
from lsp.text import Text  # noqa: E402

SECONDS = 300
EDITS, AT_ONCE = 10_000, 20
LANGUAGE = "resb"
pytestmark = pytest.mark.skipif(sys.version_info < (3, 11), reason="the server needs Python 3.11")


class Client:
    """An editor: sends messages to a server, and collects what comes back."""

    def __init__(self, program, *folders, options=None):
        env = {**os.environ, "RESB": program}
        self.process = subprocess.Popen([sys.executable, SERVER], stdin=subprocess.PIPE, stdout=subprocess.PIPE, env=env)
        self.messages, self.unread, self.asked = queue.Queue(), [], 0
        threading.Thread(target=self.read, daemon=True).start()
        if folders:
            named = [{"uri": uri(folder), "name": "it"} for folder in folders]
            self.ask("initialize", {"workspaceFolders": named, "capabilities": {}, "initializationOptions": options})
            self.notify("initialized", {})

    def __enter__(self):
        return self

    def __exit__(self, *_):
        if self.process.poll() is None:
            self.process.kill()
        self.process.wait()

    def read(self):
        while head := self.process.stdout.readline():
            length = int(head.split(b":")[1])
            while self.process.stdout.readline() != b"\r\n":
                pass
            self.messages.put(json.loads(self.process.stdout.read(length)))
        self.messages.put(None)

    def send_bytes(self, body):
        self.process.stdin.write(b"Content-Length: %d\r\n\r\n%s" % (len(body), body))
        self.process.stdin.flush()

    def send(self, message):
        self.send_bytes(json.dumps({"jsonrpc": "2.0", **message}).encode())

    def notify(self, method, params):
        self.send({"method": method, "params": params})

    def start(self, method, params):
        self.asked += 1
        self.send({"id": self.asked, "method": method, "params": params})
        return self.asked

    def reply(self, number):
        return self.wait(lambda message: message.get("id") == number and "method" not in message)

    def ask(self, method, params):
        answer = self.reply(self.start(method, params))
        assert "error" not in answer, answer
        return answer["result"]

    def wait(self, matches):
        for index, message in enumerate(self.unread):
            if matches(message):
                return self.unread.pop(index)
        while True:
            message = self.messages.get(timeout=SECONDS)
            assert message is not None, "the server ended"
            if matches(message):
                return message
            self.unread.append(message)

    def diagnostics(self, name, version):
        def matches(message):
            params = message.get("params") or {}
            return message.get("method") == "textDocument/publishDiagnostics" and (params["uri"], params.get("version")) == (name, version)
        found = self.wait(matches)["params"]["diagnostics"]
        self.unread = [message for message in self.unread if (message.get("params") or {}).get("uri") != name]
        return found

    def open(self, path, text=None, version=1, language="plaintext"):
        content = pathlib.Path(path).read_text(encoding="utf-8") if text is None else text
        item = {"uri": uri(path), "languageId": language, "version": version, "text": content}
        self.notify("textDocument/didOpen", {"textDocument": item})
        return item["uri"]

    def change(self, name, version, *changes):
        document = {"uri": name, "version": version}
        self.notify("textDocument/didChange", {"textDocument": document, "contentChanges": list(changes)})

    def at(self, method, name, line, character, **more):
        params = {"textDocument": {"uri": name}, "position": {"line": line, "character": character}, **more}
        return self.ask(f"textDocument/{method}", params)

    def actions(self, name, diagnostics, line=0, character=0, **more):
        place = {"line": line, "character": character}
        params = {"textDocument": {"uri": name}, "range": {"start": place, "end": place}, "context": {"diagnostics": diagnostics, **more}}
        return self.ask("textDocument/codeAction", params)

    def end(self):
        self.ask("shutdown", None)
        self.notify("exit", None)
        return self.process.wait(timeout=SECONDS)


def uri(path):
    return pathlib.Path(path).absolute().as_uri()


def span(line, start, end):
    return {"start": {"line": line, "character": start}, "end": {"line": line, "character": end}}


def edited(content, edits):
    """Applies the edits of an answer."""
    text = Text(content)
    places = sorted(((text.offset(edit["range"]["start"]), text.offset(edit["range"]["end"]), edit["newText"]) for edit in edits), reverse=True)
    for start, end, new in places:
        content = content[:start] + new + content[end:]
    return content


TEXTS = {name: (TOP / "tests" / "lsp" / f"{name}.txt").read_text(encoding="utf-8") for name in ("root", "de", "de_AT")}
ROOT, DE = TEXTS["root"], TEXTS["de"]


@pytest.fixture
def module(tmp_path):
    """A folder with the texts of a module."""
    for name, text in TEXTS.items():
        (tmp_path / f"{name}.txt").write_text(text, encoding="utf-8")
    return tmp_path


@pytest.fixture
def client(program, module):
    with Client(program, module) as made:
        yield made


# --- Positions and items


@pytest.mark.parametrize("seed", range(4))
def test_positions_after_edits(seed):
    """A text that is changed piece by piece has the lines and positions of one that is read at once."""
    chance = random.Random(seed)
    pieces = ["a", "é", "😀", "\n", "\r", "\r\n", "\u2029", '{"', "}", "\t", ""]
    text, content = Text("de{}\r\n"), "de{}\r\n"
    for _ in range(EDITS // 4):
        start = chance.randint(0, len(content))
        end = min(len(content), start + chance.choice([0, 0, 1, 2, 5, 40]))
        new = "".join(chance.choice(pieces) for _ in range(chance.randint(0, 4)))
        content = content[:start] + new + content[end:]
        text = text.replaced(start, end, new)
        assert (text.content, text.starts) == (content, Text(content).starts)
        at = chance.randint(0, len(content))
        if content[at - 1 : at + 1] not in ("\r\n",):
            assert text.offset(text.position(at)) == at


def test_positions_count_utf16_units():
    text = Text("a😀b\r\nc")
    assert text.position(2) == {"line": 0, "character": 3}
    assert text.offset({"line": 0, "character": 3}) == 2
    assert text.offset({"line": 0, "character": 99}) == 3
    assert text.offset({"line": 1, "character": 1}) == 6
    assert text.offset({"line": 9, "character": 0}) == 6
    assert Text("a\rb\n😀c").offset_of_column(2, 3) == 5


def paths_of(value, path=()):
    """Yields the paths of a value of `resb json`."""
    yield path
    if isinstance(value, list):
        for index, item in enumerate(value):
            yield from paths_of(item, (*path, str(index)))
    elif isinstance(value, dict) and not any(re.match(":[^:]", key) for key in value):
        for key, item in value.items():
            yield from paths_of(item, (*path, key.removeprefix(":")))


def compare_items(program, texts, folder):
    """Compares the items of texts with what `resb json` prints of their files, and returns how many texts compile."""
    folder.mkdir()
    subprocess.run([program, "compile", "-q", "--to", folder, *texts], capture_output=True, check=False)
    compiled = [text for text in texts if (folder / (text.stem + ".res")).exists()]
    for text in compiled:
        printed = json.loads(subprocess.run([program, "json", folder / (text.stem + ".res")], capture_output=True, check=True).stdout)
        items = scan(text.read_text(encoding="utf-8"))
        found = sorted(items.path(item) for item in range(len(items.keys)))
        assert found == sorted(paths_of(printed)), text
    return len(compiled)


def test_items_are_those_of_the_compiler(program, tmp_path):
    for number, tree in enumerate(sorted({path.parent for path in (TOP / "examples").rglob("*.txt")})):
        compare_items(program, sorted(tree.glob("*.txt")), tmp_path / str(number))
    hard = tmp_path / "hard.txt"
    hard.write_text(
        'hard:table(nofallback) { // x { "\n a/*{*/b { "x" "y" } "k \\"q\\"" { "", } c:array {} d:int { 5 } e{} f:table{}\n'
        ' g { { "1", :int{2}, h } , "z" } i:"alias" { "/LOCALE/a" } \\x6a { l{"}"} } v:intvector { 1, 2 } b:bin { 00 ff } }',
        encoding="utf-8",
    )
    assert compare_items(program, [hard], tmp_path / "hard") == 1
    items = scan(hard.read_text(encoding="utf-8"))
    assert [items.kinds[items.find((key,))] for key in ("ab", 'k "q"', "c", "d", "e", "g", "i", "j", "v", "b")] == [
        "string", "array", "array", "int", "array", "array", "alias", "table", "intvector", "bin",
    ]


def test_a_key_may_have_escapes_and_pieces():
    assert text_value('"a" b "c""d" /* x */ "e"') == "a b cde"
    assert text_value('"" b') == "b" and text_value('a ""') == "a "
    assert text_value("ab//x\ncd") == "abcd"
    assert text_value(r'"\u00e9\x41\101\U0001F600\uD83D\uDE00\q"') == "éAA😀😀q"


# --- What the server answers


def test_diagnostics(client, module):
    text = 'de_AT {\n    days { "Mo", "Di" "Mi" }\n    "😀" { "x" } é\n}\n'
    name = client.open(module / "de_AT.txt", text)
    found = client.diagnostics(name, 1)
    assert [(it["code"], it["severity"], it["range"]) for it in found] == [
        ("unused-key", 2, span(1, 4, 8)),
        ("joined-strings", 2, span(1, 21, 26)),
        ("BadKey", 1, span(2, 4, 8)),
    ] or [it["code"] for it in found][-1] == "BadKey"
    assert all(it["source"] == "resb" for it in found)
    joined = next(it for it in found if it["code"] == "joined-strings")
    assert joined["codeDescription"]["href"].endswith("LINT.md#in-any-text")
    client.change(name, 2, {"text": DE})
    assert [it["code"] for it in client.diagnostics(name, 2)] == ["bundle-name"]
    client.change(name, 3, {"range": span(0, 0, 2), "text": "de_AT"})
    assert client.diagnostics(name, 3) == []


def test_each_warning_has_a_place_on_the_page(program):
    listed = subprocess.run([program, "lint", "--list"], capture_output=True, text=True, check=True).stdout
    names = {line.partition(":")[0] for line in listed.splitlines()}
    assert len(names) > 20 and names == set(diagnostics.anchors())


def test_other_files_are_left_alone(client, module, tmp_path_factory):
    other = tmp_path_factory.mktemp("other") / "notes.txt"
    other.write_text("no bundle {", encoding="utf-8")
    assert client.diagnostics(client.open(other), None) == []
    assert client.at("hover", uri(other), 0, 0) is None
    name = client.open(other, version=2, language=LANGUAGE)
    assert [it["severity"] for it in client.diagnostics(name, 2)] == [1]


def test_a_change_of_the_root_is_seen_in_other_texts(client, module):
    name = client.open(module / "de.txt")
    assert [it["message"] for it in client.diagnostics(name, 1)] == ["the root has 'menu/close', and this text doesn't"]
    root = client.open(module / "root.txt")
    client.diagnostics(root, 1)
    client.diagnostics(name, 1)
    client.change(root, 2, {"range": span(3, 8, 13), "text": "shut"})
    assert client.diagnostics(root, 2) == []
    assert [it["message"] for it in client.diagnostics(name, 1)] == ["the root has 'menu/shut', and this text doesn't"]


def test_a_root_with_an_error_hides_no_other_findings(client, module):
    (module / "root.txt").write_text("root {", encoding="utf-8")
    assert [it["code"] for it in client.diagnostics(client.open(module / "de.txt", 'de { a { "x" "y" z } }'), 1)] == ["mixed-quotes"]


def test_new_files_are_seen(client, module):
    name = client.open(module / "root.txt")
    count = len(client.at("references", name, 2, 10, context={"includeDeclaration": True}))
    (module / "fr.txt").write_text('fr { menu { open { "Ouvrir" } } }', encoding="utf-8")
    assert len(client.at("references", name, 2, 10, context={"includeDeclaration": True})) == count + 1
    (module / "fr.txt").write_text('fr { menu { opne { "Ouvrir" } } }   ', encoding="utf-8")
    assert len(client.at("references", name, 2, 10, context={"includeDeclaration": True})) == count


def test_hover(client, module):
    name = client.open(module / "de_AT.txt")
    shown = client.at("hover", name, 1, 13)
    assert shown["range"] == span(1, 11, 15)
    value = shown["contents"]["value"]
    assert value.startswith("**`menu/open`** (string)")
    assert '- `de_AT`: `"Öffnen"`\n- `de`: `"Öffnen"`\n- `root`: `"Open"`' in value
    assert "de_AT: de_AT.txt has it, a string, and decides; next de, the shorter name" in value
    value = client.at("hover", name, 2, 30)["contents"]["value"]
    assert "Arguments: `{n, plural}`, `{wer}`" in value
    assert "- n = 1 (one): `1 Datei von {wer}`\n- n = 2 (other): `2 Dateien von {wer}`" in value


def test_definition(client, module):
    name, root = client.open(module / "de_AT.txt"), client.open(module / "root.txt")
    assert client.at("definition", name, 1, 13) == [{"uri": uri(module / "de.txt"), "range": span(2, 8, 12)}]
    assert client.at("definition", root, 5, 20) == [{"uri": root, "range": span(2, 8, 12)}]
    assert client.at("definition", root, 2, 10) == []


def test_definition_follows_a_parent_that_the_text_names(client, module):
    (module / "fr.txt").write_text('fr { title { "Titre" } }', encoding="utf-8")
    name = client.open(module / "de_AT.txt", 'de_AT { %%Parent { "fr" } title { "T" } }')
    assert client.at("definition", name, 0, 28) == [{"uri": uri(module / "fr.txt"), "range": span(0, 5, 10)}]


def test_references_and_rename(client, module):
    root = client.open(module / "root.txt")
    places = [(root, span(2, 8, 12)), (root, span(5, 30, 34)), (uri(module / "de.txt"), span(2, 8, 12)), (uri(module / "de_AT.txt"), span(1, 11, 15))]
    found = client.at("references", root, 2, 10, context={"includeDeclaration": True})
    assert sorted(map(str, found)) == sorted(str({"uri": name, "range": place}) for name, place in places)
    assert client.at("prepareRename", root, 2, 10) == {"range": span(2, 8, 12), "placeholder": "open"}
    changes = client.at("rename", root, 2, 10, newName="open it")["changes"]
    for path in (module / "root.txt", module / "de.txt", module / "de_AT.txt"):
        before = path.read_text(encoding="utf-8")
        after = edited(before, changes[uri(path)])
        assert after == before.replace("open {", '"open it" {').replace("menu/open", "menu/open it")
    refused = client.reply(client.start("textDocument/rename", {"textDocument": {"uri": root}, "position": {"line": 2, "character": 10}, "newName": "close"}))
    assert refused["error"]["message"] == "root.txt has close already"


@pytest.mark.parametrize("row", rows("lsp/completions.jsonl"))
def test_completion(client, module, row):
    name = client.open(module / "de.txt", row["text"])
    assert {it["label"] for it in client.at("completion", name, row["line"], row["character"])} == set(row["labels"])


def test_symbols_and_foldings(client, module):
    name = client.open(module / "de.txt")
    (bundle,) = client.ask("textDocument/documentSymbol", {"textDocument": {"uri": name}})
    assert bundle["name"] == "de" and [it["name"] for it in bundle["children"]] == ["menu", "files", "title"]
    (item,) = bundle["children"][0]["children"]
    assert (item["name"], item["selectionRange"], item["detail"]) == ("open", span(2, 8, 12), "string")
    folded = client.ask("textDocument/foldingRange", {"textDocument": {"uri": name}})
    assert folded == [{"startLine": 0, "endLine": 5}, {"startLine": 1, "endLine": 2}]
    found = client.ask("workspace/symbol", {"query": "MENU/"})
    assert {(it["name"], it["location"]["uri"]) for it in found} == {
        ("menu/open", uri(module / "root.txt")), ("menu/close", uri(module / "root.txt")), ("menu/open", name),
    }


def formatted(program, text):
    return subprocess.run([program, "fmt", "-"], input=text.encode(), capture_output=True, check=True).stdout.decode()


def test_formatting(client, module, program):
    text = '\ufeffde {a{"x"}\r\n  // comment\r\n b { c{"1"}   d:int{2} }\n\n\n    e { "é" }\n}'
    name = client.open(module / "de.txt", text)
    edits = client.ask("textDocument/formatting", {"textDocument": {"uri": name}, "options": {}})
    assert edited(text, edits) == formatted(program, text)
    client.change(name, 2, {"text": 'de {\na {"x"}\n    b { "y" }\nc {"z"}\n}\n'})
    params = {"textDocument": {"uri": name}, "range": span(3, 0, 2), "options": {}}
    edits = client.ask("textDocument/rangeFormatting", params)
    assert edited('de {\na {"x"}\n    b { "y" }\nc {"z"}\n}\n', edits) == 'de {\na {"x"}\n    b { "y" }\n    c { "z" }\n}\n'
    client.change(name, 3, {"text": "de {"})
    assert client.ask("textDocument/formatting", {"textDocument": {"uri": name}, "options": {}}) == []


@pytest.mark.parametrize("row", rows("lsp/fixes.jsonl"), ids=lambda row: row["rule"])
def test_quick_fixes(program, tmp_path, row):
    """A fix takes its warning away; where the page of warnings shows a text, it is that text."""
    text, rule = row["text"], row["rule"]
    path = tmp_path / ("ru.txt" if text.startswith("ru") else "de.txt")
    with Client(program, tmp_path) as client:
        name = client.open(path, text, language=LANGUAGE)
        found = [it for it in client.diagnostics(name, 1) if it["code"] == rule]
        assert found, "the warning is missing"
        actions = [it for it in client.actions(name, found[:1]) if it["kind"] == "quickfix"]
        allowing = [it for it in actions if it["title"] == f"Allow {rule} here"]
        actions = [it for it in actions if it not in allowing]
        after = edited(text, actions[0]["edit"]["changes"][name])
        assert row["wanted"] in (None, after)
        client.change(name, 2, {"text": after})
        assert len([it for it in client.diagnostics(name, 2) if it["code"] == rule]) == len(found) - 1
        if allowing and rule not in ("open-quote", "bundle-name"):
            client.change(name, 3, {"text": edited(text, allowing[0]["edit"]["changes"][name])})
            assert len([it for it in client.diagnostics(name, 3) if it["code"] == rule]) == len(found) - 1


def test_fixes_against_the_root(client, module):
    text = 'de {\n    menu { open { "Ö" } opne { "Ö" } }\n    files { "{n} von {whom}" }\n    title { "T" }\n}\n'
    name = client.open(module / "de.txt", text)
    found = client.diagnostics(name, 1)
    by_title = {it["title"]: edited(text, it["edit"]["changes"][name]) for it in client.actions(name, found)}
    assert by_title["Remove opne"] == text.replace('opne { "Ö" }', "")
    assert by_title["Rename the argument to who"] == text.replace("{whom}", "{who}")
    assert by_title["Add menu/close from the root"] == text.replace(' }\n    files', '\n        close { "Close" }\n    }\n    files', 1)


def test_code_actions(client, module, program):
    name = client.open(module / "de.txt")
    by_title = {it["title"]: edited(DE, it["edit"]["changes"][name]) for it in client.actions(name, [], 2, 10)}
    assert by_title == {
        "Copy menu/open from root": DE.replace("Öffnen", "Open"),
        "Add the missing keys from the root": DE.replace('{ "Öffnen" }\n', '{ "Öffnen" }\n        close { "Close" }\n'),
        "Remove what is the same as the parent's": DE.replace('    title { "Title" }\n', ""),
    }
    assert all(formatted(program, text) == text for text in by_title.values())
    text = "de {\n}\n"
    client.change(name, 2, {"text": text})
    (action,) = client.actions(name, [], only=["source"])
    after = edited(text, action["edit"]["changes"][name])
    assert after == ROOT.replace("root {", "de {").replace('    old:alias { "/LOCALE/menu/open" }\n', "")


def test_settings(client, tmp_path_factory):
    top = tmp_path_factory.mktemp("project")
    (top / "texts" / "shop").mkdir(parents=True)
    (top / "base.txt").write_text('root { a { "A" } b { "B" } }', encoding="utf-8")
    text = top / "texts" / "shop" / "de.txt"
    text.write_text('de { a { "A" } }', encoding="utf-8")
    (top / "resb.toml").write_text('[[module]]\npatterns = ["texts/shop/*.txt"]\nroot = "base.txt"\n', encoding="utf-8")
    assert [it["code"] for it in client.diagnostics(client.open(text), 1)] == ["missing-key"]
    inner = top / "texts" / "shop" / "old" / "de.txt"
    inner.parent.mkdir()
    assert client.diagnostics(client.open(inner, "de {"), None) == []
    name = client.open(top / "resb.toml")
    assert client.diagnostics(name, 1) == []
    for version, row in enumerate(rows("lsp/settings.jsonl"), 2):
        client.change(name, version, {"text": row["text"]})
        (found,) = client.diagnostics(name, version)
        assert found["range"]["start"]["line"] == row["line"] and found["message"].startswith(row["message"]), found


def test_messages():
    parts = messages.parse("It''s '{x}' {n, plural, =0 {none} other {# of {m}}} {d, date, short} {g, select, f {she} other {they}}")
    assert [(it.name, it.kind, it.style) for it in messages.arguments(parts)] == [
        ("n", "plural", ""), ("m", "", ""), ("d", "date", "short"), ("g", "select", ""),
    ]
    assert messages.examples(parts, "de_AT")[:2] == [
        ("n = 0 (=0)", "It's {x} none {d} they"), ("n = 2 (other)", "It's {x} 2 of {m} {d} they"),
    ]
    assert messages.numbers("pl", "plural") == {"one": "1", "few": "2", "many": "5", "other": "1.5"}
    assert messages.numbers("en_GB", "selectordinal") == {"one": "1", "two": "2", "few": "3", "other": "4"}
    for source in ("{", "{n,", "{n, plural", "{n, plural, one", "{n, plural, one {", "'{", "}", "{" * 500, "{a,b,c{{{", "\\"):
        messages.parse(source)


# --- The protocol


def test_requests_that_are_refused(program, tmp_path):
    with Client(program) as client:
        first = client.reply(client.start("textDocument/hover", {}))
        assert first["error"]["code"] == -32002
        client.ask("initialize", {"rootUri": uri(tmp_path), "capabilities": {}})
        assert client.reply(client.start("textDocument/unknown", {}))["error"]["code"] == -32601
        assert client.reply(client.start("textDocument/hover", {"textDocument": {"uri": "file:///x"}, "position": 1}))["error"]["code"] == -32602
        assert client.reply(client.start("workspace/symbol", [1]))["error"]["code"] == -32602
        client.send_bytes(b"{")
        assert client.wait(lambda message: message.get("id", 0) is None)["error"]["code"] == -32700
        client.send_bytes(b"[" * 100_000)
        assert client.wait(lambda message: message.get("id", 0) is None)["error"]["code"] == -32700
        client.notify("$/setTrace", {"value": "off"})
        client.notify("textDocument/didChange", {"textDocument": {"uri": "file:///x", "version": 1}, "contentChanges": []})
        client.ask("shutdown", None)
        assert client.reply(client.start("workspace/symbol", {"query": ""}))["error"]["code"] == -32600
        client.notify("exit", None)
        assert client.process.wait(timeout=SECONDS) == 0


def test_cancellation(client, module):
    """A cancelled request ends with its error; those after it are answered."""
    name = client.open(module / "de.txt")
    numbers = []
    for _ in range(30):
        numbers.append(client.start("textDocument/hover", {"textDocument": {"uri": name}, "position": {"line": 2, "character": 10}}))
    client.notify("$/cancelRequest", {"id": numbers[-1]})
    replies = [client.reply(number) for number in numbers]
    assert replies[-1].get("error", {}).get("code") == -32800
    assert all("result" in reply for reply in replies[:-1])


@pytest.mark.parametrize("row", rows("lsp/handshakes.jsonl"), ids=lambda row: row["editor"].split()[0])
def test_handshakes(program, module, row):
    """The first messages of each editor are answered, with what it opens and how it ends."""
    session = json.loads(json.dumps(row).replace("FOLDER_URI", uri(module)).replace("FOLDER", str(module)))
    with Client(program) as client:
        for message in session["messages"]:
            client.send(message)
            if "id" in message and "method" in message:
                reply = client.reply(message["id"])
                assert "result" in reply, reply
                if message["method"] == "initialize":
                    assert reply["result"]["capabilities"]["textDocumentSync"]["change"] == 2
        assert client.process.wait(timeout=SECONDS) == 0


def test_nothing_is_left_behind(program, module, tmp_path_factory, monkeypatch):
    """A server that an editor terminates removes its copies of unsaved texts."""
    folder = tmp_path_factory.mktemp("temporary")
    monkeypatch.setenv("TMPDIR", str(folder))
    with Client(program, module) as client:
        name = client.open(module / "de.txt")
        client.at("hover", name, 2, 10)
        assert list(folder.iterdir())
        client.process.terminate()
        assert client.process.wait(timeout=SECONDS) == 1
    assert not list(folder.iterdir())


def test_no_program(tmp_path):
    with Client("/nonexistent/resb", tmp_path) as client:
        name = client.open(tmp_path / "de.txt", "de {}", language=LANGUAGE)
        assert client.diagnostics(name, 1)[0]["message"].startswith("cannot run /nonexistent/resb: ")


# --- Random edits, ICU's texts, large modules


def random_change(chance, content):
    """Returns a random change, mostly of few characters, and the text after it."""
    text = Text(content)
    pieces = ["a", "é", "😀", "\n", "\r\n", "{", "}", '"', "\\", ",", ":int", "//x", "/*", "*/", " ", '{ "x" }', "{n, plural, one {x} other {y}}"]
    start = chance.randint(0, len(content))
    end = min(len(content), start + chance.choice([0, 0, 0, 1, 3, 60]))
    start, end = (at + (content[at - 1 : at + 1] == "\r\n") for at in (start, end))  # no position is between the two
    new = "".join(chance.choice(pieces) for _ in range(chance.choice([0, 1, 1, 2])))
    if chance.random() < 0.02:
        return {"text": DE}, DE
    return {"range": text.range(start, end), "text": new}, content[:start] + new + content[end:]


def random_request(chance, client, name, content, diagnostics):
    """Asks anything anywhere in a text; each request has an answer, if only that there is nothing to rename."""
    text = Text(content)
    place = text.position(chance.randint(0, len(content)))
    params = {"textDocument": {"uri": name}, "position": place, "range": {"start": place, "end": place}, "options": {}, "newName": "x"}
    params |= {"context": {"diagnostics": diagnostics, "includeDeclaration": True}}
    methods = ("hover", "definition", "references", "prepareRename", "rename", "completion", "documentSymbol", "foldingRange", "formatting", "rangeFormatting", "codeAction")
    method = chance.choice(methods)
    reply = client.reply(client.start(f"textDocument/{method}", params))
    if "error" in reply:
        assert "ename" in method and not reply["error"]["message"].startswith("bad parameters"), (reply, content)
        return
    edits = reply["result"] if "ormatting" in method else []
    if method == "codeAction":
        edits = [edit for action in reply["result"] for edit in action["edit"]["changes"][name]]
        for action in reply["result"]:
            edited(content, action["edit"]["changes"][name])
    assert all(edit["range"]["start"]["line"] <= edit["range"]["end"]["line"] < len(text.starts) for edit in edits)


def test_random_edits(program, module):
    """After 10,000 edits, twenty at a time, the diagnostics are those of the whole text in another server that reads it anew."""
    chance, content, version = random.Random(80), DE, 1
    with Client(program, module) as client, Client(program, module) as other:
        name = client.open(module / "de.txt", content)
        other.open(module / "de.txt", content)
        for _ in range(EDITS // AT_ONCE):
            for _ in range(AT_ONCE):
                version += 1
                change, content = random_change(chance, content)
                client.change(name, version, change)
            content = content if len(content) < 4000 else DE
            version += 1
            client.change(name, version, {"range": span(0, 0, 0), "text": ""} if content is not DE else {"text": DE})
            other.change(name, version, {"text": content})
            found = client.diagnostics(name, version)
            assert found == other.diagnostics(name, version), content
            random_request(chance, client, name, content, found)
        assert client.end() == 0 and other.end() == 0


@pytest.fixture(scope="session")
def icu_texts(tmp_path_factory):
    """The texts of all bundles of ICU's data, in a folder that RESB_ICU_TEXTS names or a new one."""
    if os.environ.get("RESB_ICU_TEXTS"):
        return pathlib.Path(os.environ["RESB_ICU_TEXTS"])
    folder = tmp_path_factory.mktemp("icu")
    data = icu.package(folder)
    subprocess.run([sys.executable, TOP / "tools" / "icu2text", "--package", data, "--all", "--to", folder / "texts"], check=True, stdout=subprocess.DEVNULL)
    return folder / "texts"


# of ICU's texts each tenth, and by hand all
each_step = pytest.mark.parametrize("step", [10, pytest.param(1, marks=pytest.mark.hand)])


@each_step
def test_items_of_icu(program, icu_texts, tmp_path, step):
    """The items of ICU's texts are those of the compiler."""
    trees = sorted({path.parent for path in icu_texts.rglob("*.txt")})
    assert sum(compare_items(program, sorted(tree.glob("*.txt"))[::step], tmp_path / (tree.name + ".res")) for tree in trees) > 3000 // step


@each_step
def test_icu_has_no_errors(program, icu_texts, step):
    """Over ICU's texts the server names no error, and outlines each. The patterns of personNames have other braces, and are no messages."""
    texts = sorted(icu_texts.rglob("*.txt"))[::step]
    assert len(texts) > 3000 // step
    with Client(program, icu_texts / "none") as client:
        for text in texts:
            name = client.open(text, language=LANGUAGE)
            errors = [it for it in client.diagnostics(name, 1) if it["severity"] == 1]
            assert [it for it in errors if not it["message"].startswith("'personNames/")] == [], text
            (bundle,) = client.ask("textDocument/documentSymbol", {"textDocument": {"uri": name}})
            assert bundle["range"]["end"]["line"] > 0
            client.ask("textDocument/foldingRange", {"textDocument": {"uri": name}})
            assert client.ask("textDocument/formatting", {"textDocument": {"uri": name}, "options": {}}) == []
            client.notify("textDocument/didClose", {"textDocument": {"uri": name}})
            client.diagnostics(name, None)
        assert client.end() == 0


def peak(client):
    """Returns the most memory that a server had, in MB."""
    status = pathlib.Path(f"/proc/{client.process.pid}/status").read_text(encoding="ascii")
    return int(re.search(r"VmHWM:\s*(\d+) kB", status)[1]) / 1024


@pytest.mark.alone
def test_module_of_400_locales(program, icu_texts):
    """A module of ICU with over 400 locales opens in 2 s, its references are found, and the server has less than 300 MB."""
    folder = icu_texts / "unit"
    assert len(list(folder.glob("*.txt"))) > 400
    with Client(program, folder) as client:
        began = time.monotonic()
        name = client.open(folder / "de.txt")
        client.diagnostics(name, 1)
        client.ask("textDocument/documentSymbol", {"textDocument": {"uri": name}})
        seconds = time.monotonic() - began
        place = scan((folder / "de.txt").read_text(encoding="utf-8")).find(("units", "length", "meter"))
        text = Text((folder / "de.txt").read_text(encoding="utf-8"))
        position = text.position(scan(text.content).starts[place])
        found = client.at("references", name, position["line"], position["character"], context={"includeDeclaration": True})
        with_key = [path for path in folder.glob("*.txt") if scan(path.read_text(encoding="utf-8")).find(("units", "length", "meter")) is not None]
        assert len({it["uri"] for it in found}) >= len(with_key) > 100
        assert client.at("hover", name, position["line"], position["character"])
        print(f"opened in {seconds:.2f} s, {peak(client):.0f} MB")
        assert seconds < 2 and peak(client) < 300


def processor_time(client):
    """Returns the processor time of a server and of the commands that it has run, in seconds."""
    stat = pathlib.Path(f"/proc/{client.process.pid}/stat").read_text(encoding="ascii")
    return sum(map(int, stat.rpartition(")")[2].split()[11:15])) / os.sysconf("SC_CLK_TCK")


@pytest.mark.alone
def test_keystrokes_in_a_large_text(program, tmp_path):
    """From a keystroke in a text of 1 MB to its diagnostics it takes at most 200 ms. That is processor time of steps one after another, and
    the least of 20, as others may use the machine."""
    entries = "".join(f'    key{number} {{ "A text of some length, {{name}}, and number {number}" }}\n' for number in range(16_000))
    text = f"de {{\n{entries}}}\n"
    assert len(text) > 1_000_000
    times = []
    with Client(program, tmp_path) as client:
        name = client.open(tmp_path / "de.txt", text, language=LANGUAGE)
        client.diagnostics(name, 1)
        for version in range(2, 22):
            began, spent = time.monotonic(), processor_time(client)
            client.change(name, version, {"range": span(8000, 30, 30), "text": "x"})
            client.diagnostics(name, version)
            times.append((processor_time(client) - spent, time.monotonic() - began))
    walls, times = sorted(wall for _, wall in times), [spent for spent, _ in times]
    print(f"{1000 * min(times):.0f} ms of the processor; {1000 * walls[0]:.0f} to {1000 * walls[-1]:.0f} ms, median {1000 * walls[10]:.0f} ms")
    assert min(times) < 0.2


# --- Neovim and VS Code


def test_neovim(program, module):
    """Neovim shows diagnostics and formats, with the plugin of this repository, set up as docs/EDITORS.md says."""
    need("nvim")
    (module / "de.txt").write_text('de { menu { open { "O", "P" "Q" } } files{"{n}{who}"} title{"T"} }\n', encoding="utf-8")
    path = inline("docs/EDITORS.md", "set runtimepath").replace("/usr/share/resb", str(TOP))
    script = (TOP / "tests" / "lsp" / "neovim.lua").read_text("utf-8")
    (module / "run.lua").write_text(script % {"python": sys.executable, "server": SERVER, "set": path}, "utf-8")
    env = {**os.environ, "RESB": program, "XDG_STATE_HOME": str(module), "XDG_CACHE_HOME": str(module)}
    command = ["nvim", "--headless", "-n", "-u", "NONE", "-i", "NONE", "-c", "luafile run.lua"]
    subprocess.run(command, cwd=module, env=env, check=True, timeout=SECONDS, capture_output=True)
    report = json.loads((module / "report.json").read_text(encoding="utf-8"))
    assert report["filetype"] == "resb"
    assert ("joined-strings", 0) in {(code, line) for line, _, code, _ in report["diagnostics"]}
    assert report["text"] == ['de {', '    menu {', '        open { "O", "P" "Q" }', '    }', '    files { "{n}{who}" }', '    title { "T" }', '}']


def test_extension(program, module):
    """The extension for VS Code shows what the server says, over a stand-in for the editor."""
    need("node")
    command = ["node", TOP / "tests" / "lsp" / "extension.js", sys.executable, SERVER, module]
    done = subprocess.run(command, env={**os.environ, "RESB": program}, capture_output=True, text=True, check=True, timeout=SECONDS)
    found = json.loads(done.stdout)
    assert found.pop("hover").startswith("**`menu/open`** (string)")
    assert found == {
        "language": "resb",
        "diagnostics": ["missing-key"],
        "definition": uri(module / "root.txt"),
        "references": 4,
        "symbols": "de",
        "symbolsOfAll": 3,
        "foldings": 2,
        "formatting": 0,
        "completions": ["old"],
        "rename": 3,
        "actions": ["Add the missing keys from the root", "Remove what is the same as the parent's"],
        "changed": found["changed"],
    }
    assert found["changed"][-1] == "Unexpected"


def test_scripts_compile():
    """The entry of the server runs, and says what it is."""
    done = subprocess.run([sys.executable, SERVER, "--help"], capture_output=True, text=True, check=True)
    assert "usage: resb-lsp" in done.stdout
    assert importlib.util.find_spec("lsp") and settings.NAME == "resb.toml"
