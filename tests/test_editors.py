"""Tests what the repository has for editors and for CI: the grammar over ICU's texts, the packed extension, and the scripts of CI with
a stand-in for the platform's variables."""
import json
import os
import pathlib
import re
import shutil
import subprocess
import sys
import tomllib
import xml.etree.ElementTree
import zipfile

import pytest

TOP = pathlib.Path(__file__).resolve().parent.parent
EDITORS = TOP / "editors"
sys.path.insert(0, str(TOP / "tools"))

from lsp.scanner import BARE, MARK, QUOTED, TOKEN, TYPES, scan  # noqa: E402
from support import icu  # noqa: E402
from support.pages import inline  # noqa: E402


class Grammar:
    """Reads lines as TextMate does: the first pattern that matches at the leftmost place wins. Captures have no patterns here."""

    def __init__(self, path):
        grammar = json.loads(path.read_text(encoding="utf-8"))
        self.repository = grammar["repository"]
        self.top = self.flat(grammar["patterns"])

    def flat(self, patterns):
        found = []
        for pattern in patterns:
            if "include" in pattern:
                pattern = self.repository[pattern["include"].removeprefix("#")]
            found += self.flat(pattern["patterns"]) if "patterns" in pattern and "begin" not in pattern else [pattern]
        return found

    def scopes(self, text):
        """Returns the scope of each character, or an empty one."""
        scopes, at, stack = [""] * len(text), 0, []
        for line in text.splitlines(keepends=True):
            self.line(line, at, stack, scopes)
            at += len(line)
        return scopes

    def line(self, line, base, stack, scopes):
        at = 0
        while at <= len(line):
            inside = stack[-1] if stack else None
            patterns = self.flat(inside.get("patterns", [])) if inside else self.top
            found = [(found.start(), order, found, pattern) for order, pattern in enumerate(patterns) if (found := regex(pattern.get("match") or pattern["begin"]).search(line, at))]
            end = regex(inside["end"]).search(line, at) if inside else None
            best = min(found, key=lambda it: it[:2], default=None)
            if end and (not best or end.start() <= best[0]):
                self.paint(scopes, base + at, base + end.end(), inside["name"])
                stack.pop()
                at = end.end()
                continue
            start = best[0] if best else len(line)
            if inside:
                self.paint(scopes, base + at, base + start, inside["name"])
            if not best:
                return
            match, pattern = best[2], best[3]
            self.paint(scopes, base + match.start(), base + match.end(), pattern.get("name") or (inside or {}).get("name", ""))
            for number, capture in pattern.get("captures", {}).items():
                if match[int(number)] is not None and "name" in capture:
                    self.paint(scopes, base + match.start(int(number)), base + match.end(int(number)), capture["name"])
            if "begin" in pattern:
                stack.append(pattern)
            assert match.end() > at or match.end() > match.start(), pattern
            at = match.end()

    @staticmethod
    def paint(scopes, start, end, scope):
        scopes[start:end] = [scope] * (end - start)


def regex(source, known={}):  # noqa: B006
    if source not in known:
        known[source] = re.compile(source)
    return known[source]


def wrong_scopes(grammar, text):
    """Yields the tokens of a text that the grammar takes for something else."""
    scopes, items = grammar.scopes(text), scan(text)
    keys = {items.starts[item] for item in range(len(items.keys)) if items.ends[item] > items.starts[item] and items.kinds[items.parents[item]] != "array"}
    after_colon = False
    for found in TOKEN.finditer(text):
        which = found.lastindex
        if not which:
            continue
        start, end = found.start(which), found.end()
        scope = scopes[start]
        if which == MARK:
            wanted = "punctuation"
        elif start in keys:
            wanted = "entity.name.tag"
        elif after_colon:
            wanted = "storage.type"
        else:
            wanted = "string.quoted" if which == QUOTED else ("string.unquoted", "constant.numeric")
        if not scope.startswith(wanted) or not scopes[end - 1].startswith(("string", "constant", "entity", "storage", "punctuation")):
            yield text[start:end], scope, wanted
        after_colon = which == MARK and text[start] == ":"


def test_grammar_of_each_token():
    text = (
        "// a comment { \"\n/* another\n } */ de:table(nofallback) {\n  %%Parent { \"x\" }\n  a:int { 42 } b:intvector { -1, 0x1f }\n"
        '  "k \\" y" { "{n, plural, one {# \\u00e9} other {{who}}}" }\n  d { Guten Tag, "x" "y" } e:alias { "/LOCALE/a" }\n}\n'
    )
    grammar = Grammar(EDITORS / "vscode" / "syntaxes" / "resb.tmLanguage.json")
    assert list(wrong_scopes(grammar, text)) == []
    scopes = grammar.scopes(text)
    for part, scope in (
        ("// a", "comment.line"), ("another", "comment.block"), ("} */", "comment.block"), ("n, plural", "variable.parameter"),
        ("plural", "support.function"), ("\\u00e9", "constant.character.escape"), ("who", "variable.parameter"), ("42", "constant.numeric"),
        ("-1", "constant.numeric"), ("0x1f", "constant.numeric"), ("Guten", "string.unquoted"),
    ):
        assert scopes[text.index(part)].startswith(scope), (part, scopes[text.index(part)])


def test_grammar_over_icu(tmp_path_factory):
    """Over ICU's texts each token has the scope that its role asks for."""
    folder = os.environ.get("RESB_ICU_TEXTS")
    if not folder:
        folder = tmp_path_factory.mktemp("icu")
        data = icu.package(folder)
        for tree in ("main", "curr", "rbnf", "translit"):
            into = folder / tree
            subprocess.run([sys.executable, TOP / "tools" / "icu2text", "--package", data, "--tree", tree, "--to", into], check=True)
    grammar = Grammar(EDITORS / "vscode" / "syntaxes" / "resb.tmLanguage.json")
    texts = sorted(path for path in pathlib.Path(folder).rglob("*.txt") if path.stat().st_size < 200_000)
    for text in texts[::25]:
        assert not list(wrong_scopes(grammar, text.read_text(encoding="utf-8")))[:3], text


def test_types_of_the_grammars():
    """Each grammar names the types that the server completes."""
    for path in ("vscode/syntaxes/resb.tmLanguage.json", "neovim/syntax/resb.vim", "emacs/resb-mode.el", "kate/resb.xml"):
        source = (EDITORS / path).read_text(encoding="utf-8")
        assert all(re.search(rf"\b{name}\b", source) for name in TYPES), path


def test_files_can_be_read():
    for path in EDITORS.rglob("*.json"):
        json.loads(path.read_text(encoding="utf-8"))
    assert tomllib.loads((EDITORS / "helix" / "languages.toml").read_text(encoding="utf-8"))["language-server"]
    xml.etree.ElementTree.parse(EDITORS / "kate" / "resb.xml")


def test_packed_extension(tmp_path):
    """The commands of docs/EDITORS.md make and install an extension; a stand-in for `code` takes what it should install."""
    pack, install = inline("docs/EDITORS.md", "/usr/share/resb/editors/vscode/pack"), inline("docs/EDITORS.md", "code --install-extension")
    (tmp_path / "code").write_text('#!/bin/sh\n[ "$1 $#" = "--install-extension 2" ] && cp "$2" installed\n', encoding="utf-8")
    (tmp_path / "code").chmod(0o755)
    env = {**os.environ, "PATH": f"{tmp_path}:{os.environ['PATH']}"}
    for name in ("a", "b"):
        (tmp_path / name).mkdir()
        subprocess.run(["sh", "-ec", f"{pack.replace('/usr/share/resb', str(TOP))}\n{install}"], cwd=tmp_path / name, env=env, check=True)
    assert (tmp_path / "a/installed").read_bytes() == (tmp_path / "b/installed").read_bytes()
    with zipfile.ZipFile(tmp_path / "a/installed") as archive:
        package = json.loads(archive.read("extension/package.json"))
        for path in (package["main"], package["contributes"]["grammars"][0]["path"], package["contributes"]["languages"][0]["configuration"]):
            assert f"extension/{path.removeprefix('./')}" in archive.namelist()
        xml.etree.ElementTree.fromstring(archive.read("extension.vsixmanifest"))


@pytest.mark.skipif(not shutil.which("emacs"), reason="emacs is missing")
def test_emacs_mode(tmp_path):
    """The mode of Emacs is chosen beside root.txt, and colours keys, set up as docs/EDITORS.md says."""
    (tmp_path / "root.txt").write_text("root { a { \"x\" } }", encoding="utf-8")
    (tmp_path / "de.txt").write_text("de { // c\n a:int { 5 } }", encoding="utf-8")
    script = """(progn (provide 'eglot) (defvar eglot-server-programs nil) (defun eglot-ensure ())
      %s (find-file "de.txt") (font-lock-ensure) (goto-char (point-min)) (search-forward " a")
      (princ (format "%%s %%s" major-mode (get-text-property (1- (point)) 'face))))"""
    command = ["emacs", "-Q", "--batch", "--eval", script % inline("docs/EDITORS.md", "(add-to-list").replace("/usr/share/resb", str(TOP))]
    done = subprocess.run(command, cwd=tmp_path, capture_output=True, text=True, check=True)
    assert done.stdout == "resb-mode font-lock-variable-name-face"


# --- CI


@pytest.fixture
def repository(tmp_path):
    """A clone of a repository, with a change of a text that isn't in the base branch."""
    def git(*words, where):
        subprocess.run(["git", "-c", "user.name=x", "-c", "user.email=x@y", *words], cwd=where, check=True, capture_output=True)
    base, clone = tmp_path / "base", tmp_path / "clone"
    (base / "texts" / "shop").mkdir(parents=True)
    (base / "texts" / "mail").mkdir(parents=True)
    for name, text in (
        ("shop/root", 'root {\n    open { "Open" }\n    close { "Close" }\n}\n'),
        ("shop/de", 'de {\n    open { "Öffnen" }\n}\n'),
        ("mail/root", 'root {\n    hello { "Hello {name}" }\n}\n'),
        ("mail/de", 'de {\n    hello { "Hallo {name}" }\n}\n'),
    ):
        (base / "texts" / f"{name}.txt").write_text(text, encoding="utf-8")
    git("init", "-q", "-b", "trunk", where=base)
    git("add", ".", where=base)
    git("commit", "-q", "-m", "texts", where=base)
    git("clone", "-q", str(base), str(clone), where=tmp_path)
    (clone / "texts" / "mail" / "de.txt").write_text('de {\nhello { "Servus {nom}" "du" x }\n}\n', encoding="utf-8")
    return clone


def run_ci(program, folder, *words, **variables):
    env = {key: value for key, value in os.environ.items() if not key.startswith(("GITHUB_", "CI_"))}
    command = [sys.executable, TOP / "tools" / "resb-ci", *words, "texts"]
    return subprocess.run(command, cwd=folder, env={**env, "RESB": program, **variables}, capture_output=True, text=True, check=False)


def test_ci_for_github(program, repository):
    done = run_ci(
        program, repository, "--coverage", "60", "--sarif", "out.sarif", "--comment", "out.md",
        GITHUB_BASE_REF="trunk", GITHUB_STEP_SUMMARY=str(repository / "summary.md"),
    )
    assert done.returncode == 1 and done.stderr == ""
    assert "texts/mail/de.txt: another layout; resb fmt formats it\n" in done.stdout
    assert "texts/shop: de: 50.0 % translated\n" in done.stdout
    assert "texts/mail/de.txt:2:18: warning: 'hello' has no {name}, which it has in the root [other-arguments]\n" in done.stdout
    log = json.loads((repository / "out.sarif").read_text(encoding="utf-8"))
    assert {result["ruleId"] for result in log["runs"][0]["results"]} == {"mixed-quotes", "other-arguments", "missing-key"}
    assert {rule["id"] for rule in log["runs"][0]["tool"]["driver"]["rules"]} >= {"mixed-quotes", "missing-key"}
    comment = (repository / "out.md").read_text(encoding="utf-8")
    assert comment == (repository / "summary.md").read_text(encoding="utf-8")
    assert "1 texts differ from `origin/trunk`." in comment
    assert '```diff\n- hello "Hallo {name}"\n+ hello "Servus {nom}du x"\n```' in comment
    assert "| texts/shop | de | 50.0 %, and 60 % is the least |" in comment and "mail | de" not in comment


def test_ci_for_gitlab(program, repository):
    commit = subprocess.run(["git", "rev-parse", "HEAD"], cwd=repository, capture_output=True, text=True, check=True).stdout.strip()
    words = ["--code-quality", "report.json", "--comment", "out.md"]
    done = run_ci(program, repository, *words, CI_MERGE_REQUEST_DIFF_BASE_SHA=commit)
    assert done.returncode == 1
    report = json.loads((repository / "report.json").read_text(encoding="utf-8"))
    assert {(it["check_name"], it["location"]["path"], it["location"]["lines"]["begin"], it["severity"]) for it in report} >= {
        ("mixed-quotes", "texts/mail/de.txt", 2, "minor"), ("missing-key", "texts/shop/de.txt", 1, "minor"),
    }
    assert len({it["fingerprint"] for it in report}) == len(report)
    subprocess.run(["git", "checkout", "-q", "."], cwd=repository, check=True)
    done = run_ci(program, repository, *words, CI_MERGE_REQUEST_DIFF_BASE_SHA=commit)
    assert done.returncode == 0, done
    assert "No text differs" in (repository / "out.md").read_text(encoding="utf-8")
    assert run_ci(program, repository, "--strict").returncode == 1
    done = run_ci(program, repository, "--base", "0" * 40)
    assert done.returncode == 0 and "isn't fetched" in done.stderr


def test_ci_without_modules(program, tmp_path):
    (tmp_path / "texts").mkdir()
    assert run_ci(program, tmp_path).returncode == 2


def test_steps_of_the_platforms(program, repository, tmp_path):
    """The scripts of action.yml and of the template for GitLab run, with variables as the platforms set them."""
    yaml = pytest.importorskip("yaml", reason="python3-yaml is missing")
    tools = tmp_path / "tools"
    tools.mkdir()
    (tools / "resb-ci").symlink_to(TOP / "tools" / "resb-ci")
    action = yaml.safe_load((TOP / "action.yml").read_text(encoding="utf-8"))
    defaults = {name.upper(): it["default"] for name, it in action["inputs"].items()}
    env = {**os.environ, **defaults, "RESB": program, "PATH": f"{tools}:{os.environ['PATH']}"}
    env |= {"GITHUB_BASE_REF": "trunk", "GITHUB_OUTPUT": str(tmp_path / "output"), "RUNNER_TEMP": str(tmp_path), "STRICT": "true"}
    for step in action["runs"]["steps"]:
        if "run" in step and "dpkg" not in step["run"]:
            done = subprocess.run(["bash", "-e", "-o", "pipefail", "-c", step["run"]], cwd=repository, env=env, capture_output=True, text=True, check=False)
            assert done.returncode == (1 if step.get("id") == "check" else 0), done
    comment = (tmp_path / "output").read_text(encoding="utf-8").removeprefix("comment=").strip()
    assert "differ from `origin/trunk`" in pathlib.Path(comment).read_text(encoding="utf-8")
    job = yaml.safe_load((EDITORS / "ci" / "gitlab.yml").read_text(encoding="utf-8"))["resb"]
    done = subprocess.run(["sh", "-c", "\n".join(job["script"])], cwd=repository, env={**env, **job["variables"]}, capture_output=True, text=True, check=False)
    assert done.returncode == 1 and json.loads((repository / job["artifacts"]["reports"]["codequality"]).read_text(encoding="utf-8"))
    for hook in yaml.safe_load((TOP / ".pre-commit-hooks.yaml").read_text(encoding="utf-8")):
        words = hook["entry"].split()[1:]
        assert re.search(hook["files"], "texts/mail/de.txt")
        done = subprocess.run([program, *words, "texts/mail/de.txt"], cwd=repository, capture_output=True, text=True, check=False)
        assert done.returncode == 0, done
    assert (repository / "texts" / "mail" / "de.txt").read_text(encoding="utf-8").startswith("de {\n    hello {")


def test_every_token_has_a_role():
    """The scanner leaves no character of a text with errors out."""
    for text in ('"open', "a/*", "//", "\\", "a\\", "{}}:,", "/", 'a"b"c', " " * 1000):
        end = 0
        for found in TOKEN.finditer(text):
            assert found.start() == end or not found[0]
            end = found.end()
        assert end == len(text) and {QUOTED, MARK, BARE} == {1, 2, 3}
