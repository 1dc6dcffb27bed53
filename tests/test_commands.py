"""Commands: the status, standard output, standard error and the files that are left.

Each NAME.json in commands/ has "files" (texts) and "binaries" (hexadecimal digits), which are written to a folder, and "cases", which are run
there in their order. A case has "args"; "stdin", the text of standard input (none if left out); "text", a bundle text that is compiled first, to
"file" (a.res if left out); "closed", if standard output is closed; and what is expected: "status" (0 if left out), "stdout" and "stderr" (empty if
left out), and "leaves", the hexadecimal digits of files after it, or null for a file that must not exist.
"""
import json
import os
import subprocess

import pytest
from support.program import TOP

CASES = {path.stem: json.loads(path.read_text(encoding="utf-8")) for path in sorted((TOP / "tests" / "commands").glob("*.json"))}


def outcome(resb, case):
    given = {"stdin": case["stdin"].encode()} if "stdin" in case else {"stdin": subprocess.DEVNULL}
    if "text" in case:
        resb.put("in.txt", case["text"])
        assert resb("compile", "in.txt", case.get("file", "a.res")).status == 0
    if case.get("closed"):
        given.update(stdout=subprocess.DEVNULL, preexec_fn=lambda: os.close(1))
    status, stdout, stderr = resb(*case["args"], **given)
    return status, stdout.decode(), stderr.decode()


@pytest.mark.parametrize("name", CASES)
def test_command(resb, name):
    for path, text in CASES[name].get("files", {}).items():
        resb.put(path, text)
    for path, digits in CASES[name].get("binaries", {}).items():
        resb.put(path, bytes.fromhex(digits))
    for case in CASES[name]["cases"]:
        assert outcome(resb, case) == (case.get("status", 0), case.get("stdout", ""), case.get("stderr", "")), case["args"]
        left = {path: resb.get(path) for path in case.get("leaves", {})}
        assert {path: data and data.hex().upper() for path, data in left.items()} == case.get("leaves", {}), case["args"]
