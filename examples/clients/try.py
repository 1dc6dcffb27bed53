#!/usr/bin/env python3
"""Tries resb.py against a program: each call once, errors, and many lookups at a time. Ends with status 0 if all is right."""
import sys

from resb import Resb, ResbError


def refused(call, *arguments, **named):
    """Returns the name of the error of a call."""
    try:
        call(*arguments, **named)
    except ResbError as error:
        return error.word
    return None


def main():
    with Resb(sys.argv[1], "--extended") as server:
        server.install("shop", "de", text='de{menu{close{"C"}}}')
        server.install("shop", "de-at", text='de_AT{menu{open{"O"}}}')
        found = server.look("shop", "de_AT", "menu/close")
        assert found == {"actual": "de", "type": "string", "valid": "de_AT", "value": "C"}, found
        assert refused(server.look, "bank", "de_AT", "menu/close") == "NoBundle"
        assert refused(server.install, "shop", "de", text="de{}") == "Exists"
        assert refused(server.install, "shop", "fr", file=b"\0") == "BadFile"
        assert server.list("shop") == ["de", "de_AT"]
        server.replace("shop", "de", text='de{menu{close{"D"}}}')
        many = server.look_many("shop", [("de_AT", "menu/close"), ("de_AT", "none")] * 5000)
        assert [many[0]["value"], many[1]["error"], len(many)] == ["D", "Missing", 10000]
        merged = {"menu": {"close": "D", "open": "O"}}
        assert server.tree("shop", "de_AT") == {"actual": "de_AT", "tree": merged, "valid": "de_AT"}
        assert server.tree("shop", "de_AT", "menu/close") == {"actual": "de", "tree": "D", "valid": "de_AT"}
        assert refused(server.tree, "shop", "de_AT", "none") == "Missing"
        server.remove("shop", "de")
        assert refused(server.remove, "shop", "de") == "Absent"
    assert server.process.returncode == 0
    print("ok: examples/clients/resb.py")


if __name__ == "__main__":
    main()
