"""A client of `resb serve` over its pipe, with Python's standard library alone.

    with Resb("resb", "root=root.txt") as server:
        server.install("shop", "de", text='de{menu{open{"O"}}}')
        server.look("shop", "de_AT", "menu/open")["value"]

A reply with an error raises ResbError, whose `word` is the error's name. The n-th reply answers the n-th line, so `look_many` sends
lines while it reads replies.
"""
import json
import subprocess
import threading


class ResbError(Exception):
    """A request or a lookup that was refused, by the name of its error."""

    def __init__(self, word):
        super().__init__(word)
        self.word = word


class Resb:
    """Runs a separate server, which ends with the block."""

    def __init__(self, program="resb", *arguments):
        self.process = subprocess.Popen([program, "serve", *arguments], stdin=subprocess.PIPE, stdout=subprocess.PIPE)

    def __enter__(self):
        return self

    def __exit__(self, *_):
        self.close()

    def close(self):
        """Ends the server, and returns its status."""
        self.process.stdin.close()
        self.process.stdout.close()
        return self.process.wait()

    def _send(self, request):
        self.process.stdin.write(json.dumps(request).encode() + b"\n")

    def _receive(self):
        line = self.process.stdout.readline()
        if not line:
            raise EOFError("resb serve has ended")
        return json.loads(line)

    def _ask(self, request):
        self._send(request)
        self.process.stdin.flush()
        reply = self._receive()
        if "error" in reply:
            raise ResbError(reply["error"])
        return reply

    def _put(self, op, app, locale, text, file):
        content = {"text": text} if file is None else {"file": file.hex()}
        self._ask({"op": op, "app": app, "locale": locale, **content})

    def install(self, app, locale, text=None, file=None):
        """Installs a bundle from its text or from the bytes of its file."""
        self._put("install", app, locale, text, file)

    def replace(self, app, locale, text=None, file=None):
        """Replaces the bundle that is there."""
        self._put("replace", app, locale, text, file)

    def remove(self, app, locale):
        """Removes a bundle."""
        self._ask({"op": "remove", "app": app, "locale": locale})

    def list(self, app):
        """Returns the names of an application's bundles."""
        return self._ask({"op": "list", "app": app})["names"]

    def look(self, app, locale, path):
        """Returns the reply to a lookup: its `type`, its value, and the members that docs/SERVER.md has beside them."""
        return self._ask({"op": "look", "app": app, "locale": locale, "path": path})

    def tree(self, app, locale, path=""):
        """Returns the item at a path with everything that it inherits: `tree`, with `actual` and `valid`. The server needs `--extended`."""
        return self._ask({"op": "tree", "app": app, "locale": locale, "path": path})

    def _send_looks(self, app, asked):
        for locale, path in asked:
            self._send({"op": "look", "app": app, "locale": locale, "path": path})
        self.process.stdin.flush()

    def look_many(self, app, asked):
        """Returns the replies to many lookups, each a pair of a locale and a path, in their order; an error is a reply with `error`."""
        asked = list(asked)
        sender = threading.Thread(target=self._send_looks, args=(app, asked))
        sender.start()
        replies = [self._receive() for _ in asked]
        sender.join()
        return replies
