#!/usr/bin/env python3
"""A client of resb's gateway (deploy/gateway/README.md), with Python's standard library alone.

    bundles = Bundles("http://127.0.0.1:6422", "shop", "TOKEN")
    bundles.put("de", 'de{menu{open{"Öffnen"}}}')
    bundles.text("de_AT", "menu/open")      # "Öffnen"

Run as a program it tries each call:  over_http.py URL APP TOKEN
It installs two bundles where the application has none, and removes only those two.
"""
import json
import sys
import time
from http.client import HTTPConnection, HTTPException, HTTPSConnection
from urllib.parse import quote, urlsplit

PATIENCE = 30  # seconds in which a request that can't be answered now is asked again
SAMPLES = {"de": 'de{menu{open{"Öffnen"} close{"Schließen"}}}', "de_AT": 'de_AT{menu{close{"Zumachen"}}}'}


class Refused(Exception):
    """A refusal: its HTTP status, its error code, and the whole reply, which may have a code, a line and a message."""

    def __init__(self, status, reply):
        super().__init__(f"{status} {reply['error']}")
        self.status, self.word, self.reply = status, reply["error"], reply


def _refusal(body):
    """Returns the reply of a refusal; one of a proxy may be no JSON."""
    try:
        reply = json.loads(body)
    except ValueError:
        reply = None
    return reply if isinstance(reply, dict) and "error" in reply else {"error": "NoReply"}


class Bundles:
    """The bundles of an application. Not safe for use by several threads at once."""

    def __init__(self, url, app, token):
        self.url, self.app, self.token = urlsplit(url), app, token
        self.connection = None
        self.known = {}  # the last reply and its tag for each address and languages

    def text(self, locale, path):
        """Returns the value of a String, or None if there is no such item."""
        item = self.look(locale, path)
        return item["value"] if item else None

    def look(self, locale, path, languages=""):
        """Returns an item with its actual and valid locale, or None if there is no such item. The locale "-" is the one that languages
        such as "de-AT, fr;q=0.5" (Accept-Language) choose."""
        try:
            return self._get(self._address(locale, *path.split("/")), languages)
        except Refused as refused:
            if refused.word in ("Missing", "NoBundle"):
                return None
            raise

    def look_many(self, questions):
        """Returns the replies to pairs of a locale and a path, in order, with one request."""
        lines = "".join(json.dumps({"locale": locale, "path": path}) + "\n" for locale, path in questions)
        _, _, reply = self._ask("POST", self._address("look"), lines.encode())
        return [json.loads(line) for line in reply.splitlines()]

    def tree(self, locale, path=""):
        """Returns what an item, or the whole bundle, has and inherits, as `resb json --inherit` prints it. Sends only what changed."""
        return self._get(self._address(locale, *filter(None, path.split("/"))) + "?tree")

    def names(self):
        """Returns the locales of the application's bundles, in the order of installing."""
        return self._get(self._address())["names"]

    def add(self, locale, text):
        """Installs a bundle text, and returns its tag; refused with 409 Exists if there is a bundle for the locale."""
        headers = {"Content-Type": "text/plain; charset=utf-8"}
        return self._ask("POST", self._address(locale), text.encode(), **headers)[1].get("ETag")

    def put(self, locale, text, tag=None):
        """Installs a bundle text, or replaces the bundle of the locale, and returns its tag. With a tag it is refused with 412 if the
        bundle isn't the one that has it."""
        headers = {"Content-Type": "text/plain; charset=utf-8", **({"If-Match": tag} if tag else {})}
        return self._ask("PUT", self._address(locale), text.encode(), **headers)[1].get("ETag")

    def bundle(self, locale):
        """Returns the text of the bundle of a locale, and its tag for `put`."""
        _, headers, body = self._ask("GET", self._address(locale + ".txt"))
        return body.decode(), headers.get("ETag")

    def put_file(self, locale, data):
        """Installs the bytes of a .res file, or replaces the bundle of the locale."""
        self._ask("PUT", self._address(locale), data, **{"Content-Type": "application/octet-stream"})

    def patch(self, locale, changes, tag=None):
        """Changes items of a bundle, and returns its tag: `{"menu": {"open": "Open", "close": None}}` sets one and removes the other
        (RFC 7396, in the form of `resb json`). With a tag it is refused with 412 if the bundle isn't the one that has it."""
        headers = {"Content-Type": "application/merge-patch+json", **({"If-Match": tag} if tag else {})}
        return self._ask("PATCH", self._address(locale), json.dumps(changes).encode(), **headers)[1].get("ETag")

    def release(self, entries):
        """Makes changes, all or none, each an object such as `{"locale": "de", "text": "de{}"}`, and returns the application's revision.
        A member `if` has the tag that the bundle must have, or None if there must be none; else all are refused with 412."""
        return self.make_release(entries)[0]

    def make_release(self, entries):
        """Makes changes as `release` does. Returns the revision and the id that `undo` takes, which is None if all were made already."""
        lines = "".join(json.dumps(entry) + "\n" for entry in entries)
        headers = {"Content-Type": "application/x-ndjson"}
        _, headers, reply = self._ask("POST", self._address("_releases"), lines.encode(), **headers)
        return int(headers["Resb-Revision"]), json.loads(reply).get("id")

    def undo(self, change):
        """Takes back a change by its id, if its bundles weren't changed since, and returns the application's revision."""
        return int(self._ask("POST", self._address("_history", str(change), "undo"))[1]["Resb-Revision"])

    def state(self, after=0):
        """Returns the application's revision, once that is `after` or more, and the locales of its bundles. Refused with 503 Behind if the
        revision doesn't come in time."""
        _, headers, body = self._ask("GET", f"{self._address()}?after={after}")
        return int(headers["Resb-Revision"]), json.loads(body)["names"]

    def tag(self, locale, form="txt"):
        """Returns the tag that the bundle has in the form in which it was submitted, and whether that is this one, txt or res; or
        (None, False) if there is none."""
        try:
            tag = self._ask("HEAD", self._address(f"{locale}.{form}"))[1]["ETag"]
        except Refused as refused:
            if refused.status == 404:
                return None, False
            raise
        return tag.replace(f'.{form}"', '"'), not tag.endswith(f'.{form}"')

    def file(self, name):
        """Returns the bytes of a bundle in the form that its suffix says: LOCALE.txt, LOCALE.res or LOCALE.json."""
        return self._ask("GET", self._address(name))[2]

    def remove(self, locale, tag=None):
        """Removes the bundle of a locale. With a tag it is refused with 412 if the bundle isn't the one that has it."""
        self._ask("DELETE", self._address(locale), **({"If-Match": tag} if tag else {}))

    def _address(self, *parts):
        return "/".join([self.url.path.rstrip("/"), "v1", *(quote(part, safe="") for part in (self.app, *parts))])

    def _get(self, address, languages=""):
        """Returns a reply; the server sends it again only if it has changed."""
        tag, reply = self.known.get((address, languages), ("", None))
        given = {"If-None-Match": tag, "Accept-Language": languages}
        status, headers, body = self._ask("GET", address, **{name: value for name, value in given.items() if value})
        if status == 304:
            return reply
        reply = json.loads(body)
        self.known[address, languages] = headers.get("ETag"), reply
        return reply

    def _ask(self, method, address, body=None, **headers):
        """Returns status, headers and body of a response; asks again while the server can't answer."""
        end = time.monotonic() + PATIENCE
        while True:
            try:
                status, got, reply = self._once(method, address, body, headers)
            except (OSError, HTTPException):
                # A change may have been done, though its answer was lost: a PUT, a release, and what a tag guards may be asked again.
                self.connection = None
                is_safe = method in ("GET", "HEAD", "PUT") or address.endswith(("/look", "/_releases", "/undo"))
                may_repeat = is_safe or "If-Match" in headers
                if not may_repeat or time.monotonic() > end:
                    raise
                time.sleep(0.1)
                continue
            if status < 400:
                return status, got, reply
            wait = float(got.get("Retry-After", "1"))
            if status not in (429, 503) or time.monotonic() + wait > end:
                if method == "HEAD" and status != 404:  # its reply has no body with a code, and that to GET has
                    reply = self._once("GET", address, body, headers)[2]
                raise Refused(status, _refusal(reply))
            time.sleep(wait)

    def _once(self, method, address, body, headers):
        if self.connection is None:
            kinds = {"http": HTTPConnection, "https": HTTPSConnection}
            self.connection = kinds[self.url.scheme](self.url.hostname, self.url.port, timeout=PATIENCE)
        self.connection.request(method, address, body, {"Authorization": "Bearer " + self.token, **headers})
        response = self.connection.getresponse()
        return response.status, response.headers, response.read()


def try_lookups(bundles):
    """Looks items up in the sample bundles, and tries to install a text that isn't valid."""
    print(" ".join(bundles.names()))
    for path in ("menu/open", "menu/close", "menu/none"):
        print(path, bundles.text("de_AT", path))
    print(bundles.text("de_AT", "menu/open"))  # answered from the cache, by its tag
    replies = bundles.look_many([("de_AT", "menu/open"), ("de", "menu/close"), ("fr", "menu/open")])
    print(" ".join(reply.get("value") or reply["error"] for reply in replies))
    try:
        bundles.add("fr", "fr{")
    except Refused as refused:
        print(refused, "in line", refused.reply.get("line"))
    text, tag = bundles.bundle("de")
    try:
        bundles.put("de", text + "\n", '"other"')
    except Refused as refused:
        print(refused)
    print(bundles.put("de", text, tag) == tag)


def session(url, app, token):
    """Installs the samples where the application has no bundles, looks items up, and removes the samples."""
    bundles, tags = Bundles(url, app, token), {}
    try:
        for locale, text in SAMPLES.items():
            tags[locale] = bundles.add(locale, text)
        try_lookups(bundles)
    finally:
        for locale, tag in tags.items():
            bundles.remove(locale, tag)  # refused if somebody else has replaced it
    print(bundles.look("de", "menu/open"))


def main():
    if len(sys.argv) != 4:
        sys.exit("usage: over_http.py URL APP TOKEN")
    try:
        session(*sys.argv[1:])
    except Refused as refused:
        if refused.word != "Exists":
            raise
        sys.exit(f"{sys.argv[2]} already has a bundle for {' or '.join(SAMPLES)}; it was left as it is")


if __name__ == "__main__":
    main()
