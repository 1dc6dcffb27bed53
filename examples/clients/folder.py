"""What resb-put and resb-get share: a folder of bundles, an application at a gateway, and what was last sent or fetched, which is stored
in the file .resb-sent.json of the folder. Needs over_http.py beside it, Python 3.8 or later, and nothing else.
"""
import argparse
import base64
import difflib
import hashlib
import json
import os
import re
import shlex
import sys
import tempfile
from http.client import HTTPException
from urllib.parse import unquote

from over_http import Bundles, Refused

MEMORY = ".resb-sent.json"


# Other texts are left out, such as README.txt, unless they begin as a bundle does.
IS_LOCALE = re.compile(r"(root|[a-z]{2,3})([_-]|\.)", re.IGNORECASE)
IS_BUNDLE = re.compile(rb"\s*(\xef\xbb\xbf|//.*\n|/\*[\s\S]*?\*/|\s)*[\"\w@=.-]+\s*(:\s*table\s*(\(\s*nofallback\s*\)\s*)?)?\{")


class Conflict(Exception):
    """What somebody else changed, as text."""


def tag_of(body):
    """Returns the tag that a gateway gives a bundle in the form in which it was submitted."""
    return '"' + base64.urlsafe_b64encode(hashlib.sha256(body).digest()[:16]).decode().rstrip("=") + '"'


def canonical(locale):
    """Returns the name under which a gateway lists a bundle (docs/LOOKUP.md)."""
    parts = locale.split("@")[0].replace("-", "_").split("_")
    for i, part in enumerate(parts):
        script = i == 1 and len(part) == 4 and part.isalpha()
        parts[i] = part.lower() if i == 0 else part.capitalize() if script else part.upper()
    return "_".join(parts)


def write(path, body):
    """Replaces a file by one with these bytes, whole or not at all."""
    with tempfile.NamedTemporaryFile(dir=os.path.dirname(path) or ".", delete=False) as file:
        file.write(body)
    os.chmod(file.name, 0o666 & ~UMASK)
    os.replace(file.name, path)


UMASK = os.umask(0)
os.umask(UMASK)


class Folder:
    """The bundles of a folder and of an application, and the tags of those that were last sent or fetched, by locale."""

    def __init__(self, path, url, token):
        gateway, _, app = url.rstrip("/").rpartition("/v1/")
        if not gateway.startswith(("http://", "https://")) or not app:
            raise OSError(f"{url} is no address as http://127.0.0.1:6422/v1/shop")
        self.path, self.url = path, url.rstrip("/")
        self.bundles = Bundles(gateway, unquote(app), token)
        self.names = {}
        for name in sorted(os.listdir(path)):
            if self._is_bundle(name) and self.names.setdefault(canonical(name[:-4]), name) != name:
                raise OSError(f"{name} and {self.names[canonical(name[:-4])]} have the same locale")
        self.bodies = {locale: self._read(name) for locale, name in self.names.items()}
        try:
            self.memory = json.loads(self._read(MEMORY))
        except FileNotFoundError:
            self.memory = {}
        self.sent = self.memory.setdefault(self.url, {})

    def _is_bundle(self, name):
        if name.endswith(".txt") and not IS_LOCALE.match(name):
            return bool(IS_BUNDLE.match(self._read(name)))
        return name.endswith((".txt", ".res"))

    def _read(self, name):
        with open(os.path.join(self.path, name), "rb") as file:
            return file.read()

    def remember(self, locale, tag):
        """Notes that the folder and the gateway have the same bundle, or with None that neither has one."""
        if tag is None:
            self.sent.pop(locale, None)
        else:
            self.sent[locale] = tag

    def save(self):
        """Stores what was sent or fetched, unless that is as before."""
        text = json.dumps(self.memory, indent=1, sort_keys=True) + "\n"
        path = os.path.join(self.path, MEMORY)
        if not os.path.exists(path) or self._read(MEMORY) != text.encode():
            write(path, text.encode())

    def local(self, locale):
        """Returns the tag of a file of the folder, or None."""
        return tag_of(self.bodies[locale]) if locale in self.names else None

    def installed(self, locale):
        """Returns the tag of the installed bundle, or None, and the form in which it was submitted, .txt or .res."""
        if not locale.isascii() or not locale.replace("_", "").isalnum():
            raise OSError(f"{locale} is no locale")
        form = self.names.get(locale, ".txt")[-4:]
        tag, is_form = self.bundles.tag(locale, form[1:])
        return tag, form if is_form else ".res" if form == ".txt" else ".txt"

    def difference(self, locale, installed):
        """Returns what somebody changed, as a difference between the installed text and the folder's."""
        name = self.names.get(locale, locale + ".txt")
        if installed is None:
            return f"{name}: somebody removed the installed bundle\n"
        if locale not in self.names:
            return f"{name}: somebody added or changed the bundle, which this folder doesn't have\n"
        head = f"{name}: somebody changed the installed bundle\n"
        if locale not in self.sent:
            head = f"{name}: differs from the installed bundle, and {MEMORY} doesn't say which one was sent or fetched last\n"
        if name.endswith(".res"):
            return head
        sides = self.bundles.file(locale + ".txt"), self.bodies[locale]
        lines = [side.decode(errors="replace").splitlines(True) for side in sides]
        text = difflib.unified_diff(*lines, "installed/" + name, "folder/" + name)
        return head + "".join(line if line.endswith("\n") else line + "\n" for line in text)

    def conflict(self, differences, then):
        """Returns the conflict of differences by locale: what follows, and the commands by which git merges both sides' changes."""
        text = "".join(differences.values()) + then
        if not all(locale in self.sent for locale in differences):
            return Conflict(text + "\n")
        files = " ".join(shlex.quote(self.names.get(locale, locale + ".txt")) for locale in differences)
        steps = [f"cd {shlex.quote(self.path)}", f"git stash push -- {files}", f"resb-get . {shlex.quote(self.url)}",
                 f"git commit -m 'Bring changes' -- {files}", "git stash pop"]
        return Conflict(f"{text}; git merges them with changes here that aren't committed:\n  ({' && '.join(steps)})\n")


def run(program, does, options, work):
    """Reads the command line, and does the work with the options and the folder. Returns the status."""
    parser = argparse.ArgumentParser(prog=program, description=does, epilog="The variable RESB_TOKEN has the token.")
    for name, meaning in options.items():
        parser.add_argument("--" + name, action="store_true", help=meaning)
    parser.add_argument("dir", metavar="DIR")
    parser.add_argument("url", metavar="URL")
    given = parser.parse_args()
    token = os.environ.get("RESB_TOKEN", "")
    if not token:
        print(f"{program}: RESB_TOKEN has no token", file=sys.stderr)
        return 2
    try:
        return work(given, lambda: Folder(given.dir, given.url, token))
    except Conflict as conflict:
        print(conflict, end="", file=sys.stderr)
        return 1
    except (OSError, HTTPException, Refused, ValueError) as error:
        print(f"{program}: {error}", file=sys.stderr)
        return 2
    except KeyboardInterrupt:
        return 130
