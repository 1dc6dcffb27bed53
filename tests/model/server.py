"""Requests by the line and their replies, after docs/SERVER.md."""
import json
import math
import re

from model import files, lookups, texts
from model.trees import compact, members

APP = re.compile("[A-Za-z0-9_.-]{1,64}")
HEX = re.compile("(?:[0-9a-fA-F]{2})*")
SURROGATE = re.compile("[\ud800-\udfff]")
BUNDLE_LIMIT = 4096
MOST = 1 << 63
LINE_LIMIT = 268435456
SIZES = ("app_bytes", "bundle_bytes", "reply_bytes", "line_bytes", "apps", "steps")


class NotRequest(Exception):
    """A line that is no request."""


class Refused(Exception):
    """A request that is refused, with the error's word, and what extended requests add to it."""

    def __init__(self, word, **detail):
        super().__init__(word)
        self.detail = detail


class Limits:
    """The limits of a server, each a number or None."""

    def __init__(self, keep_serving=False, **given):
        self.keep_serving = keep_serving
        for name in SIZES:
            setattr(self, name, given.pop(name, None))
        if given:
            raise ValueError(f"no limits: {given}")

    def is_any(self):
        return self.keep_serving or any(getattr(self, name) is not None for name in SIZES)

    def refuse(self, name, number, word):
        most = getattr(self, name)
        if most is not None and number > most:
            raise Refused(word)

    def refuse_line(self, length):
        """Refuses a line that is longer than this limit, which is no more than that of all lines."""
        if self.line_bytes is not None and length > min(self.line_bytes, LINE_LIMIT):
            raise Refused("LineTooLong")

    def without_apps(self):
        """The limits of an application by itself, with room for all applications: it stays a limit, as without any there is no `usage`."""
        given = {name: getattr(self, name) for name in SIZES}
        return Limits(self.keep_serving, **{**given, "apps": self.apps and MOST})

    def arguments(self):
        given = [(name, getattr(self, name)) for name in SIZES]
        found = [word for name, most in given if most is not None for word in (f"--{name.replace('_', '-')}", str(most))]
        return found + ["--keep-serving"] * self.keep_serving


def no_constant(_word):
    raise NotRequest


def number(digits):
    """Refuses a number that is too large for a float."""
    if math.isinf(float(digits)):
        raise NotRequest
    return 0


def pairs(found):
    """An object of which each text is well-formed."""
    for key, value in found:
        well_formed(key)
        well_formed(value)
    return dict(found)


def well_formed(value):
    """Refuses lone surrogates in a text and in the texts of a list."""
    if isinstance(value, str) and SURROGATE.search(value):
        raise NotRequest
    if isinstance(value, list):
        for element in value:
            well_formed(element)


def nesting(text):
    """Counts the nested levels of lists and objects in a text that is JSON."""
    deepest = level = 0
    for sign in re.findall(r'"(?:[^"\\]|\\.)*"|[\[\]{}]', text):
        level += {"[": 1, "{": 1, "]": -1, "}": -1}.get(sign, 0)
        deepest = max(deepest, level)
    return deepest


def data_of(line):
    try:
        text = line.decode("utf-8")
        value = json.loads(text, object_pairs_hook=pairs, parse_float=number, parse_int=number, parse_constant=no_constant)
    except (ValueError, RecursionError):
        raise NotRequest from None
    well_formed(value)
    if nesting(text) > 127 or not isinstance(value, dict):
        raise NotRequest
    return value


def payload_of(data):
    if ("text" in data) == ("file" in data):
        raise NotRequest
    if "text" in data:
        return read_text, text_at(data, "text").encode("utf-8")
    digits = text_at(data, "file")
    if not HEX.fullmatch(digits):
        raise NotRequest
    return read_file, bytes.fromhex(digits)


def text_at(data, name):
    value = data.get(name)
    if not isinstance(value, str):
        raise NotRequest
    return value


def read_text(source):
    """Returns the bundle of a text, and the file that it compiles to. Of an error that the reader may report otherwise the code is `?` and the line 0."""
    try:
        bundle = texts.read(source)
    except texts.BadText as error:
        is_sure = error.word in texts.LEXICAL
        raise Refused("BadText", code=error.word if is_sure else "?", line=error.line if is_sure else 0) from None
    return bundle, files.write(bundle)


def read_file(source):
    try:
        return files.read(source)[0], source
    except files.BadFile as error:
        raise Refused("BadFile", code=str(error)) from None


def app_of(name):
    if not APP.fullmatch(name):
        raise Refused("BadApp")
    if name == "ICUDATA":
        raise Refused("Reserved")
    return name


def locale_of(text):
    name = lookups.canonical(text)
    if name is None:
        raise Refused("BadLocale")
    return name


class Server:
    """The bundles of all applications and their files, those of ICUDATA, the explicit parents, and limits."""

    operations: tuple[str, ...] = ("install", "replace", "remove", "list", "look")
    # what is in replies that may be too long
    long_members: tuple[str, ...] = ("actual", "names")

    def __init__(self, common, parents, limits=None):
        self.common = common
        self.parents = parents
        self.limits = limits or Limits()
        self.apps = {}
        self.files = {}

    def bundles(self, app):
        return self.apps.setdefault(app, {})

    def files_of(self, app):
        return self.files.setdefault(app, {})

    def refuse_files(self, app, held):
        """Refuses files that an application would have after a change, if they are past a limit."""
        self.limits.refuse("app_bytes", sum(map(len, held.values())), "OverQuota")
        if held and not self.files_of(app):
            self.limits.refuse("apps", 1 + sum(1 for others in self.files.values() if others), "TooManyApps")

    def judged(self, locale, payload):
        name, (read, source) = locale_of(locale), payload
        self.limits.refuse("bundle_bytes", len(source), "BundleTooLong")
        return name, *read(source)

    def store(self, data, may_be_there, may_be_new):
        app, locale, payload = text_at(data, "app"), text_at(data, "locale"), payload_of(data)
        bundles, held = self.bundles(app_of(app)), self.files_of(app)
        name, bundle, file = self.judged(locale, payload)
        is_there = name in bundles
        if is_there and not may_be_there:
            raise Refused("Exists")
        if not is_there and not may_be_new:
            raise Refused("Absent")
        if not is_there and len(bundles) == BUNDLE_LIMIT:
            raise Refused("Full")
        self.limits.refuse("bundle_bytes", len(file), "BundleTooLong")
        self.refuse_files(app, {**held, name: file})
        bundles[name], held[name] = bundle, file
        return is_there

    def install(self, data):
        self.store(data, False, True)
        return {"ok": True}

    def replace(self, data):
        self.store(data, True, False)
        return {"ok": True}

    def remove(self, data):
        app, locale = text_at(data, "app"), text_at(data, "locale")
        bundles, name = self.bundles(app_of(app)), locale_of(locale)
        if bundles.pop(name, None) is None:
            raise Refused("Absent")
        self.files_of(app).pop(name)
        return {"ok": True}

    def list(self, data):
        return {"names": list(self.bundles(app_of(text_at(data, "app"))))}

    def usage(self, data):
        held = self.files_of(app_of(text_at(data, "app")))
        return {"app_bytes": sum(map(len, held.values())), "bundles": len(held)}

    def look(self, data):
        app, locale, path = (text_at(data, name) for name in ("app", "locale", "path"))
        bundles, name = self.bundles(app_of(app)), locale_of(locale)
        try:
            item, actual, valid = lookups.look(bundles, self.common, self.parents, name, path, self.limits.steps)
        except lookups.Refused as refused:
            raise Refused(*refused.args) from None
        told = members(item)
        return {**told, "actual": actual, "valid": valid}

    def answered(self, line):
        try:
            self.limits.refuse_line(len(line))
            data = data_of(line)
            if data.get("op") not in self.operations + ("usage",) * self.limits.is_any():
                raise NotRequest
            return self.short(getattr(self, data["op"])(data))
        except NotRequest:
            return {"error": "BadLine"}
        except Refused as refused:
            return self.error(refused)

    def error(self, refused):
        return {"error": refused.args[0]}

    def short(self, answer):
        """Returns an answer whose line isn't too long."""
        if any(name in answer for name in self.long_members) and "app_bytes" not in answer:
            self.limits.refuse("reply_bytes", len(spelled(answer)), "ReplyTooLong")
        return answer

    def reply(self, line):
        return spelled(self.answered(line))


def spelled(answer):
    return (compact(answer) + "\n").encode("utf-8")


def caller_of(line):
    """The application that a line names, or None."""
    try:
        app = data_of(line).get("app")
    except NotRequest:
        return None
    return app if isinstance(app, str) else None
