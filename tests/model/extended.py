"""Extended requests by the line and their replies, after docs/SERVER.md.

A tree of which the model isn't sure is `?`, and so is the error of one that is over two limits (`blurred` changes the program's replies alike).
"""
import re

from model import inherited, lookups
from model.server import BUNDLE_LIMIT, NotRequest, Refused, Server, app_of, locale_of, payload_of, text_at
from model.trees import segments

UNSURE = b'"code":"?"'
UNSURE_TREE = b'{"error":"?"}\n'
TREE_SIZE = 2000
TREE_REPLY = re.compile(rb'\{"actual":"\w+","tree":.*\n|\{"error":"(TooManySteps|TreeTooLarge|ReplyTooLong)"\}\n')


def change_of(data):
    """A change of a release: a locale, and a payload or None."""
    if not isinstance(data, dict):
        raise NotRequest
    locale, removes = text_at(data, "locale"), data.get("remove", False)
    if not isinstance(removes, bool) or (removes and ("text" in data or "file" in data)):
        raise NotRequest
    return locale, None if removes else payload_of(data)


def blurred(wanted, given):
    """A reply of the program, without the code and the line, or the tree, where the model isn't sure of them."""
    if wanted == UNSURE_TREE:
        return wanted if TREE_REPLY.fullmatch(given) else given
    if UNSURE not in wanted:
        return given
    return re.sub(rb'"line":[1-9][0-9]*', b'"line":0', re.sub(rb'"code":"[A-Z][A-Za-z0-9]+"', UNSURE, given))


class ExtendedServer(Server):
    """A server with extended requests."""

    operations = (*Server.operations, "usage", "put", "export", "release", "tree")
    long_members = (*Server.long_members, "bundles", "file")

    def error(self, refused):
        return {"error": refused.args[0], **refused.detail}

    def put(self, data):
        return {"ok": True, "replaced": self.store(data, True, True)}

    def list(self, data):
        sizes = data.get("sizes", False)
        if not isinstance(sizes, bool):
            raise NotRequest
        answer = super().list(data)
        if not sizes:
            return answer
        held = self.files_of(data["app"])
        return {"bundles": [{"bytes": len(held[name]), "locale": name} for name in answer["names"]]}

    def export(self, data):
        app, locale = text_at(data, "app"), text_at(data, "locale")
        if "as" in data:
            raise NotRequest
        held = self.files_of(app_of(app))
        name = locale_of(locale)
        if name not in held:
            raise Refused("Absent")
        return {"file": held[name].hex()}

    def tree(self, data):
        app, locale, path = text_at(data, "app"), text_at(data, "locale"), text_at({"path": "", **data}, "path")
        bundles, name = self.bundles(app_of(app)), locale_of(locale)
        try:
            _, actual, valid = lookups.look(bundles, self.common, self.parents, name, path, self.limits.steps)
            tree = inherited.Tree(bundles, self.common, self.parents, name, segments(path), TREE_SIZE)
        except lookups.Refused as refused:
            raise Refused(*refused.args) from None
        except inherited.TooLong:
            return {"error": "?"}
        answer, words = {"actual": actual, "tree": tree.value, "valid": valid}, []
        for check, *arguments in ((self.limits.refuse, "steps", tree.steps, "TooManySteps"), (self.short, answer)):
            try:
                check(*arguments)
            except Refused as refused:
                words += refused.args
        # of a tree that is over both limits either may be the error
        return {"error": "?" if len(words) > 1 else words[0]} if words else answer

    def change(self, locale, payload, bundles, held):
        """Makes a change of a release in copies of an application's bundles and files."""
        if payload is None:
            name = locale_of(locale)
            if bundles.pop(name, None) is None:
                raise Refused("Absent")
            held.pop(name)
            return
        name, bundle, file = self.judged(locale, payload)
        if name not in bundles and len(bundles) == BUNDLE_LIMIT:
            raise Refused("Full")
        self.limits.refuse("bundle_bytes", len(file), "BundleTooLong")
        bundles[name], held[name] = bundle, file

    def release(self, data):
        app, changes = text_at(data, "app"), data.get("changes")
        if not isinstance(changes, list):
            raise NotRequest
        asked = [change_of(change) for change in changes]
        bundles, held = dict(self.bundles(app_of(app))), dict(self.files_of(app))
        for index, (locale, payload) in enumerate(asked):
            try:
                if index == BUNDLE_LIMIT:
                    raise Refused("Full")
                self.change(locale, payload, bundles, held)
            except Refused as refused:
                raise Refused(refused.args[0], index=index, **refused.detail) from None
        self.refuse_files(app, held)
        self.apps[app], self.files[app] = bundles, held
        return {"ok": True}
