"""Random histories of several applications, each line with the reply that the model gives."""
from model import lookups, texts
from model.extended import ExtendedServer
from model.server import Limits, Server, caller_of

from support import making
from support.making import good_bundle, spelled, written


class Start:
    """The start of a server: the files of ICUDATA and of the explicit parents, and what the model makes of them."""

    def __init__(self, random):
        self.entries = [self.entry(random, locale) for locale in random.sample(making.LOCALES, random.choice((0, 0, 2, 5)))]
        self.parents_text = self.parents(random) if random.random() < 0.5 else None
        self.common = {locale: bundle for locale, _, _, bundle in self.entries}
        self.by_child = lookups.parents_of(texts.read(self.parents_text)[0]) if self.parents_text else {}

    @staticmethod
    def entry(random, locale):
        """A bundle's name, whether its file is a text, the file, and the bundle."""
        bundle = good_bundle(random)
        is_text = random.random() < 0.5
        return locale, is_text, spelled(random, bundle) if is_text else written(random, bundle), bundle

    @staticmethod
    def parents(random):
        """A text with explicit parents, of which each child has one."""
        children = random.sample(making.LOCALES[1:], 6)
        cut = random.randrange(1, 6)
        first, second = "root", random.choice(making.LOCALES[1:])
        entries = {name: ("array", [("string", making.units_of(child)) for child in part])
                   for name, part in ((first, children[:cut]), (second, children[cut:]))}
        return spelled(random, (("table", {"parentLocales": ("table", entries)}), False))

    def server(self, limits=None, is_extended=False):
        return (ExtendedServer if is_extended else Server)(self.common, self.by_child, limits)

    def arguments(self, resb):
        """Returns the arguments of `serve`, whose files are written into the program's folder."""
        parents = ["--parents", resb.put("parents.txt", self.parents_text)] if self.parents_text else []
        return [*parents, *(f"{name}={resb.put(name + ('.txt' if is_text else '.res'), content)}" for name, is_text, content, _ in self.entries)]


class History:
    """Lines with their replies. Each call draws from `random`, which may be replaced in between."""

    is_extended = False

    def __init__(self, random, start, limits=None):
        self.random = random
        self.limits = limits or Limits()
        self.server = start.server(self.limits, self.is_extended)
        self.apps = random.sample(making.APPS, random.choice((2, 3, 5)))
        self.lines = []
        self.replies = []
        self.looks = []

    def add(self, line):
        self.lines.append(line)
        self.replies.append(self.server.reply(line))

    def app(self):
        return self.random.choice(making.BAD_APPS if self.random.random() < 0.02 else self.apps)

    def locale(self):
        chosen = self.random.random()
        return self.random.choice(making.BAD_LOCALES if chosen < 0.03 else making.SPELLINGS if chosen < 0.1 else making.LOCALES)

    def near(self, app):
        """A locale, mostly one that leads to one of the application's bundles."""
        names = list(self.server.apps.get(app, {}))
        if not names or self.random.random() < 0.3:
            return self.locale()
        return self.random.choice(names) + self.random.choice(("", "", "_DE", "_1996", "@x"))

    def path(self, app):
        """A path, mostly one that leads somewhere in one of the application's bundles."""
        bundles = list(self.server.apps.get(app, {}).values())
        if not bundles or self.random.random() < 0.2:
            return self.random.choice(making.PATHS)
        parts = making.random_path(self.random, self.random.choice(bundles)[0], 0.9)
        return "/".join(parts + self.random.choice(([], [], [], ["a"])))

    def payload(self):
        """Returns the payload of an install or a replacement."""
        bundle = making.random_bundle(self.random)
        is_text, is_damaged = self.random.random() < 0.6, self.random.random() < 0.25
        if is_text:
            text = spelled(self.random, bundle).decode("utf-8")
            return {"text": making.damage_text(self.random, text) if is_damaged else text}
        file = written(self.random, bundle)
        return {"file": making.hexadecimal(self.random, making.damage_file(self.random, file) if is_damaged else file)}

    def request(self):
        if self.limits.is_any() and self.random.random() < 0.1:
            return {"op": "usage", "app": self.app()}
        app, chosen = self.app(), self.random.random()
        request = {"app": app, "locale": self.locale()}
        if chosen < 0.35:
            return {"op": "install" if chosen < 0.25 else "replace", **request, **self.payload()}
        if chosen < 0.39:
            return {"op": "remove", **request}
        if chosen < 0.46:
            return {"op": "list", "app": app}
        return {"op": "look", "app": app, "locale": self.near(app), "path": self.path(app)}

    def add_random(self):
        chosen, most = self.random.random(), self.limits.line_bytes
        if most is not None and most < 10000 and self.random.random() < 0.1:
            self.add_long()
            return
        if chosen < 0.03:
            self.add(making.random_line(self.random))
            return
        if chosen > 0.85 and self.looks:
            self.add_again()
            return
        request = self.request()
        if request["op"] == "look":
            self.looks.append(request)
        line = making.dumped(self.random, request)
        self.add(making.damage_line(self.random, line) if chosen < 0.06 else line)

    def add_again(self):
        """Adds an earlier lookup a few times, as the server keeps where one ended that comes twice, and after a change."""
        look = self.random.choice(self.looks[-8:])
        for _ in range(self.random.choice((1, 2, 3))):
            self.add(making.dumped(self.random, look))
        place = {"app": look["app"], "locale": look["locale"]}
        change = {"op": "install", **place, **self.payload()} if self.random.random() < 0.6 else {"op": "remove", **place}
        self.add(making.dumped(self.random, change))
        self.add(making.dumped(self.random, look))

    def add_long(self):
        """Adds a request with blanks at its end, so that its line is as long as may be, or longer."""
        line = making.dumped(self.random, self.request())
        room = self.limits.line_bytes - len(line)
        self.add(line + b" " * max(0, room + self.random.choice((-1, 0, 0, 1, 1, 2, 9000))))

    def of_app(self, app):
        return [pair for pair in zip(self.lines, self.replies) if caller_of(pair[0]) == app]


class ExtendedHistory(History):
    """Lines of which many are extended requests, with their replies."""

    is_extended = True

    def change(self):
        """A change of a release, sometimes none."""
        chosen = self.random.random()
        if chosen < 0.02:
            return self.random.choice((1, None, [], {}, {"locale": "de"}, {"locale": "de", "remove": 1}, {"locale": "de", "remove": False}))
        locale = {"locale": self.locale()}
        if chosen < 0.3:
            return {**locale, "remove": True}
        return {**locale, **self.payload(), **({"remove": False} if chosen < 0.4 else {})}

    def release(self, app):
        """A release: changes, and mostly removals only of what is there."""
        names = list(self.server.apps.get(app, {}))
        changes = [self.change() for _ in range(self.random.choice((0, 1, 2, 2, 3, 5)))]
        for change in changes:
            if isinstance(change, dict) and change.get("remove") is True and names and self.random.random() < 0.8:
                change["locale"] = self.random.choice(names)
        return {"op": "release", "app": app, "changes": changes}

    def tree(self, app):
        """A request for a tree, mostly of the root or of an item that is there."""
        request = {"op": "tree", "app": app, "locale": self.near(app)}
        chosen = self.random.random()
        if chosen < 0.4:
            return request
        if chosen < 0.5:
            return {**request, "path": self.random.choice(("", "", 1, None, [""]))}
        return {**request, "path": self.path(app)}

    def request(self):
        app, chosen = self.app(), self.random.random()
        if chosen < 0.5:
            return super().request()
        if chosen < 0.62:
            return self.release(app)
        if chosen < 0.72:
            return {"op": "put", "app": app, "locale": self.locale(), **self.payload()}
        if chosen < 0.8:
            return {"op": "export", "app": app, "locale": self.near(app) if chosen < 0.75 else self.locale()}
        if chosen < 0.9:
            return self.tree(app)
        if chosen < 0.94:
            return {"op": "list", "app": app, "sizes": self.random.choice((True, True, True, False, 1))}
        return {"op": "usage", "app": app}


def random_limits(random):
    """Limits, often so small that much is refused."""
    choices = {
        "app_bytes": (1, 76, 200, 400, 800, 1500, 4000, 1 << 63), "bundle_bytes": (1, 60, 80, 120, 200, 400, 1000, 1 << 63),
        "reply_bytes": (1, 20, 30, 60, 75, 100, 200, 1 << 63), "line_bytes": (1, 40, 80, 120, 200, 400, 2000, 268435456),
        "apps": (1, 1, 2, 3, 1 << 63), "steps": (1, 2, 3, 4, 6, 9, 12, 20, 60, 1 << 63),
    }
    names = [name for name in choices if random.random() < 0.4] or [random.choice(list(choices))]
    given = {name: max(1, random.choice(choices[name]) + random.choice((0, 0, -1, 1, 7))) for name in names}
    if "line_bytes" in given:
        given["line_bytes"] = min(given["line_bytes"], 268435456)
    return Limits(random.random() < 0.5, **{name: min(most, 1 << 63) for name, most in given.items()})
