#!/usr/bin/env python3
"""Tests the Python package resb: each kind of item, errors, changes, threads, signals and forks."""

import copy
import gc
import mmap
import multiprocessing
import os
import pickle
import signal
import sys
import tempfile
import threading
import time
import unittest

import resb

TEXT = 'de{greeting{"Grüß"} low:int{-1} v:intvector{1,-2} b:bin{00ff} e:bin{""} list{"a","bc"} menu{open{"Auf"} close{"Zu"}} z{""}}'


def fails(_):
    """Raises an error in a process of a pool."""
    resb.compile("de{\na:int{09}}")


def code(call, *arguments):
    try:
        call(*arguments)
    except resb.Error as error:
        return str(error)
    return None


class Test(unittest.TestCase):
    def setUp(self):
        self.bundles = resb.Bundles()
        self.addCleanup(self.bundles.close)
        self.bundles.install("shop", "de", TEXT)

    def look(self, path, locale="de_AT"):
        return self.bundles.look("shop", locale, path)

    def test_kinds(self):
        self.assertEqual(self.look("greeting"), "Grüß")
        self.assertEqual((self.look("low"), self.look("v"), self.look("b"), self.look("e"), self.look("z")), (-1, [1, -2], b"\x00\xff", b"", ""))

    def test_tables_and_arrays(self):
        self.assertEqual(dict(self.look("menu")), {"close": "Zu", "open": "Auf"})
        self.assertEqual(list(self.look("list")), ["a", "bc"])
        self.assertEqual((self.look("list")[-1], self.look("list")[:1], len(self.look("menu"))), ("bc", ["a"], 2))
        root = self.look("")
        self.assertEqual(root["menu"]["open"], "Auf")
        self.assertIn("menu", root)
        self.assertNotIn("nothing", root)
        self.assertNotIn("menu/open", root)
        with self.assertRaises(IndexError):
            self.look("list")[2]

    def test_tables_inherit(self):
        self.bundles.replace("shop", "de", 'de{menu{b{"Be"} c{"Ce"}}}')
        self.bundles.install("shop", "root", 'root{menu{a{"A"} b{"B"}} x{"X"}}')
        menu, items = self.look("menu"), {"a": "A", "b": "Be", "c": "Ce"}
        self.assertEqual((list(menu), [*menu.keys()], len(menu)), (["a", "b", "c"], ["a", "b", "c"], 3))
        self.assertEqual(([*menu.items()], [*menu.values()], dict(menu)), ([*items.items()], ["A", "Be", "Ce"], items))
        self.assertEqual([key in menu for key in "abcd"], [True, True, True, False])
        self.assertEqual(menu, items)
        self.assertNotEqual(menu, self.look("menu", "en"))
        self.assertEqual(self.look(""), {"menu": items, "x": "X"})
        self.assertEqual(dict(self.bundles.children("shop", "de", ""))["menu"], items)
        begun = iter(menu), menu.keys(), menu.items(), menu.values()
        self.bundles.replace("shop", "de", 'de:table(nofallback){menu{b{"Be"}}}')
        self.assertEqual([[*one] for one in begun], [[*items], [*items], [*items.items()], [*items.values()]])
        self.assertEqual((menu, len(menu), "a" in menu), ({"b": "Be"}, 1, False))
        for text, error in (('de{menu{"text"}}', "OtherKind"), ("de{menu:bin{00}}", "OtherKind"), ("de:table(nofallback){}", "Missing")):
            self.bundles.replace("shop", "de", text)
            self.assertEqual((code(len, menu), code(list, menu), code(menu.items)), (error, error, error))
        self.assertIsNone(menu.get("b"))
        self.bundles.close()
        self.assertEqual((code(len, menu), code(menu.get, "b")), ("NotOpen", "NotOpen"))

    def test_tables_have_what_lookups_find(self):
        dead = '1:alias{"/LOCALE/none"} 2:alias{"fr/x"} 3:alias{""} 4:alias{"/OTHER/x"} 5:alias{"/LOCALE"} 6:alias{"loop/x"}'
        self.bundles.install("shop", "loop", 'loop{%%Parent{"loop"}}')
        self.bundles.install("shop", "xx", 'xx{t{%s ":a"{"A"} "::"{"B"} "a b"{"C"} "a/b"{"D"} z:alias{"/LOCALE/t/:a"} %s{""}}}' % (dead, "k" * 1023))
        table = self.look("t", "xx")
        self.assertEqual([*table.items()], [("::", "B"), (":a", "A"), ("a b", "C"), ("z", "A")])
        self.assertEqual((dict(table), len(table)), ({"::": "B", ":a": "A", "a b": "C", "z": "A"}, 4))
        causes = []
        for key in ("1", "2", "3", "4", "5", "6", "k" * 1023, "ä"):
            self.assertNotIn(key, table)
            with self.assertRaises(KeyError) as raised:
                table[key]
            causes.append(str(raised.exception.__cause__))
        self.assertEqual(causes, ["Missing", "NoBundle", "AliasText", "AliasPackage", "TooManyAliases", "Chain", "PathTooLong", "BadPath"])
        self.assertNotIn("a/b", table)
        self.bundles.install("shop", "yy", TEXT.replace("low", 'u{"\\ufeff\\ud800"} ":bin":bin{01} ":error"{"e"} list2{{"a"}} low'))
        table = self.look("", "yy")
        for key, value in table.items():
            found = table[key]
            same = list(value) == list(found) if isinstance(value, resb.Array) else value == found
            self.assertTrue(same and type(value) is type(found), key)
        self.assertEqual((dict(table.items())["u"], len(table)), ("\ufeff\ud800", 12))

    def test_tables_lack_what_is_hidden(self):
        self.bundles.install("shop", "root", 'root{t{"A"} u{a{"A"} b{"B"}}}')
        self.bundles.install("shop", "xx", 'xx{t{b{"B"}} u{"U"}}')
        self.bundles.install("shop", "xx_AT", 'xx_AT{u{c{"C"}}}')
        t, u = self.look("t", "xx"), self.look("u", "xx_AT")
        self.assertEqual((t, u), ({"b": "B"}, {"c": "C"}))
        self.assertEqual((t.get("0"), u["a"]), (None, "A"))

    def test_tables_of_icudata(self):
        with resb.Bundles({"root": 'root{t{a{"A"} b{"B"}}}', "de": 'de{t{b{"Be"}}}'}) as bundles:
            bundles.install("shop", "root", 'root{t:alias{"/ICUDATA/de"} u{t:alias{"/ICUDATA/de/t"} c{"C"}}}')
            self.assertEqual(bundles.look("shop", "de", "t"), {"a": "A", "b": "Be"})
            self.assertEqual(bundles.look("shop", "de", "u"), {"c": "C", "t": {"a": "A", "b": "Be"}})

    def test_tables_are_limited(self):
        tables = ["t0{%s}" % "".join(f'{key}{{""}}' for key in "abcdefghij")]
        tables += ["t%d{%s}" % (i, "".join(f'{key}:alias{{"/LOCALE/t{i - 1}"}}' for key in "abcdefghij")) for i in range(1, 8)]
        self.bundles.install("shop", "xx", "xx{%s}" % "".join(tables))
        table = self.look("t7", "xx")
        self.assertEqual((code(len, table), table["a"]["b"]["c"]["d"]["e"]["f"]["g"]["h"], len(self.look("t2", "xx"))), ("TooManySteps", "", 10))

    def test_prepared(self):
        prepared = resb.prepare('x{a{"b"} n:int{-1}}')
        self.assertEqual(prepared.text("de-at"), 'de_AT {\n    a { "b" }\n    n:int { 268435455 }\n}\n')
        self.assertEqual(prepared.json(), '{"a":"b","n":-1}')
        self.assertEqual(resb.prepare_json('{"n":-1,"a":"b"}').file(), prepared.file())
        self.assertEqual(resb.prepare(prepared.file()).json(), prepared.json())
        self.assertEqual(code(prepared.text, "-"), "BadLocale")
        copy_of = prepared.copy()
        with resb.Bundles() as other:
            other.release("shop", {"de": copy_of})
            self.assertEqual(other.text("shop", "de", "a"), "b")
        self.assertEqual(code(copy_of.copy), "NotOpen")
        self.assertEqual(prepared.json(), '{"a":"b","n":-1}')
        self.assertEqual(code(resb.prepare, "de{\na:int{09}}"), "TextBadInt, line 2")
        self.assertEqual(code(resb.prepare_json, '{\n"a": 1.5}'), "JsonBadNumber, line 2")
        self.assertEqual(code(resb.prepare, b"x"), "FileHeader")
        with self.assertRaises(TypeError):
            copy.copy(prepared)
        alias = resb.compile('de{"%%ALIAS"{"de"}}')
        resb.check(alias)
        self.assertEqual(code(resb.check_for_icu, alias), "IcuAlias")
        resb.check_for_icu(prepared.file())

    def test_lint(self):
        text = 'de{\na{"b" "c", "d"}\nb:int{09}\n}'
        found, more = resb.lint(text, "de")
        self.assertEqual([f[:4] for f in found], [(2, 6, False, "joined-strings"), (3, 7, True, "BadInt")])
        self.assertIn("'09'", found[1].message)
        self.assertEqual(more, 0)
        found, more = resb.lint(text.encode(), limit=0)
        self.assertEqual(([f.rule for f in found], more), (["BadInt"], 1))
        self.assertEqual([f.rule for f in resb.lint('de{a{"b"}}', "fr")[0]], ["bundle-name"])
        self.assertEqual(resb.lint('de{a{"b"}}', "de"), ([], 0))

    def test_alias_targets(self):
        file = resb.compile('de{a:alias{"fr/x"} b:alias{"/ICUDATA/de/y"} c:alias{"fr/z"} d:alias{"/LOCALE/a"}}')
        self.assertEqual(resb.alias_targets(file), ["/ICUDATA/de", "fr"])
        self.assertEqual(resb.alias_targets(resb.compile('de{a:alias{"%s"}}' % ("x" * 1000))), ["x" * 1000])
        self.assertEqual(resb.alias_targets(resb.compile('de{a{"b"}}')), [])
        self.assertEqual(code(resb.alias_targets, b""), "FileHeader")

    def test_releases(self):
        root = resb.prepare('x{open{"Open"} menu{quit{"Quit"}}}')
        self.bundles.release("shop", {"root": root, "de": resb.prepare(TEXT)})
        self.assertEqual(code(root.file), "NotOpen")
        self.assertEqual(self.bundles.item_json("shop", "de_AT", "open"), '{"actual":"root","type":"string","valid":"de","value":"Open"}')
        self.assertEqual(self.bundles.tree_json("shop", "de_AT", "menu"), '{"close":"Zu","open":"Auf","quit":"Quit"}')
        self.assertEqual(code(self.bundles.tree_json, "shop", "de_AT", "menu", 1), "TooManySteps")
        for call, path, length, error in ((self.bundles.item_json, "open", 61, "ReplyTooLong"), (self.bundles.tree_json, "menu", 41, "TreeTooLarge")):
            self.assertEqual(len(call("shop", "de_AT", path, 1000, length)), length)
            self.assertEqual(code(call, "shop", "de_AT", path, 1000, length - 1), error)
        self.assertEqual(code(self.bundles.release, "shop", {"root": None, "fr": None}), "Absent, bundle fr")
        self.assertEqual(code(self.bundles.release, "shop", {"fr": root}), "NotOpen, bundle fr")
        self.assertEqual(code(self.bundles.release, "sh op", {"fr": None}), "BadApp")
        self.assertEqual(self.bundles.list("shop"), ["de", "root"])
        self.bundles.release("shop", {"root": None})
        self.assertEqual(self.bundles.list("shop"), ["de"])

    def test_children(self):
        self.bundles.install("shop", "root", 'root{menu{quit{"Quit"}}}')
        children = self.bundles.children("shop", "de_AT", "")
        self.assertEqual([key for key, _ in children], ["b", "e", "greeting", "list", "low", "menu", "v", "z"])
        self.assertEqual([value for _, value in children[:3]], [b"\x00\xff", b"", "Grüß"])
        values = dict(children)
        self.assertEqual((list(values["list"]), values["low"], values["menu"]["quit"], values["v"], values["z"]), (["a", "bc"], -1, "Quit", [1, -2], ""))
        self.assertEqual(self.bundles.children("shop", "de", "list"), [("", "a"), ("", "bc")])
        self.assertEqual(code(self.bundles.children, "shop", "de", "low"), "OtherKind")
        self.assertEqual(code(self.bundles.children, "shop", "de", "none"), "Missing")
        self.bundles.install("shop", "xx", 'xx{a:alias{"/LOCALE/b"} b{"c"} t:table{}}')
        self.assertEqual(self.bundles.children("shop", "xx", ""), [("a", resb.Alias("/LOCALE/b")), ("b", "c"), ("t", {})])
        self.assertIsInstance(self.bundles.children("shop", "xx", "")[0][1], resb.Alias)
        self.assertEqual(self.bundles.children("shop", "xx", "t"), [])

    def test_lone_surrogates(self):
        self.bundles.install("shop", "xx", 'xx{a{"\\ud800"}}')
        self.assertEqual(self.look("a", "xx"), "\ud800")

    def test_long(self):
        self.bundles.install("shop", "xx", 'xx{a{"%s"}%s{"k"}}' % ("ä" * 5000, "k" * 200))
        self.assertEqual(self.look("a", "xx"), "ä" * 5000)
        self.assertEqual(list(self.look("", "xx")), ["a", "k" * 200])

    def test_errors(self):
        self.assertEqual(code(self.look, "nothing"), "Missing")
        self.assertEqual(code(self.bundles.look, "bank", "de", "greeting"), "NoBundle")
        self.assertEqual(code(self.bundles.install, "shop", "de", TEXT), "Exists")
        self.assertEqual(code(self.bundles.replace, "shop", "fr", TEXT), "Absent")
        for app, locale, bundle, error in (("shop", "fr", b"x", "BadFile"), ("shop", "fr", "fr{", "BadText"), ("shop", "-", b"", "BadLocale"), ("", "-", "fr{", "BadApp")):
            self.assertEqual(code(self.bundles.install, app, locale, bundle), error)
            self.assertEqual(code(self.bundles.replace, app, locale, bundle), error)
        self.assertRaises(TypeError, self.bundles.look, "shop", "de", None)
        self.assertEqual(code(resb.check, b""), "FileHeader")
        with self.assertRaises(resb.Error) as raised:
            resb.compile("de{\na:int{09}}")
        self.assertEqual((raised.exception.code, raised.exception.line, raised.exception.number), ("TextBadInt", 2, 40))

    def test_changes(self):
        file = resb.compile(TEXT)
        self.assertIsNone(resb.check(file))
        for i in range(100):
            self.bundles.install("many", f"de_{i:03}", file)
        self.assertEqual(self.bundles.list("many"), [f"de_{i:03}" for i in range(100)])
        self.bundles.replace("shop", "de", 'de{greeting{"Tag"}}')
        self.assertEqual(self.look("greeting"), "Tag")
        self.bundles.remove("shop", "de")
        self.assertEqual((code(self.look, "greeting"), self.bundles.list("shop")), ("NoBundle", []))

    def test_snapshot(self):
        bundles = resb.Bundles(icudata={"root": 'root{common{"C"}}'})
        bundles.install("shop", "de", 'de{a{"A"} c:alias{"/ICUDATA/root/common"}}')
        other = bundles.snapshot()
        other.remove("shop", "de")
        bundles.install("shop", "fr", 'fr{a{"F"}}')
        self.assertEqual([bundles.text("shop", "de", "a"), bundles.text("shop", "de", "c")], ["A", "C"])
        self.assertEqual([bundles.list("shop"), other.list("shop")], [["de", "fr"], []])
        bundles.close()
        other.install("shop", "de", 'de{c:alias{"/ICUDATA/root/common"}}')
        self.assertEqual(other.text("shop", "de", "c"), "C")
        self.assertEqual(code(bundles.snapshot), "NotOpen")

    def test_icudata_and_parents(self):
        common = {"de": 'de{months{"Januar","Februar"}}', "root": resb.compile('root{months{"M01","M02"}}')}
        bundles = resb.Bundles(common, 'x{parentLocales{root{"zh_Hant"}}}')
        self.addCleanup(bundles.close)
        bundles.install("shop", "root", 'root{x{"root"} month:alias{"/ICUDATA/de/months/1"}}')
        bundles.install("shop", "zh", 'zh{x{"Z"}}')
        self.assertEqual((bundles.look("shop", "zh_TW", "x"), bundles.look("shop", "zh_Hant_TW", "x")), ("Z", "root"))
        self.assertEqual((bundles.look("shop", "fr", "month"), bundles.apps()), ("Februar", 1))

    def test_errors_of_the_start(self):
        self.assertEqual(code(resb.Bundles, {"root": "root{}", "de": "de{"}), "BadText, bundle de")
        self.assertEqual(code(resb.Bundles, {"root": b"x"}), "BadFile, bundle root")
        self.assertEqual(code(resb.Bundles, {"de_AT": "de{}", "DE-at": "de{}"}), "Twice, bundle DE-at")
        self.assertEqual(code(resb.Bundles, {"-": "de{}"}), "BadLocale, bundle -")
        self.assertEqual(code(resb.Bundles, {}, "x{\nparentLocales{"), "TextUnexpected, line 2")
        self.assertEqual(code(resb.Bundles, {}, "x{}"), "ParentsShape")
        self.assertEqual(code(resb.Bundles, {}, 'x{parentLocales{root{"-"}}}'), "ParentsBadLocale")

    def test_limits(self):
        file = resb.compile(TEXT)
        self.bundles.install("bank", "de", file)
        self.assertEqual((self.bundles.usage("bank"), self.bundles.usage("none"), self.bundles.apps()), ((len(file), 1), (0, 0), 2))
        # de and root, each a step, and one more for the segment
        self.assertEqual(self.bundles.look_within("shop", "de", "greeting", 4), "Grüß")
        self.assertEqual(self.bundles.look_within("shop", "de", "z", 4), "")
        self.assertEqual(code(self.bundles.look_within, "shop", "de", "greeting", 3), "TooManySteps")

    def test_errors_leave_their_process(self):
        error = resb.Error(14, locale="de")
        for other in (pickle.loads(pickle.dumps(error)), copy.copy(error), copy.deepcopy(error)):
            self.assertEqual((str(other), other.number, other.locale), ("BadText, bundle de", 14, "de"))
        with multiprocessing.Pool(1) as pool, self.assertRaises(resb.Error) as raised:
            pool.map_async(fails, [1]).get(60)
        self.assertEqual((str(raised.exception), raised.exception.line), ("TextBadInt, line 2", 2))

    def test_bytes_like(self):
        file = resb.compile(TEXT)
        with tempfile.TemporaryFile() as stored:
            stored.write(file)
            stored.flush()
            with mmap.mmap(stored.fileno(), 0, access=mmap.ACCESS_READ) as mapped:
                for number, content in enumerate((bytearray(file), memoryview(file), mapped)):
                    self.assertIsNone(resb.check(content))
                    self.bundles.install("many", f"de_{number}", content)
        self.assertEqual(self.bundles.text("many", "de_2", "menu/open"), "Auf")
        self.assertEqual(code(resb.check, memoryview(file)[:0]), "FileHeader")
        self.assertEqual(resb.compile(bytearray(TEXT.encode())), file)
        common = resb.Bundles({"root": memoryview(file), "de": bytearray(file)})
        self.addCleanup(common.close)
        self.assertRaises(TypeError, resb.check, 7)
        self.assertRaises(BufferError, resb.check, memoryview(file)[::2])

    def test_copies(self):
        for call in (copy.copy, copy.deepcopy, pickle.dumps):
            self.assertRaises(TypeError, call, self.bundles)
        self.assertEqual(self.look("greeting"), "Grüß")

    def test_text(self):
        self.assertEqual(self.bundles.text("shop", "de", "greeting"), "Grüß")
        self.assertEqual(code(self.bundles.text, "shop", "de", "low"), "OtherKind")

    def test_interrupted_at_each_step(self):
        """Looks up and changes between the steps of other calls of the thread, as a signal handler may."""
        seen = set()

        def interrupt():
            return self.look("menu/open"), tuple(self.look("v")), code(self.bundles.remove, "shop", "none")

        def trace(frame, event, _):
            frame.f_trace_opcodes = frame.f_globals["__name__"] == "resb"
            if event == "opcode":
                seen.add(interrupt())
            return trace

        sys.settrace(trace)
        try:
            values = self.look("menu/open"), self.look("v"), self.bundles.list("shop")
            self.bundles.replace("shop", "de", TEXT)
            self.assertEqual(code(self.bundles.install, "shop", "de", TEXT), "Exists")
        finally:
            sys.settrace(None)
        self.assertEqual(values, ("Auf", [1, -2], ["de"]))
        self.assertEqual(seen, {("Auf", (1, -2), "Absent")})

    def test_a_finalizer_changes(self):
        """Looks up a list whose allocation would collect an object, whose finalizer removes the bundle."""
        bundles, numbers = self.bundles, list(range(1000))

        class Removes:
            def __init__(self):
                self.cycle = self

            def __del__(self):
                bundles.remove("shop", "xx")

        self.addCleanup(gc.set_threshold, *gc.get_threshold())
        for _ in range(10):
            bundles.install("shop", "xx", f"xx{{v:intvector{{{','.join(map(str, numbers))}}}}}")
            gc.disable()
            lists = [[] for _ in range(1000)]  # the interpreter's spare lists are in use
            Removes()
            gc.set_threshold(1)
            gc.enable()
            try:
                self.assertTrue(self.look("v", "xx") == numbers)
            except resb.Error as error:  # an interpreter may collect it before
                self.assertEqual(error.code, "NoBundle")
            gc.collect()
            self.assertEqual((code(self.look, "v", "xx"), len(lists)), ("NoBundle", 1000))

    def test_forks_beside_threads(self):
        """Looks up in children that are forked while other threads look up and change."""
        ends = threading.Event()

        def look():
            while not ends.is_set():
                self.look("v")

        def change():
            while not ends.is_set():
                self.bundles.replace("shop", "de", TEXT)

        threads = [threading.Thread(target=call) for call in (look, look, change)]
        for thread in threads:
            thread.start()
        statuses = [self.status_of_a_child() for _ in range(10)]
        ends.set()
        for thread in threads:
            thread.join()
        self.assertEqual(set(statuses), {0})

    def status_of_a_child(self):
        child = os.fork()
        if not child:
            signal.alarm(60)  # ends a child that waits for ever
            status = 1
            try:
                self.bundles.replace("shop", "de", TEXT)
                status = 0 if (self.look("v"), self.look("menu/open")) == ([1, -2], "Auf") else 2
            finally:
                os._exit(status)
        return os.waitstatus_to_exitcode(os.waitpid(child, 0)[1])

    def test_others_run_during_long_calls(self):
        counts, ends = [0], threading.Event()

        def count():
            while not ends.is_set():
                counts[0] += 1
                time.sleep(0)

        def counted(call, *arguments):
            """Returns whether another thread counts during a call: here a thread runs until it waits or a call lets others run."""
            before = counts[0]
            call(*arguments)
            return counts[0] > before

        self.addCleanup(sys.setswitchinterval, sys.getswitchinterval())
        sys.setswitchinterval(1000)
        counter = threading.Thread(target=count)
        counter.start()
        self.addCleanup(counter.join)
        self.addCleanup(ends.set)
        text = "de{%s}" % "".join('k%05d{"some text"}' % number for number in range(20_000))
        file = resb.compile(text)
        for call in ((resb.compile, text), (resb.check, file), (self.bundles.replace, "shop", "de", text), (resb.Bundles, {"de": file})):
            self.assertTrue(any(counted(*call) for _ in range(1000)), call[0])

    def test_closed(self):
        with self.bundles as bundles:
            self.assertIs(bundles, self.bundles)
        self.assertEqual((code(self.look, "greeting"), code(self.bundles.replace, "shop", "de", TEXT)), ("NotOpen", "NotOpen"))

    def test_threads(self):
        wrong = []

        def look():
            for _ in range(2000):
                seen = self.look("menu/open"), self.look("v")
                if seen != ("Auf", [1, -2]):
                    wrong.append(seen)

        def change():
            for _ in range(500):
                self.bundles.replace("shop", "de", TEXT)

        threads = [threading.Thread(target=call) for call in (look, look, look, change, change)]
        for thread in threads:
            thread.start()
        for thread in threads:
            thread.join()
        self.assertEqual(wrong, [])

    def test_a_version(self):
        self.assertRegex(resb.__version__, r"^\d+\.\d+\.\d+")


if __name__ == "__main__":
    unittest.main()
