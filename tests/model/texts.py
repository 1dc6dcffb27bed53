"""A reader of bundle texts, after docs/LANGUAGE.md.

`read` answers a bundle, or raises `BadText` with the error's word and line. If a text has several errors of its grammar the program
may report another one than this reader; `LEXICAL` has the words of which there is one at most.
"""
import re

from model.trees import is_printable, units_of

SPACE = "\t\n\r \u2029\ufeff"
SIGNS = "{},:"
LEXICAL = {"TooLong", "NotUtf8", "BadEscape", "OpenQuote", "OpenComment"}
ESCAPES = [(re.compile(form), base) for form, base in (
    (r"u([0-9a-fA-F]{4})", 16), (r"U([0-9a-fA-F]{8})", 16), (r"x([0-9a-fA-F]{1,2})", 16), (r"([0-7]{1,3})", 8))]
NAMED = dict(zip("abefnrtv", "\x07\x08\x1b\x0c\x0a\x0d\x09\x0b"))
LINE_END = re.compile("[\n\r\u2029]")
NUMBER = re.compile(r"([+-]?)(?:0[xX]([0-9a-fA-F]+)|(0[0-7]*)|([1-9][0-9]*))")


class BadText(Exception):
    """A text that is refused, with the error's word and line."""

    def __init__(self, word, line):
        super().__init__(word, line)
        self.word = word
        self.line = line


class Lexer:
    """Cuts a text into tokens: a pair of units and line for a text, and of a sign and its line for punctuation. A call reads what begins at `at`."""

    def __init__(self, text):
        self.text = text
        self.at = 0
        self.tokens = []
        self.counted = (0, 1)

    def line(self, at):
        """The line of a place, which is no earlier than the last one that was asked for."""
        begin, line = self.counted
        self.counted = at, line + self.text.count("\n", begin, at)
        return self.counted[1]

    def refuse(self, word, at):
        raise BadText(word, self.line(at))

    def skip_comment(self):
        """Skips a comment that begins here, if one does."""
        if self.text.startswith("//", self.at):
            end = LINE_END.search(self.text, self.at)
            self.at = end.end() if end else len(self.text)
            return True
        if self.text.startswith("/*", self.at):
            end = self.text.find("*/", self.at + 2)
            if end < 0:
                self.refuse("OpenComment", len(self.text))
            self.at = end + 2
            return True
        return False

    def escape(self):
        begin = self.at
        for form, base in ESCAPES:
            found = form.match(self.text, begin + 1)
            if found and int(found[1], base) <= 0x10FFFF:
                self.at = found.end()
                return units_of(chr(int(found[1], base)))
        letter = self.text[begin + 1:begin + 2]
        if letter == "" or letter in "cuUx":
            self.refuse("BadEscape", begin)
        self.at = begin + 2
        return units_of(NAMED.get(letter, letter))

    def unit(self):
        if self.text[self.at] == "\\":
            return self.escape()
        self.at += 1
        return units_of(self.text[self.at - 1])

    def quoted(self):
        self.at += 1
        units = ()
        while self.text[self.at:self.at + 1] != '"':
            if self.at >= len(self.text):
                self.refuse("OpenQuote", len(self.text))
            units += self.unit()
        self.at += 1
        return units

    def unquoted(self):
        units = ()
        while self.at < len(self.text) and self.text[self.at] not in SPACE + SIGNS + '"':
            if not self.skip_comment():
                units += self.unit()
        return units

    def texts(self):
        merged, was_quoted = (), None
        while self.skip_blank():
            if self.text[self.at] in SIGNS:
                break
            is_quoted = self.text[self.at] == '"'
            piece = self.quoted() if is_quoted else self.unquoted()
            if merged and not (was_quoted and is_quoted):
                merged += (0x20,)
            merged, was_quoted = merged + piece, is_quoted
        return merged

    def skip_blank(self):
        """Skips white space and comments; says whether something is left."""
        while self.at < len(self.text):
            if self.text[self.at] in SPACE:
                self.at += 1
            elif not self.skip_comment():
                return True
        return False

    def run(self):
        while self.skip_blank():
            line = self.line(self.at)
            if self.text[self.at] in SIGNS:
                self.tokens.append((self.text[self.at], line))
                self.at += 1
            else:
                self.tokens.append((self.texts(), line))
        self.tokens.append((None, self.line(len(self.text))))
        return self.tokens


def integer(units, least, most):
    found = NUMBER.fullmatch("".join(map(chr, units)))
    if not found:
        return None
    sign, hexadecimal, octal, decimal = found.groups()
    value = int(hexadecimal, 16) if hexadecimal else int(octal, 8) if octal else int(decimal)
    value = -value if sign == "-" else value
    return value if least <= value <= most else None


class Parser:
    """Reads tokens as a bundle."""

    def __init__(self, tokens):
        self.tokens = tokens
        self.at = 0

    def peek(self, ahead=0):
        return self.tokens[min(self.at + ahead, len(self.tokens) - 1)][0]

    def refuse(self, word):
        raise BadText(word, self.tokens[min(self.at, len(self.tokens) - 1)][1])

    def has_text(self, ahead=0):
        return isinstance(self.peek(ahead), tuple)

    def take(self, sign):
        if self.peek() != sign:
            self.refuse("Unexpected")
        self.at += 1

    def skip(self, sign):
        if self.peek() == sign:
            self.at += 1

    def take_text(self):
        if not self.has_text():
            self.refuse("Unexpected")
        self.at += 1
        return self.tokens[self.at - 1][0]

    def type_word(self):
        if self.peek() != ":":
            return None
        self.at += 1
        return "".join(map(chr, self.take_text()))

    def guess(self):
        """The type of a body without one."""
        self.take("{")
        self.at -= 1
        first, second = self.peek(1), self.peek(2)
        if first in ("{", ":", "}"):
            return "array"
        if not isinstance(first, tuple):
            self.refuse("Unexpected")
        guessed = {",": "array", "}": "string", "{": "table", ":": "table"}.get(second)
        if guessed is None:
            self.refuse("Unexpected")
        return guessed

    def value(self, level):
        if level > 64:
            self.refuse("TooDeep")
        word = self.type_word()
        word = self.guess() if word is None else word
        if word not in BODIES:
            self.refuse("Unexpected" if word == "table(nofallback)" else "UnknownType")
        self.take("{")
        item = BODIES[word](self, level)
        self.take("}")
        return item

    def table(self, level):
        found = {}
        while self.peek() != "}":
            key = "".join(map(chr, self.take_text()))
            if not key or not is_printable(key):
                self.refuse("BadKey")
            if key in found:
                self.refuse("DuplicateKey")
            found[key] = self.value(level + 1)
            self.skip(",")
        return "table", dict(sorted(found.items()))

    def array(self, level):
        found = []
        while self.peek() != "}":
            if self.has_text() and level >= 64:
                self.refuse("TooDeep")
            found.append(("string", self.take_text()) if self.has_text() else self.value(level + 1))
            self.skip(",")
        return "array", found

    def any_text(self):
        return self.take_text() if self.has_text() else ()

    def binary(self, _level):
        digits = "".join(chr(unit) for unit in self.any_text() if unit not in (9, 10, 13, 32))
        if len(digits) % 2 or not re.fullmatch("[0-9a-fA-F]*", digits):
            self.refuse("BadHex")
        return "bin", bytes.fromhex(digits)

    def int(self, _level):
        value = integer(self.take_text(), -134217728, 268435455)
        if value is None:
            self.refuse("BadInt")
        return "int", value & 0x0FFFFFFF

    def vector(self, _level):
        found = []
        while self.peek() != "}":
            value = integer(self.take_text(), -2147483648, 4294967295)
            if value is None:
                self.refuse("BadInt")
            found.append(value - (value >> 31 << 32) if value >= 0 else value)
            self.skip(",")
        return "intvector", found

    def bundle(self):
        self.take_text()
        word = self.type_word()
        if word not in (None, "table", "table(nofallback)"):
            self.refuse("Unexpected" if word in BODIES else "UnknownType")
        self.take("{")
        tree = self.table(1)
        self.take("}")
        if self.peek() is not None:
            self.refuse("TrailingText")
        return tree, word == "table(nofallback)"


BODIES = {
    "table": Parser.table, "array": Parser.array, "intvector": Parser.vector,
    "int": Parser.int, "integer": Parser.int, "bin": Parser.binary, "binary": Parser.binary,
    "string": lambda parser, _level: ("string", parser.any_text()),
    "alias": lambda parser, _level: ("alias", parser.any_text()),
}


def read(source):
    if len(source) > 8388608:
        raise BadText("TooLong", 1)
    try:
        text = source.decode("utf-8")
    except UnicodeDecodeError as error:
        raise BadText("NotUtf8", 1 + source.count(b"\n", 0, error.start)) from None
    return Parser(Lexer(text).run()).bundle()
