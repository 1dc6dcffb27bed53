"""Turns placeholders of other formats into the arguments of ICU's messages, and back; says what isn't certain."""
import re
from dataclasses import dataclass, field
from typing import Callable, Optional

PRINTF = re.compile(
    r"%(?:(?P<percent>%)|\((?P<name>\w+)\)(?P<named>[-+ #0]*\d*(?:\.\d+)?[a-zA-Z])"
    r"|(?:(?P<place>\d{1,3})\$)?(?P<flags>[-+ #0,']*)(?P<width>\d+|\*)?(?P<precision>\.(?:\d+|\*)?)?"
    r"(?P<size>hh|h|ll|l|q|L|z|t|j)?(?P<kind>[diouxXeEfFgGaAcCsSp@n]))"
)
MUSTACHE = re.compile(r"\{\{-?\s*([\w.]+)\s*(?:,[^{}]*)?\}\}|\$t\([^)]*\)")
WHOLE = "diu"
LITERAL = re.compile(r"[{}']")


@dataclass
class Converted:
    """A text as a message or as it is, with its arguments, and what a person has to look at."""

    text: str
    arguments: list[str] = field(default_factory=list)
    count: str = ""
    doubts: list[str] = field(default_factory=list)


def literal(text: str, in_plural: bool) -> str:
    """Returns a text as a message writes it: braces in apostrophes, apostrophes twice."""
    pattern = r"[{}']|#" if in_plural else r"[{}']"
    return re.sub(pattern, lambda found: "''" if found[0] == "'" else f"'{found[0]}'", text)


def converted(
    text: str, pattern: re.Pattern, argument: Callable[[re.Match, Converted], Optional[str]], in_plural: bool = False
) -> Converted:
    """Returns a text with its placeholders replaced; `argument` returns what to write for one, or None to leave it."""
    made, parts, at, literals = Converted(text), [], 0, []
    for found in pattern.finditer(text):
        new = argument(found, made)
        if new is not None:
            literals.append(text[at : found.start()])
            parts += [("text", text[at : found.start()]), ("code", new)]
            at = found.end()
    parts.append(("text", text[at:]))
    if not made.arguments and not in_plural:
        if any(kind == "code" for kind, _ in parts):
            made.text = "".join(one for _, one in parts)
            made.doubts.append(f"{text[:40]!r} lost a sign of percent")
        if "{" in made.text or "}" in made.text:
            made.doubts.append("its braces would be arguments of a message")
        return made
    made.text = "".join(one if kind == "code" else literal(one, in_plural) for kind, one in parts)
    return made


def of_printf(text: str, counted: bool = False) -> Converted:
    """Converts `%s`, `%1$d`, `%@`, `%(name)s` and `%%`. `counted` says that the first whole number is a plural's count: it is `#`."""
    places = {"next": 0}

    def put(made: Converted, name: str, is_whole: bool) -> str:
        made.arguments.append(name)
        made.count = made.count or name if counted and is_whole else made.count
        return "#" if counted and is_whole and made.count == name else f"{{{name}}}"

    def argument(found: re.Match, made: Converted) -> Optional[str]:
        if found["percent"]:
            return "%"
        if found["name"]:
            if not re.fullmatch("[-+ #0]*[sd]", found["named"]):
                made.doubts.append(f"the format of {found[0]} is lost")
            return put(made, found["name"], found["named"][-1] == "d")
        if " " in found["flags"] or found["kind"] == "n":
            made.doubts.append(f"{found[0]!r} is left as it is")
            return None
        if found["width"] or found["precision"] or found["flags"] or found["kind"] not in "dius@S":
            made.doubts.append(f"the format of {found[0]} is lost")
        place = int(found["place"]) - 1 if found["place"] else places["next"]
        places["next"] += not found["place"]
        return put(made, str(place), found["kind"] in WHOLE)

    return converted(text, PRINTF, argument, counted)


def of_mustache(text: str, counted: bool = False) -> Converted:
    """Converts i18next's `{{name}}`; `{{count}}` of a plural is `#`."""

    def argument(found: re.Match, made: Converted) -> Optional[str]:
        if not found[1]:
            made.doubts.append(f"{found[0]} is left as it is: it includes another string")
            return None
        name = found[1].replace(".", "_")
        if "," in found[0] or "." in found[1]:
            made.doubts.append(f"{found[0]} became {{{name}}}")
        made.arguments.append(name)
        made.count = "count" if counted and name == "count" else made.count
        return "#" if counted and name == "count" else f"{{{name}}}"

    return converted(text, MUSTACHE, argument, counted)


def of_java(text: str) -> Converted:
    """Leaves a text of Java as it is: ICU reads its `{0}` too, except for lone apostrophes, which Java drops."""
    made = Converted(text)
    if re.search(r"\{\d", text) and re.search("(?<!')'(?:'')*(?!')", text):
        made.doubts.append("a lone apostrophe begins a quotation in Java, and is one for ICU only before a brace")
    found = (one for one in PRINTF.finditer(text) if not text[one.end() : one.end() + 1].isalnum())
    if any(one["kind"] and " " not in one["flags"] for one in found):
        made.doubts.append("it has placeholders such as %s, which are left as they are")
    return made


def plural_of(forms: dict[str, str], convert: Callable[[str, bool], Converted], count: str = "") -> Converted:
    """Returns the message of a plural whose forms have placeholders, by categories."""
    made = {category: convert(text, True) for category, text in forms.items()}
    name = count or next((one.count for one in reversed(made.values()) if one.count), "")
    doubts = [doubt for one in made.values() for doubt in one.doubts]
    doubts += ["which argument is the count isn't clear"] * (not name)
    text = plural(name or "0", {category: one.text for category, one in made.items()})
    return Converted(text, [name or "0"], doubts=list(dict.fromkeys(doubts)))


def plural(count: str, forms: dict[str, str]) -> str:
    """Returns a plural's message; `forms` has messages by their categories, `=0` among them."""
    return f"{{{count}, plural, {' '.join(f'{category} {{{text}}}' for category, text in forms.items())}}}"


SIMPLE = re.compile(r"\{\s*(\w+)\s*(?:,\s*(number|date|time)\s*(?:,[^{}']*)?)?\}")


def to_printf(message: str, string: str, whole: str) -> Converted:
    """Returns a message's text with printf's placeholders: `string` and `whole` are the letters of a text's and a number's. A message
    with other arguments than simple ones is left as it is."""
    names: dict[str, int] = {}
    made = Converted(message)
    if "{" not in message and "}" not in message:
        made.text = message
        return made
    parts, at = [], 0
    for found in re.finditer(r"''|'[{}|#](?:[^']|'')*'?|\{[^{}]*\}|[{}]|%", message):
        parts.append(message[at : found.start()])
        at = found.end()
        simple = SIMPLE.fullmatch(found[0])
        if found[0] == "''":
            parts.append("'")
        elif found[0] == "%":
            parts.append("%%")
        elif found[0][0] == "'":
            parts.append(found[0][1:].removesuffix("'").replace("''", "'"))
        elif simple:
            place = int(simple[1]) + 1 if simple[1].isdecimal() else names.setdefault(simple[1], len(names) + 1)
            if not simple[1].isdecimal():
                made.doubts.append(f"{found[0]} became argument {place}")
            if simple[2] in ("date", "time") or simple[0].count(",") > 1:
                made.doubts.append(f"the format of {found[0]} is lost")
            made.arguments.append(simple[1])
            parts.append(f"%{place}${whole if simple[2] == 'number' else string}")
        else:
            return Converted(message, doubts=["a message with other than simple arguments is left as it is"])
    made.text = "".join([*parts, message[at:]])
    return made
