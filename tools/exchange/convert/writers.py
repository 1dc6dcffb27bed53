"""Writes the strings of a bundle as Java's properties, or as Android's or iOS's resources."""
import os
import plistlib
import re
from typing import Any, Iterator, NamedTuple, Optional

from ..common import SURROGATE
from ..properties import line_of
from ..texts import Bundle, Node, Other
from ..xml_tree import Element, xml_bytes
from .catalogue import Catalogue, name_of
from .placeholders import to_printf

PLURAL = re.compile(r"\{\s*(\w+)\s*,\s*plural\s*,\s*")
FORM = re.compile(r"\s*(=\d+|\w+)\s*\{")
MIXED = ("string", "item", "key")
CATEGORIES = {"=0": "zero", "=1": "one", "=2": "two"}


class Item(NamedTuple):
    """A string or an array of strings of a bundle, with its line and comments."""

    path: tuple[str, ...]
    value: Any
    line: int
    comments: list[str]


class File(NamedTuple):
    name: str
    data: bytes


def items_of(item: Any, node: Node, path: tuple[str, ...] = ()) -> Iterator[Item]:
    """Yields the items of a bundle in the order of its text: strings, arrays of strings, and what has no other form."""
    for key, inner in node.children.items():
        value, here = (item[key] if isinstance(item, dict) else item[int(key)]), (*path, name_of(key))
        if isinstance(value, dict) or isinstance(value, list) and not all(isinstance(one, str) for one in value):
            yield from items_of(value, inner, here)
        else:
            comments = inner.comments + [note for one in inner.children.values() for note in one.comments]
            yield Item(here, value, inner.line, comments)


def texts_of(bundle: Bundle, catalogue: Catalogue) -> Iterator[tuple[Item, dict[str, str]]]:
    """Yields the strings of a bundle with their texts by keys with full stops; another item is left out, and in the report."""
    for item in items_of(bundle.tree, bundle.root):
        key = ".".join(item.path)
        if isinstance(item.value, Other):
            catalogue.doubt(item.line, key, f"an item of the type {item.value.kind} is left out")
        else:
            yield item, {key: item.value} if isinstance(item.value, str) else {f"{key}.{count}": text for count, text in enumerate(item.value)}


def plural_forms(message: str) -> Optional[tuple[str, dict[str, str], str, str]]:
    """Returns the argument of a plural that a message has, its forms, and the texts before and after it."""
    found = PLURAL.search(message)
    if not found or re.search(r"\{\s*\w+\s*,\s*select|offset:", message):
        return None
    at, forms = found.end(), {}
    while form := FORM.match(message, at):
        end = inner_end(message, form.end())
        forms[CATEGORIES.get(form[1], form[1])] = message[form.end() : end]
        at = end + 1
    closed = re.compile(r"\s*\}").match(message, at)
    after = message[closed.end() :] if closed else ""
    return (found[1], forms, message[: found.start()], after) if closed and "other" in forms and not PLURAL.search(after) else None


def inner_end(message: str, at: int) -> int:
    """Returns where the brace closes that was opened before an offset."""
    depth = 1
    for found in re.compile(r"'[{}#](?:[^']|'')*'?|[{}]").finditer(message, at):
        depth += {"{": 1, "}": -1}.get(found[0], 0)
        if depth == 0:
            return found.start()
    return len(message)


def counted(forms: dict[str, str], argument: str, string: str, whole: str) -> tuple[dict[str, str], list[str]]:
    """Returns the forms with printf's placeholders, `#` as that of the count."""
    number = f"{{{argument}, number}}"
    texts = {one: re.sub(r"'#'|#", lambda found: "#" if found[0] == "'#'" else number, text) for one, text in forms.items()}
    made = {one: to_printf(text, string, whole) for one, text in texts.items()}
    return {one: text.text for one, text in made.items()}, [doubt for text in made.values() for doubt in text.doubts]


def write_java(bundle: Bundle, locale: str, module: str, catalogue: Catalogue) -> Iterator[File]:
    lines = []
    for item, values in texts_of(bundle, catalogue):
        if PLURAL.search(str(item.value)):
            catalogue.doubt(item.line, ".".join(item.path), "a plural, which Java's MessageFormat doesn't have; ICU4J's has")
        lines += [f"# {line}" for comment in item.comments for line in comment.split("\n")]
        lines += [line_of(one, text) for one, text in values.items()]
    yield File(f"{module}{'_' * bool(locale)}{locale}.properties", "".join(f"{line}\n" for line in lines).encode("utf-8"))


# --- Android


def android_name(path: tuple[str, ...]) -> str:
    name = re.sub(r"\W", "_", "_".join(path), flags=re.A)
    return name if re.match("[A-Za-z_]", name) else "_" + name


def android_escaped(text: str) -> str:
    """Escapes what Android's resources act on; a text with white space that counts is in quotes."""
    text = re.sub(r"[\\'\"\n\t]", lambda found: "\\" + {"\n": "n", "\t": "t"}.get(found[0], found[0]), text)
    text = re.sub("[\0-\x08\x0b-\x1f\ufffe\uffff\ud800-\udfff]", lambda found: f"\\u{ord(found[0]):04x}", text)
    if text[:1] in ("@", "?"):
        text = "\\" + text
    return f'"{text}"' if re.search(r"^ | $|  |^$", text) and text else text


def android_folder(locale: str) -> str:
    parts = locale.split("_")
    if not locale:
        return "values"
    if len(parts) == 1:
        return f"values-{locale}"
    return f"values-{parts[0]}-r{parts[1]}" if len(parts) == 2 and len(parts[1]) == 2 else "values-b+" + "+".join(filter(None, parts))


def write_android(bundle: Bundle, locale: str, module: str, catalogue: Catalogue) -> Iterator[File]:
    del module
    root, names = Element("resources", {}), {}
    for item in items_of(bundle.tree, bundle.root):
        name = android_name(item.path)
        key = "/".join(item.path)
        if names.setdefault(name, key) != key:
            catalogue.doubt(item.line, key, f"has the name {name}, as {names[name]} has: left out")
        elif isinstance(item.value, Other) and item.value.kind != "int":
            catalogue.doubt(item.line, key, f"an item of the type {item.value.kind} is left out")
        else:
            put_android(root, name, item, catalogue)
    yield File(os.path.join(android_folder(locale), "strings.xml"), xml_bytes(root, MIXED, '"'))


def put_android(root: Element, name: str, item: Item, catalogue: Catalogue) -> None:
    def text_in(message: str) -> str:
        made = to_printf(message, "s", "d")
        for doubt in made.doubts:
            catalogue.doubt(item.line, "/".join(item.path), doubt)
        return android_escaped(made.text)

    plural = plural_forms(item.value) if isinstance(item.value, str) else None
    if isinstance(item.value, Other):
        element = root.add("integer", name=name)
        element.add_text(str(item.value.value))
    elif isinstance(item.value, list):
        element = root.add("string-array", name=name)
        for text in item.value:
            element.add("item").add_text(text_in(text))
    elif plural and not plural[2] and not plural[3]:
        element = root.add("plurals", name=name)
        forms, doubts = counted(plural[1], plural[0], "s", "d")
        for category, text in forms.items():
            element.add("item", quantity=category).add_text(android_escaped(text))
        for doubt in doubts:
            catalogue.doubt(item.line, "/".join(item.path), doubt)
    else:
        element = root.add("string", name=name)
        element.add_text(text_in(item.value))
    element.comments = item.comments


# --- iOS


def ios_quoted(text: str) -> str:
    text = re.sub(r'[\\"\n\t\r]', lambda found: "\\" + {"\n": "n", "\t": "t", "\r": "r"}.get(found[0], found[0]), text)
    return '"' + SURROGATE.sub(lambda found: f"\\U{ord(found[0]):04x}", text) + '"'


def write_ios(bundle: Bundle, locale: str, module: str, catalogue: Catalogue) -> Iterator[File]:
    lines, plurals = [], {}
    for item, values in texts_of(bundle, catalogue):
        lines += [f"/* {comment.replace('*/', '* /')} */" for comment in item.comments]
        for one, text in values.items():
            plural = plural_forms(text)
            if plural:
                plurals[one], doubts = ios_plural(plural)
            else:
                made = to_printf(text, "@", "ld")
                doubts = made.doubts
                lines.append(f"{ios_quoted(one)} = {ios_quoted(made.text)};")
            for doubt in doubts:
                catalogue.doubt(item.line, one, doubt)
    folder = f"{locale.replace('_', '-') or 'Base'}.lproj"
    yield File(os.path.join(folder, f"{module}.strings"), "".join(f"{line}\n" for line in lines).encode())
    if plurals:
        yield File(os.path.join(folder, f"{module}.stringsdict"), plistlib.dumps(plurals, sort_keys=False))


def ios_plural(plural: tuple[str, dict[str, str], str, str]) -> tuple[dict, list[str]]:
    argument, forms, before, after = plural
    texts, doubts = counted(forms, argument, "@", "ld")
    place = f"{int(argument) + 1}$" if argument.isdecimal() and argument != "0" else ""
    around = [to_printf(text, "@", "ld") for text in (before, after)]
    doubts += [doubt for one in around for doubt in one.doubts]
    variable = {"NSStringFormatSpecTypeKey": "NSStringPluralRuleType", "NSStringFormatValueTypeKey": "ld", **texts}
    return {"NSStringLocalizedFormatKey": f"{around[0].text}%{place}#@count@{around[1].text}", "count": variable}, doubts
