"""Reads catalogues of other formats: Java's properties, gettext, Android, iOS, i18next and XLIFF."""
import json
import os
import plistlib
import re
from typing import Any, Callable, Iterator, NamedTuple, Optional
from xml.parsers import expat
from xml.sax.saxutils import unescape

from .. import states
from ..common import Document, Failure, decoded, read_file, shown
from ..po import entries_of
from ..properties import read_lines
from ..texts import Other
from ..xliff import read_xliff1, read_xliff2
from ..xml_tree import Element, read_xml
from .catalogue import Catalogue, folder_of, key_of, locale_of, refuse
from .placeholders import Converted, of_java, of_mustache, of_printf, plural_of
from .plurals import CATEGORIES, of_gettext

JAVA_NAME = re.compile(r"(.+?)_([a-z]{2,3}(?:_[A-Z][a-z]{3})?(?:_[A-Z]{2}|_\d{3})?(?:_\w{4,8})?)")
STRINGS_TOKEN = re.compile(
    r'\s+|/\*(?P<block>.*?)\*/|//(?P<line>[^\n]*)|"(?P<quoted>(?:[^"\\]|\\.)*)"|(?P<bare>[\w./-]+)|(?P<sign>[=;])', re.S
)
PRINTF_FLAG = re.compile("(?:c|objc|python|php|perl|sh)-format")
JSON_STRING = re.compile(r'"((?:[^"\\]|\\.)*)"(\s*:)?')
STRINGS_ESCAPE = re.compile(r"\\(?:[uU]([0-9a-fA-F]{4})|(.))", re.S)
CONTROLS = {"n": "\n", "t": "\t", "r": "\r", "f": "\f", "b": "\b", "a": "\a", "v": "\v"}
Convert = Callable[[str, bool], Converted]


class Options(NamedTuple):
    """The options of reading catalogues: `locale` is the one that the caller names, empty for the root, and None if the files do."""

    keeps: bool
    locale: Optional[str]

    def locale_or(self, found: Optional[str]) -> Optional[str]:
        """Returns the locale of the caller, or else the one that was found."""
        return found if self.locale is None else self.locale


class Lines:
    """Finds the lines of keys, which are asked for in the order of the text."""

    def __init__(self, text: str, keys_of: Callable[[str], Iterator[tuple[int, str]]]):
        self.text, self.keys, self.at, self.line = text, keys_of(text), 0, 1

    def of(self, key: str) -> int:
        for start, found in self.keys:
            self.line += self.text.count("\n", self.at, start)
            self.at = start
            if found == key:
                break
        return self.line


def json_keys(text: str) -> Iterator[tuple[int, str]]:
    """Yields the keys of a JSON text that can be read, with their places."""
    for found in JSON_STRING.finditer(text):
        if found[2]:
            yield found.start(), json.loads(f'"{found[1]}"') if "\\" in found[1] else found[1]


def plist_keys(text: str) -> Iterator[tuple[int, str]]:
    """Yields the keys of a property list, with their places."""
    return ((found.start(), unescape(found[1])) for found in re.finditer("<key>([^<]*)</key>", text))


def as_it_is(text: str, _counted: bool = False) -> Converted:
    return Converted(text)


# --- Java


def java_place(path: str, top: str) -> tuple[str, str]:
    """Returns the module and the locale of a file by its name. Three letters are a language only beside a file without them."""
    folder, stem = folder_of(path, top), os.path.splitext(os.path.basename(path))[0]
    found = JAVA_NAME.fullmatch(stem)
    beside = found and os.path.exists(os.path.join(os.path.dirname(path), f"{found[1]}.properties"))
    if found and (beside or len(found[2].split("_")[0]) == 2):
        return os.path.join(folder, found[1]), locale_of(found[2]) or ""
    return os.path.join(folder, stem), ""


def java_text(data: bytes, path: str) -> tuple[str, bool]:
    """Returns a file's text: Java before version 9 reads ISO-8859-1."""
    try:
        return data.decode("utf-8-sig"), False
    except UnicodeDecodeError:
        return data.decode("latin-1"), True


def read_java(path: str, top: str, options: Options) -> Iterator[Catalogue]:
    module, locale = java_place(path, top)
    catalogue = Catalogue(module, options.locale_or(locale), path)
    text, is_latin = java_text(read_file(path), path)
    if is_latin:
        catalogue.doubt(1, "", "isn't UTF-8, so it is read as ISO-8859-1")
    for one in read_lines(path, text):
        catalogue.put_text((one.key,), Converted(one.value) if options.keeps else of_java(one.value), one.line, one.comments)
    yield catalogue


# --- gettext


def po_place(path: str, top: str, language: str) -> tuple[str, Optional[str]]:
    folder, stem = os.path.dirname(os.path.abspath(path)), os.path.splitext(os.path.basename(path))[0]
    if os.path.basename(folder) == "LC_MESSAGES":
        return stem, locale_of(os.path.basename(os.path.dirname(folder)))
    for separator in (".", "-", "_"):
        base, _, tag = stem.rpartition(separator)
        if base and tag.islower() and len(tag) == 2:
            return os.path.join(folder_of(path, top), base), locale_of(tag)
    return folder_of(path, top), locale_of(stem) or locale_of(language)


def in_utf8(path: str, data: bytes) -> bytes:
    """Returns a catalogue in UTF-8; its header names another encoding."""
    found = re.search(rb"charset=([\w.:-]+)", data[:4000])
    name = found[1].decode("ascii", "replace") if found else "UTF-8"
    if name.upper() in ("UTF-8", "CHARSET"):
        return data
    try:
        return data.decode(name).replace(f"charset={name}", "charset=UTF-8", 1).encode()
    except (LookupError, UnicodeDecodeError):
        raise refuse(path, 1, f"the encoding {shown(name)}, which it isn't or which isn't known") from None


def read_po(path: str, top: str, options: Options) -> Iterator[Catalogue]:
    """Yields the msgids, as what all locales inherit, and the translations. Keys are the msgids, after their contexts."""
    file = entries_of(path, in_utf8(path, read_file(path)))
    language = file.metadata.get("Language", "")
    module, locale = po_place(path, top, language)
    locale = options.locale_or(locale)
    root, made = Catalogue(module, "", path), Catalogue(module, locale or "", path)
    if locale is None and any(entry.translated() for entry in file):
        raise refuse(path, 1, "neither its name nor its header names a language; --locale does")
    for entry in file:
        key = f"{entry.msgctxt}\x04{entry.msgid}" if entry.msgctxt else entry.msgid
        if entry.obsolete:
            made.doubt(entry.linenum or 1, key, "obsolete, left out")
            continue
        if key_of(key) in root.tree:
            root.doubt(entry.linenum or 1, key, "is there twice; the last one counts")
        convert: Convert = as_it_is if options.keeps else by_flags(entry.flags)
        put_po(entry, key, file.metadata.get("Plural-Forms", ""), convert, root, made)
    yield root
    if locale is not None:
        yield made


def by_flags(flags: list[str]) -> Convert:
    """Returns what converts the strings of an entry. Without a flag of a format, strings with placeholders have those of printf."""
    formats = [flag for flag in flags if flag.endswith("-format")]
    return of_printf if any(map(PRINTF_FLAG.fullmatch, formats)) else as_it_is if formats else of_unflagged


def of_unflagged(text: str, counted: bool) -> Converted:
    made = of_printf(text, counted)
    return made if made.arguments or counted else Converted(text)


def put_po(entry: Any, key: str, forms: str, convert: Convert, root: Catalogue, made: Catalogue) -> None:
    line, comments = entry.linenum or 1, [*entry.comment.split("\n"), *entry.tcomment.split("\n")]
    if entry.msgid_plural:
        source = plural_of({"one": entry.msgid, "other": entry.msgid_plural}, convert)
        root.tree.pop(key_of(key), None)
        root.put_text((key,), source, line, comments)
    else:
        root.tree.pop(key_of(key), None)
        root.put_text((key,), convert(entry.msgid, False), line, comments)
    translated = entry.msgstr_plural if entry.msgid_plural else {0: entry.msgstr}
    if entry.fuzzy or not all(translated.values()) or not translated:
        if entry.fuzzy:
            made.doubt(line, key, "fuzzy, left out")
        return
    if entry.msgid_plural:
        by_category, doubt = of_gettext(made.locale, forms, {int(number): text for number, text in translated.items()})
        found = plural_of(by_category, convert, source.arguments[0])
        found.doubts += [doubt] if doubt else []
        made.put_text((key,), found, line)
    else:
        made.put_text((key,), convert(entry.msgstr, False), line)


# --- Android

BLANK = "\0"


def android_place(path: str, top: str, options: Options) -> tuple[str, str]:
    folder = os.path.dirname(os.path.abspath(path))
    name = os.path.basename(folder)
    qualifiers = name.removeprefix("values").removeprefix("-") if name.startswith("values") else ""
    module = os.path.relpath(os.path.dirname(folder), os.path.abspath(top)) if name.startswith("values") else ""
    locale = options.locale_or(locale_of(qualifiers) if qualifiers else "")
    if locale is None:
        raise refuse(path, 1, f"{shown(name)} isn't a folder of a locale")
    return "" if module in (".", "..") else module, locale


def android_string(element: Element) -> str:
    """Returns the text of an element, without the white space at its ends that isn't in quotes or escaped."""
    return android_text(element).strip(BLANK).replace(BLANK, " ")


def android_text(element: Element) -> str:
    """Returns the text of an element; the tags in it stay, except for marks of what isn't translated."""
    parts = [android_unescaped(element.text)]
    for child in element.children:
        inner = android_text(child)
        tags = "".join(f' {name}="{value}"' for name, value in child.attributes.items())
        parts += [inner if child.namespace else f"<{child.name}{tags}>{inner}</{child.name}>", android_unescaped(child.tail)]
    return "".join(parts)


def android_unescaped(text: str) -> str:
    """Reads Android's escapes. White space outside of quotes is one blank, marked by what XML can't have."""

    def value(found: re.Match) -> str:
        if found["space"]:
            return BLANK
        if found["quoted"] is not None:
            return android_escapes(found["quoted"])
        return android_escapes(found[0])

    return re.sub(r'(?P<space>\s+)|"(?P<quoted>(?:[^"\\]|\\.)*)"|\\u[0-9a-fA-F]{4}|\\.', value, text, flags=re.S)


def android_escapes(text: str) -> str:
    return STRINGS_ESCAPE.sub(lambda found: chr(int(found[1], 16)) if found[1] else CONTROLS.get(found[2], found[2]), text)


def read_android(path: str, top: str, options: Options) -> Iterator[Catalogue]:
    catalogue = Catalogue(*android_place(path, top, options), path)
    convert: Convert = as_it_is if options.keeps else of_printf
    root = read_xml(path, read_file(path))
    if root.name != "resources":
        raise refuse(path, root.line, "no resources of Android")
    for one in root.children:
        key = (one.get("name"),)
        if one.name == "string":
            catalogue.put_text(key, convert(android_string(one), False), one.line, one.comments)
        elif one.name == "string-array":
            made = [convert(android_string(item), False) for item in one.children]
            catalogue.put(key, [item.text for item in made], one.line, one.comments, [doubt for item in made for doubt in item.doubts])
        elif one.name == "plurals":
            forms = {item.get("quantity"): android_string(item) for item in one.children}
            catalogue.put_text(key, plural_of(in_order(forms), convert), one.line, one.comments)
        elif one.name == "integer" and re.fullmatch(r"\s*-?\d{1,8}\s*", one.text):
            catalogue.put(key, Other("int", int(one.text)), one.line, one.comments)
        else:
            catalogue.doubt(one.line, one.get("name"), f"<{one.name}> is left out")
    yield catalogue


def in_order(forms: dict[str, str]) -> dict[str, str]:
    """Returns the forms of a plural in the order of their categories, with an `other`."""
    made = {one: forms[one] for one in ("=0", *CATEGORIES) if one in forms}
    return made if "other" in made or not made else made | {"other": list(made.values())[-1]}


# --- iOS


def ios_catalogue(path: str, top: str, options: Options) -> Catalogue:
    folder, stem = os.path.dirname(os.path.abspath(path)), os.path.splitext(os.path.basename(path))[0]
    name = os.path.basename(folder)
    if not name.endswith(".lproj"):
        return Catalogue(stem, options.locale_or(locale_of(stem) or ""), path)
    above = os.path.relpath(os.path.dirname(folder), os.path.abspath(top))
    module = os.path.join("" if above in (".", "..") else above, stem)
    locale = "" if name == "Base.lproj" else locale_of(name.removesuffix(".lproj")) or ""
    return Catalogue(module, options.locale_or(locale), path)


def ios_text(path: str, data: bytes) -> str:
    if data[:2] in (b"\xff\xfe", b"\xfe\xff"):
        return data.decode("utf-16", "replace")
    return decoded(path, data)


def read_strings(path: str, top: str, options: Options) -> Iterator[Catalogue]:
    """Reads `"key" = "value";` with the comments in front."""
    catalogue, text = ios_catalogue(path, top, options), ios_text(path, read_file(path))
    at, line, waiting, comments = 0, 1, [], []
    while at < len(text):
        found = STRINGS_TOKEN.match(text, at)
        if not found or found["sign"] and not is_next(waiting, found["sign"]):
            raise refuse(path, line, 'no "key" = "value";')
        if found["block"] is not None or found["line"] is not None:
            comments.append((found["block"] or found["line"] or "").strip())
        elif found["quoted"] is not None:
            waiting.append(android_escapes(found["quoted"]))
        elif found["bare"] or found["sign"] == "=":
            waiting.append(found[0])
        elif found["sign"]:
            made = as_it_is(waiting[-1]) if options.keeps else of_printf(waiting[-1])
            catalogue.put_text((waiting[0],), made, line, comments)
            waiting, comments = [], []
        line, at = line + text.count("\n", at, found.end()), found.end()
    if waiting:
        raise refuse(path, line, 'no "key" = "value";')
    yield catalogue


def is_next(waiting: list[str], sign: str) -> bool:
    return len(waiting) == 1 if sign == "=" else len(waiting) == 3 or len(waiting) == 1


def read_stringsdict(path: str, top: str, options: Options) -> Iterator[Catalogue]:
    """Reads plurals: a format with `%#@variable@`, and for each variable its forms."""
    catalogue, data = ios_catalogue(path, top, options), read_file(path)
    try:
        listed = plistlib.loads(data, fmt=plistlib.FMT_XML)
    except (ValueError, expat.ExpatError, plistlib.InvalidFileException, AttributeError, IndexError) as error:
        raise refuse(path, getattr(error, "lineno", 1), "no property list") from None
    lines = Lines(data.decode("utf-8", "replace"), plist_keys)
    for key, item in listed.items() if isinstance(listed, dict) else ():
        line = lines.of(key)
        if not isinstance(item, dict) or not isinstance(item.get("NSStringLocalizedFormatKey"), str):
            catalogue.doubt(line, key, "no NSStringLocalizedFormatKey, left out")
            continue
        catalogue.put_text((key,), stringsdict_text(item, as_it_is if options.keeps else of_printf), line)
    yield catalogue


def stringsdict_text(item: dict, convert: Convert) -> Converted:
    parts, doubts, at, form = [], [], 0, item["NSStringLocalizedFormatKey"]
    for number, found in enumerate(re.finditer(r"%(?:(\d+)\$)?#@(\w+)@", form)):
        parts.append(convert(form[at : found.start()], False).text)
        at = found.end()
        forms = {name: text for name, text in item.get(found[2], {}).items() if isinstance(text, str) and not name.startswith("NS")}
        forms = {"=0" if name == "zero" else name: text for name, text in forms.items()}
        if not forms:
            doubts.append(f"no forms of {found[2]}")
            continue
        made = plural_of(in_order(forms), convert, str(int(found[1]) - 1 if found[1] else number))
        parts.append(made.text)
        doubts += made.doubts
    return Converted("".join([*parts, convert(form[at:], False).text]), doubts=doubts)


# --- i18next

FORM = re.compile(r"(.+)_(zero|one|two|few|many|other)")


def json_place(path: str, top: str) -> tuple[str, Optional[str]]:
    folder, stem = os.path.dirname(os.path.abspath(path)), os.path.splitext(os.path.basename(path))[0]
    parent = os.path.basename(folder)
    above = os.path.relpath(os.path.dirname(folder), os.path.abspath(top))
    in_folder = os.path.join("" if above in (".", "..") else above, stem), locale_of(parent)
    # three letters may be a word, so a name of two letters comes first
    for letters in ("{2}", "{3}"):
        tag = re.compile(rf"[a-z]{letters}(?:[-_]\w+)?")
        if tag.fullmatch(parent) and locale_of(parent):
            return in_folder
        if tag.fullmatch(stem) and locale_of(stem):
            return folder_of(path, top), locale_of(stem)
    return in_folder


def read_i18next(path: str, top: str, options: Options) -> Iterator[Catalogue]:
    module, locale = json_place(path, top)
    locale = options.locale_or(locale)
    catalogue, text = Catalogue(module, locale or "", path), decoded(path, read_file(path))
    if locale is None:
        raise refuse(path, 1, "neither its name nor its folder names a language; --locale does")
    try:
        tree = json.loads(text)
    except json.JSONDecodeError as error:
        raise refuse(path, error.lineno, error.msg) from None
    except RecursionError:
        raise refuse(path, 1, "nested too deep") from None
    if not isinstance(tree, dict):
        raise refuse(path, 1, "no object with strings")
    put_i18next(catalogue, tree, (), Lines(text, json_keys), as_it_is if options.keeps else of_mustache, options.keeps)
    yield catalogue


def put_i18next(catalogue: Catalogue, tree: dict, path: tuple[str, ...], lines: Lines, convert: Convert, keeps: bool) -> None:
    groups: dict[str, dict[str, str]] = {}
    for key, item in tree.items():
        found = FORM.fullmatch(key)
        if found and isinstance(item, str) and f"{found[1]}_other" in tree and not keeps:
            groups.setdefault(found[1], {})[found[2]] = item
        elif key.endswith("_plural") and isinstance(item, str) and isinstance(tree.get(key[:-7]), str) and not keeps:
            groups[key[:-7]] = {"one": tree[key[:-7]], "other": item}
    for key, item in tree.items():
        found = FORM.fullmatch(key)
        base = found[1] if found and found[1] in groups else key[:-7] if key.endswith("_plural") and key[:-7] in groups else key
        line, inner = lines.of(key), (*path, base)
        if base in groups:
            if groups[base]:
                catalogue.put_text(inner, plural_of(in_order(groups[base]), convert, "count"), line)
            groups[base] = {}
        elif isinstance(item, str):
            catalogue.put_text(inner, convert(item, False), line)
        elif isinstance(item, dict) and len(path) < 60:
            catalogue.put(inner, {}, line)
            put_i18next(catalogue, item, inner, lines, convert, keeps)
        elif isinstance(item, list) and all(isinstance(one, str) for one in item):
            made = [convert(one, False) for one in item]
            catalogue.put(inner, [one.text for one in made], line, (), [doubt for one in made for doubt in one.doubts])
        elif isinstance(item, int) and not isinstance(item, bool) and -134217728 <= item < 134217728:
            catalogue.put(inner, Other("int", item), line)
        else:
            catalogue.doubt(line, key, f"{json.dumps(item, ensure_ascii=True)[:40]} is left out")


# --- XLIFF


def read_xliff(path: str, top: str, options: Options) -> Iterator[Catalogue]:
    """Yields the sources, as what all locales inherit, and the finished targets."""
    data = read_file(path)
    is_two = b"urn:oasis:names:tc:xliff:document:2" in data[:4000]
    document: Document = (read_xliff2 if is_two else read_xliff1)(path, data, "")
    stem = os.path.splitext(document.header.original or os.path.basename(path))[0]
    module = os.path.join(folder_of(path, top), stem)
    locale = options.locale_or(locale_of(document.header.target) if document.header.target else None)
    root, made = Catalogue(module, "", path), Catalogue(module, locale or "", path)
    for unit in document.units:
        if unit.source is not None:
            root.put_text((unit.id,), Converted(unit.source), unit.line, unit.notes)
        if unit.target is not None and unit.state:
            made.doubt(unit.line, unit.id, f"{unit.state}, left out")
        elif unit.target is not None and unit.state not in states.NEVER:
            made.put_text((unit.id,), Converted(unit.target), unit.line)
    yield root
    if made.tree or made.doubts:
        if locale is None:
            raise refuse(path, document.header.line, "it names no target language; --locale does")
        yield made


__all__ = ["Failure", "Options", "read_android", "read_i18next", "read_java", "read_po", "read_strings", "read_stringsdict", "read_xliff"]
