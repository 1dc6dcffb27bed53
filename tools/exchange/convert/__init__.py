"""`convert`: makes bundle texts of other formats' catalogues, and other formats of bundle texts."""
import argparse
import json
import os
import sys
from typing import Callable, Iterator, Optional

from ..common import Failure, read_file, shown, write_file
from ..texts import Other, bundle_of, tree_of
from .catalogue import Catalogue, Doubt, locale_of, text_of
from .readers import Options, read_android, read_i18next, read_java, read_po, read_strings, read_stringsdict, read_xliff
from .writers import File, write_android, write_ios, write_java

Reader = Callable[[str, str, Options], Iterator[Catalogue]]
# the readers of a kind by the ends of the names of their files
CONVERTERS: dict[str, dict[str, Reader]] = {
    "properties": {".properties": read_java},
    "po": {".po": read_po, ".pot": read_po},
    "android": {".xml": read_android},
    "ios": {".strings": read_strings, ".stringsdict": read_stringsdict},
    "json": {".json": read_i18next},
    "xliff": {".xlf": read_xliff, ".xliff": read_xliff},
}
WRITERS = {"properties": write_java, "android": write_android, "ios": write_ios}
SHOWN = 100


class Result:
    """A report: what was written, what needs a person, and what failed."""

    def __init__(self) -> None:
        self.written: list[str] = []
        self.strings = 0
        self.doubts: list[Doubt] = []
        self.failures: list[Failure] = []


def files_in(kind: str, names: list[str]) -> Iterator[tuple[str, str]]:
    """Yields the files of a kind that are named or in folders that are, each with the folder."""
    ends = (".txt",) if kind == "resb" else tuple(CONVERTERS[kind])
    for name in names:
        if not os.path.isdir(name):
            yield name, os.path.dirname(name) or "."
            continue
        for folder, folders, files in os.walk(name):
            folders.sort()
            if kind == "android" and not os.path.basename(folder).startswith("values"):
                continue
            yield from ((os.path.join(folder, file), name) for file in sorted(files) if file.endswith(ends))


def read_all(args: argparse.Namespace, result: Result) -> dict[tuple[str, str], Catalogue]:
    """Returns the catalogues by their modules and locales."""
    made: dict[tuple[str, str], Catalogue] = {}
    options = Options(args.keep_placeholders, "" if args.locale == "root" else args.locale)
    for path, top in files_in(args.kind, args.files):
        read = CONVERTERS[args.kind].get(os.path.splitext(path)[1], next(iter(CONVERTERS[args.kind].values())))
        try:
            for catalogue in read(path, top, options):
                found = made.setdefault((catalogue.module, catalogue.locale), catalogue)
                if found is not catalogue:
                    found.absorb(catalogue)
        except Failure as failure:
            result.failures.append(failure)
    return made


def with_roots(made: dict[tuple[str, str], Catalogue], language: str) -> list[Catalogue]:
    """Returns the catalogues with a root for each module: that of the source language, if no other one is there."""
    source = locale_of(language)
    for module in dict.fromkeys(module for module, _ in made):
        if (module, "") not in made and (module, source) in made:
            made[module, ""] = made.pop((module, source))
            made[module, ""].locale = ""
        elif (module, "") not in made:
            first = next(one for one in made.values() if one.module == module)
            first.doubt(1, "", f"no catalogue of {language} and none that all languages inherit, so there is no root.txt")
    return [one for one in made.values() if one.tree or not one.locale]


def place_of(args: argparse.Namespace, catalogue: Catalogue, modules: set[str], count: int) -> str:
    """Returns the file of a catalogue's text."""
    folder = args.to
    if args.to.endswith(".txt"):
        if count == 1:
            return args.to
        if os.path.basename(args.to) != "root.txt" or len(modules) > 1:
            raise Failure(f"{shown(args.to)}: {count} texts of {len(modules)} modules need a folder", 2)
        folder = os.path.dirname(args.to)
    return os.path.join(folder, catalogue.module if len(modules) > 1 else "", f"{catalogue.locale or 'root'}.txt")


def save(args: argparse.Namespace, path: str, data: bytes) -> None:
    """Writes a file, and makes its folder. One that is there and differs stays, unless that is forced."""
    if os.path.lexists(path):
        old = read_file(path) if os.path.isfile(path) else None
        if old == data:
            return
        if not args.force:
            line = os.path.commonprefix([old or b"", data]).count(b"\n") + 1
            raise Failure(f"{shown(path)}:{line}: is there, and differs; --force replaces it", 2)
    try:
        os.makedirs(os.path.dirname(path) or ".", exist_ok=True)
    except OSError:
        raise Failure(f"cannot write {shown(path)}", 2) from None
    write_file(path, data)


def count_of(item: object) -> int:
    if isinstance(item, (dict, list)):
        return sum(map(count_of, item.values() if isinstance(item, dict) else item))
    return int(not isinstance(item, Other))


def to_texts(args: argparse.Namespace, result: Result) -> None:
    made = read_all(args, result)
    if made and not any(one.tree for one in made.values()):
        result.failures += [Failure(f"{shown(one.file)}:1: it has no string") for one in made.values()]
        return
    catalogues = with_roots(made, args.source_language)
    modules = {one.module for one in catalogues}
    for catalogue in catalogues:
        result.doubts += catalogue.doubts
        try:
            path, data = place_of(args, catalogue, modules, len(catalogues)), text_of(catalogue).encode("utf-8", "surrogatepass")
            if tree_of(data, path) != catalogue.tree:
                raise Failure(f"{shown(path)}:1: the text that was made has another tree; it isn't written", 2)
            save(args, path, data)
            result.written.append(path)
            result.strings += count_of(catalogue.tree)
        except Failure as failure:
            result.failures.append(failure)


def from_texts(args: argparse.Namespace, result: Result) -> None:
    """Writes the other formats' files of bundle texts, whose locales are the names of their files."""
    for path, top in files_in("resb", args.files):
        try:
            data = read_file(path)
            bundle = bundle_of(data, path, tree_of(data, path))
            stem = os.path.splitext(os.path.basename(path))[0]
            folder = os.path.relpath(os.path.dirname(path) or ".", top)
            above = os.path.basename(os.path.abspath(os.path.dirname(path) or "."))
            module = args.module or ("Localizable" if args.written == "ios" else above)
            catalogue = Catalogue(module, "" if stem == "root" else stem, path)
            for file in WRITERS[args.written](bundle, catalogue.locale, module, catalogue):
                place = os.path.normpath(os.path.join(args.to, folder, file.name))
                save(args, place, file.data)
                result.written.append(place)
            result.strings += count_of(bundle.tree)
            result.doubts += catalogue.doubts
        except Failure as failure:
            result.failures.append(failure)


def write_report(args: argparse.Namespace, result: Result) -> None:
    if args.report is None:
        return
    members = {"written": result.written, "strings": result.strings, "doubts": [one._asdict() for one in result.doubts]}
    members["errors"] = [line for failure in result.failures for line in str(failure).split("\n")]
    data = json.dumps(members, indent=2).encode() + b"\n"
    write_file(None if args.report == "-" else args.report, data)


def convert(args: argparse.Namespace) -> None:
    if (args.kind == "resb") != (args.written is not None):
        raise Failure("--as goes with --from resb, and only with it", 2)
    if args.locale is not None and (len(args.files) > 1 or os.path.isdir(args.files[0])):
        raise Failure("--locale goes with one FILE", 2)
    result = Result()
    (from_texts if args.kind == "resb" else to_texts)(args, result)
    write_report(args, result)
    for doubt in result.doubts[:SHOWN]:
        print(doubt, file=sys.stderr)
    if len(result.doubts) > SHOWN:
        print(f"{len(result.doubts) - SHOWN} more; --report lists all", file=sys.stderr)
    print(f"{len(result.written)} written, {result.strings} strings, {len(result.doubts)} to look at", file=sys.stderr)
    if not result.written and not result.failures:
        result.failures.append(Failure(f"{shown(args.files[0])}: no file of this kind"))
    if result.failures:
        raise Failure("\n".join(map(str, result.failures)), max(failure.status for failure in result.failures))


__all__ = ["CONVERTERS", "WRITERS", "File", "convert", "Optional"]
