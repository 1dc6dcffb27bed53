"""The command line of `resb-exchange`."""
import argparse
import sys
from typing import NoReturn

from .common import Failure, shown
from .convert import CONVERTERS, WRITERS, convert
from .exporting import export
from .formats import FORMATS
from .importing import import_strings
from .project import source_language


class Parser(argparse.ArgumentParser):
    def error(self, message: str) -> NoReturn:
        super().error(shown(message))


def add_common(command: argparse.ArgumentParser) -> None:
    command.add_argument("--format", required=True, choices=FORMATS)
    command.add_argument("--source", required=True, metavar="SRC.txt", help="the text that is translated")
    command.add_argument("--source-language", metavar="TAG", help="its language, such as en for a root; otherwise by resb.toml or its name")
    command.add_argument("--target-language", metavar="TAG", help="the target's language; otherwise by its name")


def add_export(commands: argparse._SubParsersAction) -> None:
    out = commands.add_parser("export", help="write the strings of a source beside those of a target")
    add_common(out)
    out.add_argument("--target", required=True, metavar="TGT.txt", help="the text of the translation")
    out.add_argument("--base", default=[], nargs="+", metavar="TEXT", help="what the target inherits from, the nearest first")
    out.add_argument("-o", dest="out", metavar="OUT", help="the file to write; otherwise standard output")
    out.set_defaults(run=export)


def add_import(commands: argparse._SubParsersAction) -> None:
    back = commands.add_parser("import", help="put translated strings into a target, in place")
    add_common(back)
    back.add_argument("--into", required=True, metavar="TGT.txt", help="the text that gets the strings")
    back.add_argument("-o", dest="out", metavar="OUT", help="the text to write; otherwise TGT.txt itself")
    back.add_argument("--accept", default="", metavar="STATES", help="take unfinished translations too, such as fuzzy,needs-review")
    back.add_argument("--remove-missing", action="store_true", help="remove strings that FILE lacks or has without a translation")
    back.add_argument("--max-changed", type=int, metavar="N", help="the most source strings that may be others by now; otherwise a tenth")
    back.add_argument("--force", action="store_true", help="take a file of another language or text, of other sources, or without strings")
    back.add_argument("--values", action="store_true", help="take numbers, binaries and aliases from the source, and not from the target")
    back.add_argument("--any-arguments", action="store_true", help="allow translations with other arguments than their source")
    back.add_argument("--report", metavar="OUT", help="write what was done as JSON; - is standard output")
    back.add_argument("file", metavar="FILE", help="the file with the translated strings")
    back.set_defaults(run=import_strings)


def add_convert(commands: argparse._SubParsersAction) -> None:
    other = commands.add_parser("convert", help="make bundle texts of other files, or other files of bundle texts")
    other.add_argument("--from", dest="kind", required=True, choices=[*CONVERTERS, "resb"], help="what FILEs are; resb: bundle texts")
    other.add_argument("--as", dest="written", choices=WRITERS, help="with --from resb: what to make of them")
    other.add_argument("--to", required=True, metavar="OUT", help="the folder to write into; of one FILE, also a text such as root.txt")
    other.add_argument("--source-language", default="en", metavar="TAG", help="the language whose strings are root's; otherwise en")
    other.add_argument("--locale", metavar="NAME", help="the locale of the one FILE; otherwise by its name or folder")
    other.add_argument("--module", metavar="NAME", help="with --from resb: the name of the files; otherwise that of the folder")
    other.add_argument("--keep-placeholders", action="store_true", help="leave placeholders and plurals as they are")
    other.add_argument("--force", action="store_true", help="replace files that are there")
    other.add_argument("--report", metavar="OUT", help="write what needs a person as JSON; - is standard output")
    other.add_argument("files", metavar="FILE", nargs="+", help="a file, or a folder of them")
    other.set_defaults(run=convert)


def arguments() -> argparse.Namespace:
    needs = "\n".join(f"  {name:<11} {chosen.package}" for name, chosen in FORMATS.items() if chosen.package)
    parser = Parser(
        prog="resb-exchange",
        description="Takes the strings of bundle texts to translators and back.",
        epilog=f"These formats need a Debian package:\n{needs}\n\nStatus: 0 done, 1 an input is refused, 2 a file or a tool can't be used.",
        formatter_class=argparse.RawDescriptionHelpFormatter,
    )
    commands = parser.add_subparsers(dest="command", required=True)
    add_export(commands)
    add_import(commands)
    add_convert(commands)
    return parser.parse_args()


def check_packages(args: argparse.Namespace) -> None:
    name = args.kind if args.command == "convert" else args.format
    chosen = FORMATS.get(name)
    if chosen and not chosen.is_there:
        raise Failure(f"the format {name} needs the Debian package {chosen.package}, for /usr/bin/python3", 2)


def main() -> int:
    args = arguments()
    if args.command != "convert" and not args.source_language:
        args.source_language = source_language(args.source)
    try:
        check_packages(args)
        args.run(args)
    except Failure as failure:
        print(failure, file=sys.stderr)
        return failure.status
    return 0
