"""The installed ICU: the package of its data, the texts and files in it, genrb, derb, and a line server over libicu."""
import os
import pathlib
import re
import subprocess
import sys

from support.program import TOP, Skipped, need


def package(folder: object, named: str | None = None) -> str:
    """Returns the package of ICU's data: the named one, that of ICU_PACKAGE, or a copy of what libicudata has in its constants."""
    named = named or os.environ.get("ICU_PACKAGE")
    if named:
        if not os.path.exists(named):
            raise Skipped(f"{named} is missing")
        return named
    need("objcopy", "ldconfig")
    listed = subprocess.run(["ldconfig", "-p"], capture_output=True, text=True, check=True).stdout
    found = re.search(r"=> (.*libicudata\.so\.(\d+))$", listed, re.MULTILINE)
    if not found:
        raise Skipped("libicudata is missing")
    path = os.path.join(str(folder), f"icudt{found[2]}l.dat")
    subprocess.run(["objcopy", "-O", "binary", "-j", ".rodata", found[1], path], check=True)
    return path


def texts(data: str, folder: object, tree: str | None = None) -> list[pathlib.Path]:
    """Returns the paths of a tree's bundles as texts, which are written into a folder; without a tree of those at the top."""
    into = pathlib.Path(str(folder), tree or "texts")
    words = ["--tree", tree] if tree else []
    subprocess.run([sys.executable, TOP / "tools" / "icu2text", "--package", data, *words, "--to", into], check=True)
    return sorted(into.glob("*.txt"))


def is_locale(name: str) -> bool:
    return name != "res_index" and re.fullmatch(r"root|[a-z]{2,3}(_\w+)*", name) is not None


def files(data: str, folder: object, tree: str | None = None) -> str:
    """Returns a folder with the .res files of the locales in a package or in a tree of it, in version 1 of the format."""
    need("genrb")
    into = pathlib.Path(str(folder), f"{tree or ''}files")
    into.mkdir()
    sources = [text for text in texts(data, folder, tree) if is_locale(text.stem)]
    genrb(sources, into, "-e", "UTF-8", "-s", str(sources[0].parent))
    return str(into)


def genrb(sources: list[pathlib.Path], into: object, *options: str) -> int:
    """Compiles texts by genrb into a folder, and returns its status. With `-s` texts are named within its folder."""
    names = [text.name if "-s" in options else str(text) for text in sources]
    words = ["genrb", "-q", "--formatVersion", "1", *options, "-d", str(into), *names]
    return subprocess.run(words, check=False, stdout=subprocess.DEVNULL, stderr=subprocess.DEVNULL).returncode


def server(folder: object) -> str:
    """Returns the line server over libicu, bench/icu_server.c, built into a folder."""
    need("cc", "pkg-config")
    flags = subprocess.run(["pkg-config", "--cflags", "--libs", "icu-uc"], capture_output=True, text=True, check=False)
    if flags.returncode:
        raise Skipped("icu-uc is missing")
    program = os.path.join(str(folder), "icu_server")
    subprocess.run(["cc", "-O2", "-o", program, TOP / "bench" / "icu_server.c", *flags.stdout.split()], check=True)
    return program
