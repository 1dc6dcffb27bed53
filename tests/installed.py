#!/usr/bin/env python3
"""Checks what packages installed into a root: the links of their pages, and the commands of their pages that `chroot` runs there.

usage: installed.py links FOLDER              checks that each relative link of a page in FOLDER leads to a file there, and to its heading
       installed.py block PAGE SECTION        prints the first indented block of a section
       installed.py run ROOT PAGE [SECTION]   runs the commands of a page's indented blocks in the root, all or those of a section, and
                                              compares what they print. They are run in /usr/lib/resb-gateway, or in an empty folder
                                              for a page without a section, as README.md is
       installed.py step CONTAINERFILE NAME   prints an instruction of a container file; a list is printed as words of the shell
Ends with status 1 if something differs."""
import glob
import json
import os
import re
import shlex
import sys
import tempfile

from support.pages import bad_links, differences, indented, output_of, script_of, text_of


def links(folder):
    folder = os.path.realpath(folder)
    pages = glob.glob(os.path.join(folder, "**", "*.md"), recursive=True)
    wrong = [f"{os.path.relpath(page, folder)}: {link}" for page in pages for link in bad_links(page, folder)]
    print("".join(f"{line}\n" for line in wrong), end="")
    if not pages:
        print(f"{folder} has no pages")
    return 1 if wrong or not pages else 0


def section(page, name):
    """Returns a section of a page, with the number of its lines."""
    found = re.search(rf"^## {re.escape(name)}\n(.*?)(?=^## |\Z)", page, flags=re.M | re.S)
    if not found:
        sys.exit(f"installed: no section {name}")
    return "\n" * page[: found.start(1)].count("\n") + found.group(1)


def block(page, name):
    found = re.search(r"(?:^    (?!\$ ).*\n)+", section(text_of(page), name), flags=re.M)
    print("\n".join(line[4:] for line in found.group().splitlines()))
    return 0


def run(root, page, name=None):
    text = text_of(os.path.join(root, page.lstrip("/")))
    asked = indented(section(text, name) if name else text)
    with tempfile.TemporaryDirectory(dir=os.path.join(root, "tmp")) as folder:
        inside = "/usr/lib/resb-gateway" if name else folder[len(root.rstrip("/")):]
        given = {"PATH": "/usr/bin:/usr/sbin:/bin:/sbin", "HOME": "/root", "LC_ALL": "C.UTF-8"}
        output = output_of(f"cd {inside}\n" + script_of(asked), "chroot", root, env=given)
    wrong = differences(page, asked, output)
    print(*wrong, sep="\n")
    if len(asked) < 2:
        sys.exit(f"installed: {page} has no commands")
    print(f"{'FAILED' if wrong else 'ok'}: {len(asked) - 1 - len(wrong)} commands of {page} agree, {len(wrong)} differ")
    return 1 if wrong else 0


def step(file, name):
    """Prints what follows the name of an instruction, or of the command of a health check."""
    found = re.findall(rf"^{name} (.*)$", text_of(file), flags=re.M)
    if len(found) != 1:
        sys.exit(f"installed: {file} has {len(found)} lines {name}")
    value = re.sub(r"^(--\S+ )*(CMD )?", "", found[0])
    print(shlex.join(json.loads(value)) if value.startswith("[") else value)
    return 0


def main():
    calls = {"links": links, "block": block, "run": run, "step": step}
    if len(sys.argv) < 2 or sys.argv[1] not in calls:
        sys.exit("usage: " + __doc__.split("usage: ")[1])
    return calls[sys.argv[1]](*sys.argv[2:])


if __name__ == "__main__":
    sys.exit(main())
