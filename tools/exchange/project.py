"""The settings of a project, `resb.toml`, as docs/PROJECT.md describes them: the language of a root's strings."""
from __future__ import annotations

import fnmatch
import os
from typing import Any, Optional

try:
    import tomllib
except ImportError:  # before Python 3.11
    tomllib = None  # type: ignore[assignment]

NAME = "resb.toml"


def settings_of(text: str) -> tuple[str, dict[str, Any]]:
    """Returns the folder of the nearest settings file above a text, and the settings; none if they can't be read."""
    folder = os.path.dirname(os.path.abspath(text))
    while not os.path.isfile(os.path.join(folder, NAME)):
        above = os.path.dirname(folder)
        if above == folder:
            return folder, {}
        folder = above
    try:
        with open(os.path.join(folder, NAME), "rb") as file:
            return folder, tomllib.load(file) if tomllib else {}
    except (OSError, ValueError, RecursionError):
        return folder, {}


def source_language(text: str) -> Optional[str]:
    """Returns the source language of the first module that a text belongs to, if the settings say it."""
    folder, settings = settings_of(text)
    name = os.path.relpath(os.path.abspath(text), folder)
    modules = settings.get("module")
    for module in modules if isinstance(modules, list) else []:
        own, patterns = (module.get("folder"), module.get("patterns")) if isinstance(module, dict) else (None, None)
        if isinstance(own, str):
            has = os.path.normpath(own) == (os.path.dirname(name) or ".")
        else:
            has = isinstance(patterns, list) and any(matches(name, str(one)) for one in patterns)
        if has or module.get("root") == name:
            language = module.get("source-language")
            return language if isinstance(language, str) else None
    return None


def matches(name: str, pattern: str) -> bool:
    """Checks a name against a pattern, whose single stars take no slashes."""
    return fnmatch.fnmatchcase(name, pattern) and ("**" in pattern or name.count("/") == pattern.count("/"))
