"""Compares the language of a file with that of a text. Tools write one language in several ways."""
import re
from typing import Optional

TAG = re.compile(r"([A-Za-z]{2,3}|[A-Za-z]{5,8})(?:[-_]([A-Za-z]{4}))?(?:[-_]([A-Za-z]{2}|[0-9]{3}))?(?:[-_.@].*)?")
# codes that were replaced, which Java and gettext still write
OLD_CODES = {"iw": "he", "in": "id", "ji": "yi", "no": "nb", "mo": "ro", "tl": "fil"}
# the script that a region of Chinese writes, if the tag names none
SCRIPTS = {("zh", "cn"): "hans", ("zh", "sg"): "hans", ("zh", "tw"): "hant", ("zh", "hk"): "hant", ("zh", "mo"): "hant"}


def parts_of(tag: str) -> Optional[tuple[str, str, str]]:
    """Returns the language, the script and the region of a tag in lower case, empty where it has none; None if it is no tag."""
    found = TAG.fullmatch(tag.strip())
    if not found:
        return None
    language, script, region = ((part or "").lower() for part in found.groups())
    language = OLD_CODES.get(language, language)
    return language, script or SCRIPTS.get((language, region), ""), region


def differ(one: str, other: str) -> bool:
    """Checks whether two tags surely name different languages. A part that one of them lacks doesn't count."""
    first, second = parts_of(one), parts_of(other)
    if first is None or second is None or "und" in (first[0], second[0]):
        return False
    return first[0] != second[0] or any(a and b and a != b for a, b in zip(first[1:], second[1:]))


def tag_of(name: str) -> str:
    """Returns the language tag of a bundle's name: `und` for root and for names that aren't those of locales."""
    return name.replace("_", "-") if name != "root" and parts_of(name) and re.fullmatch(r"[A-Za-z0-9_-]+", name) else "und"
