"""Plural forms of gettext, by their expression, as the categories of CLDR. translate-toolkit knows which categories a language has."""
import gettext
import re
from typing import Optional

from ..common import Failure

try:
    from translate.lang import data as toolkit
except ImportError:
    toolkit = None

CATEGORIES = ("zero", "one", "two", "few", "many", "other")
# a number of each category: for most languages, and where they differ
SAMPLES = {"zero": 0, "one": 1, "two": 2, "few": 3, "many": 5, "other": 100}
OF_LANGUAGES = {"ar": {"many": 11}, "mt": {"many": 11}, "cy": {"many": 6}, "ga": {"many": 7}, "lv": {"other": 2}, "br": {"many": 1_000_000}}
MILLIONS = ("fr", "es", "it", "pt", "ca")  # their `many` is of millions, for which gettext has no form


def categories_of(language: str) -> list[str]:
    """Returns the categories that whole numbers of a language have."""
    if toolkit is None:
        raise Failure("plural forms need the Debian package python3-translate, for /usr/bin/python3", 2)
    base = re.split("[-_@.]", language)[0].lower()
    return [one for one in toolkit.plural_tags.get(base, ["one", "other"]) if one != "many" or base not in MILLIONS]


def of_gettext(language: str, header: str, forms: dict[int, str]) -> tuple[dict[str, str], Optional[str]]:
    """Returns the forms by their categories, and what isn't certain."""
    found = re.search(r"nplurals\s*=\s*(\d+)\s*;\s*plural\s*=\s*([^;\n]{1,1000})", header)
    base = re.split("[-_@.]", language)[0].lower()
    wanted, doubt = categories_of(language), None
    try:
        index = gettext.c2py(found[2]) if found else (lambda number: 0 if len(forms) == 1 else int(number != 1))
        chosen = {one: index({**SAMPLES, **OF_LANGUAGES.get(base, {})}[one]) for one in wanted}
    except (ValueError, RecursionError):
        return dict(zip(wanted, forms.values())) | {"other": list(forms.values())[-1]}, "its Plural-Forms can't be read"
    if not found:
        doubt = "the file has no Plural-Forms"
    elif len(set(chosen.values())) < len(forms):
        doubt = f"{len(forms)} forms for the categories {', '.join(wanted)}"
    made = {one: forms[number] for one, number in chosen.items() if number in forms}
    made.setdefault("other", made.get("many") or list(forms.values())[-1])
    return made, doubt
