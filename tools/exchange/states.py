"""Tells finished translations from others, by the states of each format.

A state that isn't known counts as unfinished, by its own name, so that no draft becomes a text."""
import re

FUZZY, REVIEW, UNTRANSLATED, KEPT, OBSOLETE, PLURAL = "fuzzy", "needs-review", "needs-translation", "no-translation", "obsolete", "plural"
# states that no option accepts: the translation of another string, or of another form of one
NEVER = (KEPT, OBSOLETE, PLURAL)
FINISHED = ("translated", "final", "reviewed", "signed-off", "approved", "accepted", "done")
# a spreadsheet's row keeps these words of the export when somebody fills in its cell
FILLED_IN = ("", "missing", "inherited")


def by_word(**words: str) -> dict[str, str]:
    """Returns the state of each of some words; states are named without hyphens."""
    named = {state.replace("-", "_"): state for state in (FUZZY, REVIEW, UNTRANSLATED)}
    return {word: named[state] for state, listed in words.items() for word in listed.split()}


OF_XLIFF1 = by_word(
    needs_translation="new needs-translation needs-adaptation needs-l10n",
    needs_review="needs-review-translation needs-review-adaptation needs-review-l10n",
)
# how a machine or a memory of translations made a target, where no state says that somebody looked at it
OF_QUALIFIERS = by_word(
    fuzzy="fuzzy-match",
    needs_review="leveraged-mt leveraged-repository leveraged-tm leveraged-glossary leveraged-inherited mt-suggestion tm-suggestion",
)
OF_WORDS = by_word(
    fuzzy="fuzzy",
    needs_review="needs-review needs-work needs-editing rejected draft unreviewed mt",
    needs_translation="initial new untranslated needs-translation unfinished",
)
# what tools write into their private attributes, such as mq:status
OF_TOOLS = by_word(
    needs_translation="notstarted",
    needs_review="pretranslated partiallyedited assembledfromfragments rejected draft rejectedtranslation rejectedsignoff",
)


def of_word(word: str) -> str:
    """Returns the state of a word of a table or a list, such as `fuzzy`; empty for a finished translation."""
    word = re.sub(r"[\s_]+", "-", word.strip().casefold())
    return "" if word in FINISHED or word in FILLED_IN else OF_WORDS.get(word, word)


def of_xliff1(state: str, qualifier: str, approved: str, of_tool: str) -> tuple[str, str]:
    """Returns the state of a target in XLIFF 1.2, with the file's word. `x-..` is of a tool's own, and so unfinished."""
    if of_tool.casefold() in OF_TOOLS:
        return OF_TOOLS[of_tool.casefold()], of_tool
    if state and state not in FINISHED:
        return OF_XLIFF1.get(state, state), state
    if approved == "no":
        return REVIEW, "approved=no"
    if qualifier.startswith("rejected-"):
        return REVIEW, qualifier
    if not state and qualifier in OF_QUALIFIERS and approved != "yes":
        return OF_QUALIFIERS[qualifier], qualifier
    return "", state


def of_segment(state: str, sub_state: str, are_used: bool) -> tuple[str, str]:
    """Returns the state of a segment in XLIFF 2, with the file's word. A missing state is `initial`, if the file uses states at all."""
    state = state or ("initial" if are_used else "")
    if state and state not in FINISHED:
        return OF_WORDS.get(state, state), state
    word = sub_state.rpartition(":")[2].casefold()
    return (OF_WORDS[word], sub_state) if word in OF_WORDS else ("", state)
