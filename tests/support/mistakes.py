"""Mistakes that people make in bundle texts: the texts in lint/, and one edit of them for each line of lint/mistakes.jsonl.

A mistake has a name, the text that it replaces, and the new text; the text is chosen among all its places by a fixed seed. Its line is that of the first
changed byte. Two are about the whole file: its encoding. Those of translators are in the text of a shop, and have the "part" of the new text in which a
warning belongs.
"""
import random

from support.program import TOP, rows

SEED = 50
ROOT, TEXT, SHOP_ROOT, SHOP = ((TOP / "tests" / "lint" / name).read_text(encoding="utf-8") for name in ("root.txt", "de.txt", "shop_root.txt", "shop_de.txt"))
MISTAKES, MESSAGE_MISTAKES, SHOP_MISTAKES = ([row for row in rows("lint/mistakes.jsonl") if row.get("in") == kind] for kind in (None, "message", "shop"))


def planted_in_shop():
    """Yields each mistake of SHOP_MISTAKES: its name, the text with it, its line, and the first and the last column of the part with it."""
    for row in SHOP_MISTAKES:
        text = SHOP.replace(row["old"], row["new"], 1)
        assert text != SHOP and row["part"] in text, row
        before = text[:text.index(row["part"])]
        line, column = before.count("\n") + 1, len(before) - before.rfind("\n")
        yield row["mistake"], text.encode(), line, column, column + len(row["part"])


def planted(mistakes):
    """Yields the name of each mistake, the bytes of the text with it, and its line."""
    chance = random.Random(SEED)
    for row in mistakes:
        if "encoding" in row:
            yield row["mistake"], TEXT.encode(row["encoding"]), 1 if row["encoding"] == "utf-16" else TEXT[:TEXT.index("Ö")].count("\n") + 1
            continue
        old, new = row["old"], row["new"]
        at = chance.choice([at for at in range(len(TEXT)) if TEXT.startswith(old, at)])
        text = TEXT[:at] + new + TEXT[at + len(old):]
        changed = next((i for i in range(len(text)) if text[i] != TEXT[i]), at)
        yield row["mistake"], text.encode(), TEXT[:changed].count("\n") + 1
