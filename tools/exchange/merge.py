"""Puts translated strings into a target's tree. What the file doesn't say stays as the target has it."""
from typing import Any, Iterator, Optional

from .common import Path, child


def is_string(item: Any, path: Path) -> bool:
    """Checks whether an item is a string to translate. `%%Parent` and `%%ALIAS` of a bundle are names of others."""
    return isinstance(item, str) and not (len(path) == 1 and path[0].startswith("%%"))


def strings(source: Any, target: Any, path: Path = ()) -> Iterator[tuple[Path, str, Optional[str]]]:
    """Yields the strings of a source, with the target's. Where the target has an item of another type there are none."""
    if target is not None and type(source) is not type(target):
        return
    if is_string(source, path):
        yield path, source, target
    elif isinstance(source, (dict, list)):
        keys = source if isinstance(source, dict) else map(str, range(len(source)))
        for key in keys:
            yield from strings(child(source, key), child(target, key), (*path, key))


class Merge:
    """Makes the target's new tree of its present one, of the translated strings and of the paths of strings to remove.

    What isn't a string is the target's; an array that the target lacks gets the source's. With `values` all items that aren't strings
    are the source's. Arrays have no gaps, so strings behind one aren't put into the tree, and a string of one isn't removed alone."""

    def __init__(self, texts: dict[Path, str], removed: set[Path], values: bool):
        self.texts, self.removed, self.values = texts, removed, values
        self.touched = {path[:count] for path in texts for count in range(len(path) + 1)}

    def item(self, source: Any, target: Any, path: Path, whole: bool = False) -> Any:
        """Returns the item at a path, or None if there is none; `whole` says that it is in an array that the target doesn't have."""
        if target is not None and type(source) is not type(target):
            return target
        if is_string(source, path):
            return None if path in self.removed else self.texts.get(path, target)
        if isinstance(source, (dict, list)):
            if target is None and not (path in self.touched or whole or self.values):
                return None
            return (self.table if isinstance(source, dict) else self.array)(source, target, path, whole)
        if self.values and not isinstance(source, str):
            return source
        return target if target is not None else source if whole else None

    def table(self, source: dict, target: Optional[dict], path: Path, whole: bool) -> Optional[dict]:
        made = {key: self.item(item, child(target, key), (*path, key), whole and target is None) for key, item in source.items()}
        made = {key: item for key, item in made.items() if item is not None}
        made |= {key: item for key, item in (target or {}).items() if key not in source}
        if made or not path:
            return made
        return None if target else made if whole or target is not None or not source else None

    def array(self, source: list, target: Optional[list], path: Path, whole: bool) -> Optional[list]:
        """Returns an array without gaps, or None. One that the target lacks has all of the source's items."""
        if target is not None and all((*path, str(number)) in self.removed for number in range(len(target))) and target:
            return None
        made, kept = [], 0 if target is None else len(target)
        for number, item in enumerate(source):
            old = child(target, str(number))
            new = self.item(item, old, (*path, str(number)), old is None)
            made.append(old if new is None else new)
        gap = made.index(None) if None in made else len(made)
        if target is None:
            return made if gap == len(made) else None
        while gap > kept and (*path, str(gap - 1)) not in self.touched:
            gap -= 1
        return made[:gap] + target[gap:]


def value_at(tree: Any, path: Path) -> Any:
    for key in path:
        tree = child(tree, key)
    return tree
