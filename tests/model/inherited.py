"""Trees with everything that a locale inherits, after docs/JSON.md ("With inheritance").

The model asks for each place of a tree anew: it walks the stops of each level along the whole path, and collects the tables up to the first
item that is none.
"""
from model import lookups
from model.lookups import Refused
from model.trees import child, value_of, walk

LEVELS = 64
SIZE_LIMIT = 20000


class TooLong(Exception):
    """The tree has more items than the model makes."""


class Tree:
    """The tree of a name and a path, over the bundles of an application and those of ICUDATA: its value, and the steps that it takes."""

    def __init__(self, own, common, parents, name, path, most=SIZE_LIMIT):
        self.own, self.common, self.parents, self.name, self.begin, self.most = own, common, parents, name, path, most
        self.valid = None
        self.size = 0
        self.steps = 0
        self.value = self.tree([])

    def stops(self, bundles, name, path, is_new):
        """The stops of a level's name; a level that begins at the place itself counts."""
        try:
            count, stops = lookups.trail_of(bundles, self.parents, name)
        except Refused:
            self.steps += is_new
            raise
        self.steps += count * (1 + len(path)) if is_new else 0
        if not stops:
            raise Refused("NoBundle")
        self.valid = self.valid or stops[0]
        return stops

    def items(self, below):
        """Yields the items at a path below the tree's, in the order of the stops, up to the first that is no table; or an error."""
        bundles, name, begin, is_new = self.own, self.name, self.begin, not below
        for number in range(1, 258):
            if number == 257:
                raise Refused("TooManyAliases")
            if len("/".join(begin + below)) > 1024:
                raise Refused("PathTooLong")
            is_any, link = False, None
            for stop in self.stops(bundles, name, begin, is_new):
                ended = walk(bundles[stop][0], begin)
                if ended is None:
                    continue
                item, count = ended
                walked, left, is_whole = begin[:count], begin[count:] + below, False
                if item[0] != "alias":
                    item, walked, left, is_whole = self.down(item, begin, below)
                if item is None:
                    continue
                is_any = True
                if item[0] == "alias":
                    link = item, walked, left
                    break
                if left:
                    return
                yield item
                if item[0] != "table" or is_whole:
                    return
            if link is None:
                if not is_any:
                    raise Refused("Missing")
                return
            item, walked, left = link
            # of what is left the last part is below the item where the alias is, or all of the path below the tree's
            below = left[max(0, len(left) - len(below)):]
            is_new = not below
            self.steps += 1 + len(item[1]) // 64 if is_new else 0  # to read the alias
            is_common, name, path = lookups.target(item[1], self.valid)
            bundles = self.common if is_common else bundles
            begin = (walked if path is None else path) + left[:len(left) - len(below)]

    @staticmethod
    def down(item, walked, below):
        """The item to which segments lead, or None; the segments walked and left; and whether the way goes through an array."""
        is_whole = False
        for count, part in enumerate(below):
            if item[0] == "alias":
                return item, walked + below[:count], below[count:], is_whole
            if item[0] not in ("table", "array"):
                return item, walked, below[count:], is_whole
            is_whole = item[0] == "array"
            following = child(item, part)
            if following is None:
                return (item, walked, below[count:], True) if is_whole else (None, walked, [], False)
            item = following
        return item, walked + below, [], is_whole

    def tree(self, below):
        self.size += 1
        if self.size > self.most:
            raise TooLong
        found, error = [], None
        try:
            for item in self.items(below):
                found.append(item)
        except Refused as refused:
            error = str(refused)
        if len(below) >= LEVELS or not found:
            return {":error": "TooDeep" if len(below) >= LEVELS else error}
        kind, content = found[0]
        if kind == "table":
            return self.table([entries for kind, entries in found if kind == "table"], below)
        if kind == "array":
            self.steps += len(content)
            return [self.tree(below + [str(i)]) for i in range(len(content))]
        return value_of(found[0])

    def table(self, tables, below):
        """The value of tables that are merged. Each key takes a step at the first of them that has it, and at each after that one."""
        value = {}
        for key in sorted({key for entries in tables for key in entries}):
            first = next(i for i, entries in enumerate(tables) if key in entries)
            self.steps += (len(tables) - first) * (1 + len(key) // 64)
            value[":" + key if key.startswith(":") else key] = self.tree(below + [key])
        return value
