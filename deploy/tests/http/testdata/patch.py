import sys

sys.path.insert(0, "../../../examples/clients")
from over_http import Bundles, Refused

b = Bundles(sys.argv[1], "shop", sys.argv[2])
b.put("root", 'root{a{"A"} b{"B"}}')
b.put("de", 'de{c{"C"}}')
tag = b.patch("de", {"a": "D", "c": None})
print(b.tree("de"), b.tree("de", "a"), b.bundle("de")[1] == tag)
try:
    b.patch("de", {"a": "E"}, '"other"')
except Refused as refused:
    print(refused)
