"""Looks an item up by the caller's languages, and takes a release back."""
import sys

sys.path.insert(0, "../../../examples/clients")
from over_http import Bundles, Refused

bundles = Bundles(sys.argv[1], "shop", sys.argv[2])
revision, change = bundles.make_release([{"locale": name, "text": name + '{a{"A"}}'} for name in ("root", "de", "fr")])
for languages in ("it, de-AT;q=0.5", "fr", "it, de-AT;q=0.5", "it"):
    print(bundles.look("-", "a", languages)["actual"])
print(bundles.undo(change) - revision, bundles.names())
try:
    bundles.undo(1)
except Refused as refused:
    print(refused)
