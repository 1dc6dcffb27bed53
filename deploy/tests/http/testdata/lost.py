"""Makes changes through a proxy that loses the first answer to each."""
import sys

sys.path.insert(0, "../../../examples/clients")
from over_http import Bundles

bundles = Bundles(sys.argv[1], "shop", sys.argv[2])
tag = bundles.put("de", 'de{a{"A"}}')
tag = bundles.put("de", 'de{a{"B"}}', tag)
tag = bundles.patch("de", {"a": "C"}, tag)
print(bundles.text("de", "a"))
bundles.remove("de", tag)
print(len(bundles.names()))
