"""Makes a client of an OpenAPI description by the rules of the specification alone, and calls each operation once, in an order in which each
succeeds. Prints the operations whose status isn't described, isn't 2xx, or that were not called.

usage: client.py URL TOKEN
"""
import json
import sys
import urllib.error
import urllib.parse
import urllib.request

URL, TOKEN = sys.argv[1:]
with urllib.request.urlopen(URL + "/openapi.json") as page:
    DESCRIPTION = json.load(page)


def resolve(value):
    """Follows a reference."""
    while "$ref" in value:
        found = DESCRIPTION
        for part in value["$ref"][2:].split("/"):
            found = found[part]
        value = found
    return value


OPERATIONS = {
    operation["operationId"]: (method, path, operation, [*item.get("parameters", []), *operation.get("parameters", [])])
    for path, item in DESCRIPTION["paths"].items()
    for method, operation in item.items()
    if method != "parameters"
}


def call(name, body=None, kind=None, /, **values):
    """Calls an operation with values for its parameters, and returns the status and the body."""
    method, path, operation, parameters = OPERATIONS[name]
    query, headers = {}, {"Authorization": "Bearer " + TOKEN}
    for parameter in map(resolve, parameters):
        value = values.pop(parameter["name"], None)
        if value is None:
            assert not parameter.get("required"), parameter
        elif parameter["in"] == "path":
            path = path.replace("{%s}" % parameter["name"], urllib.parse.quote(str(value), safe=""))
        else:
            (query if parameter["in"] == "query" else headers)[parameter["name"]] = value
    assert not values and (body is None) == ("requestBody" not in operation), (name, values)
    if body is not None:
        headers["Content-Type"] = kind or next(iter(operation["requestBody"]["content"]))
    at = URL + path + ("?" + urllib.parse.urlencode(query) if query else "")
    request = urllib.request.Request(at, body.encode() if isinstance(body, str) else body, headers, method=method.upper())
    try:
        with urllib.request.urlopen(request) as answer:
            status, kinds, reply = answer.status, answer.headers.get_content_type(), answer.read()
    except urllib.error.HTTPError as error:
        status, kinds, reply = error.code, error.headers.get_content_type(), error.read()
    described = resolve(operation["responses"].get(str(status), {}))
    if status >= 300 or not described or kinds not in described.get("content", {kinds: None}):
        print(name, status, kinds, reply)
    CALLED.add(name)
    return reply


for name, (_, _, operation, parameters) in OPERATIONS.items():
    has_tags = "If-None-Match" in [parameter["name"] for parameter in map(resolve, parameters)]
    assert has_tags == ("304" in operation["responses"]), name
CALLED = set()
SHOP, DE = {"app": "shop"}, {"app": "shop", "locale": "de"}
for one in ("try", "page", "health", "ready", "writable"):
    call(one)
call("getPart", part="page.css")
call("install", 'de{menu{open{"A"}}}', "text/plain", **DE, strict="")
call("put", 'de{menu{open{"B"}}}', "text/plain", **DE)
call("patch", '{"menu":{"close":"C"}}', **DE)
call("list", **SHOP, after=3)
call("lookMany", '{"locale":"de","path":"menu/open"}\n', **SHOP)
call("look", **DE, path="menu")
assert json.loads(call("lookRoot", **DE, path="menu/open"))["value"] == "B"
assert json.loads(call("look", **SHOP, locale="-", path="menu", **{"Accept-Language": "de-AT"}))["actual"] == "de"
assert call("lookRoot", **DE, path="menu", tree="") == b'{"close":"C","open":"B"}\n'
for one in ("getTxt", "getJson"):
    call(one, **DE)
call("check", call("getRes", **DE), "application/octet-stream", **DE)
line = {"locale": "fr", "text": "fr{}", "if": None}
released = json.loads(call("release", json.dumps(line), "application/x-ndjson", **SHOP, **{"If-Match": '"3"'}))
history = json.loads(call("history", **SHOP, last=10))["history"]
groups = json.loads(call("history", **SHOP, by="change"))["history"]
assert [entry["id"] for entry in history] == [entry["id"] for group in groups for entry in group["bundles"]]
assert released["id"] == groups[0]["id"]
call("undo", **SHOP, id=released["id"])
VERSION = {"app": "shop", "id": history[-1]["id"]}
for one in ("getVersionTxt", "getVersionRes", "getVersionJson", "restore"):
    call(one, **VERSION)
assert resolve(DESCRIPTION["components"]["parameters"]["with"])["required"]  # without it the status is 400
call("diff", **VERSION, **{"with": history[1]["id"]})
call("setDefault", **DE)
made = json.loads(call("makeToken", **SHOP, rights="read", name="one"))
call("tokens", **SHOP)
call("revoke", **SHOP, token=made["id"])
call("erase", **SHOP, erase="")
call("undoErase", **SHOP)
call("remove", **DE)
print(*sorted(set(OPERATIONS) - CALLED), "are not called")
