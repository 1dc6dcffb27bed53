#!/usr/bin/env python3
"""Serves the text at the path of a URL in the language of the visitor.

usage: web.py FOLDER [PORT]   FOLDER has the bundles: texts as LOCALE.txt, files as LOCALE.res

    curl -H 'Accept-Language: de-AT' http://127.0.0.1:8080/menu/open

`application` runs on any WSGI server. Its threads share one `Bundles`; so do processes that are forked once it is filled.
"""

import pathlib
import re
import sys
from wsgiref.simple_server import make_server

import resb


def bundles_of(folder):
    """Returns the bundles of a folder, as those of one application."""
    bundles = resb.Bundles()
    for file in pathlib.Path(folder).iterdir():
        if file.suffix == ".txt":
            bundles.install("site", file.stem, file.read_text(encoding="utf-8"))
        elif file.suffix == ".res":
            bundles.install("site", file.stem, file.read_bytes())
    return bundles


def application_of(bundles):
    """Returns a WSGI application, which answers with a text of the bundles."""

    def application(environ, start_response):
        wanted = re.match("[A-Za-z0-9-]+", environ.get("HTTP_ACCEPT_LANGUAGE", ""))
        try:
            text, status = bundles.text("site", wanted[0] if wanted else "root", environ["PATH_INFO"].strip("/")), "200 OK"
        except resb.Error as error:
            text, status = error.code, "404 Not Found"
        start_response(status, [("Content-Type", "text/plain; charset=utf-8"), ("Vary", "Accept-Language")])
        return [text.encode("utf-8", "replace") + b"\n"]

    return application


if __name__ == "__main__":
    with make_server("127.0.0.1", int(sys.argv[2]) if len(sys.argv) > 2 else 8080, application_of(bundles_of(sys.argv[1]))) as server:
        print(f"http://127.0.0.1:{server.server_port}/greeting", flush=True)
        server.serve_forever()
