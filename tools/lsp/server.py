"""The language server: answers the requests of one editor, in their order."""

from __future__ import annotations

import json
import os
import pathlib
import signal
import sys
import threading
import traceback
from typing import Any, Callable, Optional

from . import complete, diagnostics, navigate, outline, protocol, settings
from .fixes import Proposer
from .program import Program, found_program
from .protocol import Connection, Failure
from .text import Text
from .workspace import Document, Workspace, path_of

CAPABILITIES = json.loads(pathlib.Path(__file__).with_name("capabilities.json").read_text(encoding="utf-8"))


class Server:
    def __init__(self, connection: Connection) -> None:
        self.connection = connection
        self.workspace = Workspace(Program(found_program()))
        self.linter = diagnostics.Linter(
            lambda: self.workspace.program,
            lambda params: connection.notify("textDocument/publishDiagnostics", params),
        )
        self.is_initialized = self.is_shut_down = False
        self.current: Any = None
        self.methods: dict[str, Callable[[dict], Any]] = {
            "initialize": self.initialize,
            "shutdown": self.shutdown,
            "textDocument/didOpen": self.opened,
            "textDocument/didChange": self.changed,
            "textDocument/didSave": self.saved,
            "textDocument/didClose": self.closed,
            "workspace/didChangeWatchedFiles": lambda params: self.lint_all(),
            "workspace/didChangeWorkspaceFolders": self.folders_changed,
            "workspace/symbol": lambda params: outline.workspace_symbols(self.workspace, params["query"], self.check),
        }
        about_documents: dict[str, Callable[[Document, dict], Any]] = {
            "documentSymbol": lambda it, params: outline.document_symbols(it),
            "foldingRange": lambda it, params: outline.foldings(it),
            "formatting": lambda it, params: diagnostics.edits(self.workspace, it),
            "rangeFormatting": lambda it, params: diagnostics.edits(self.workspace, it, params["range"]),
            "hover": lambda it, params: navigate.hover(self.workspace, it, params["position"]),
            "definition": lambda it, params: navigate.definition(self.workspace, it, params["position"]),
            "completion": lambda it, params: complete.completions(self.workspace, it, params["position"]),
            "references": lambda it, params: navigate.references(self.workspace, it, params, self.check),
            "prepareRename": lambda it, params: navigate.prepare_rename(it, params["position"]),
            "rename": lambda it, params: navigate.rename(self.workspace, it, params, self.check),
            "codeAction": lambda it, params: Proposer(self.workspace, it, self.check).actions(params),
        }
        self.methods |= {f"textDocument/{name}": self.in_document(answer) for name, answer in about_documents.items()}

    # --- Messages

    def serve(self) -> int:
        """Answers messages up to `exit` or the end of the input, and returns the status of the program."""
        self.connection.start()
        self.linter.start()
        while (message := self.connection.messages.get()) is not None and message.get("method") != "exit":
            self.handle(message)
        self.linter.stop()
        self.workspace.unsaved.cleanup()
        return 0 if self.is_shut_down else 1

    def handle(self, message: dict) -> None:
        method, name = message.get("method"), message.get("id")
        if method is None:
            return  # an answer to a request, of which this server makes none
        try:
            self.current = name
            result = self.answer(str(method), message.get("params"))
            reply = {"id": name, "result": result}
        except Failure as failure:
            reply = {"id": name, "error": {"code": failure.code, "message": str(failure)}}
        except (KeyError, TypeError, AttributeError, ValueError) as error:
            traceback.print_exc(file=sys.stderr)
            reply = {"id": name, "error": {"code": protocol.BAD_PARAMETERS, "message": f"bad parameters: {error!r}"}}
        except OSError as error:
            reply = {"id": name, "error": {"code": protocol.FAILED, "message": f"{self.workspace.program.path}: {error}"}}
        self.connection.cancelled.discard(name)
        if "id" in message:
            self.connection.send(reply)

    def answer(self, method: str, params: Any) -> Any:
        known = self.methods.get(method)
        if not self.is_initialized and method != "initialize":
            raise Failure(protocol.NOT_INITIALIZED, "initialize comes first")
        if self.is_shut_down:
            raise Failure(protocol.INVALID_REQUEST, "the server is shut down")
        if not known:
            raise Failure(protocol.NO_METHOD, f"there is no method {method}")
        self.check()
        return known(params if params is not None else {})

    def check(self) -> None:
        """Ends the present request if it was cancelled."""
        if self.current is not None and self.current in self.connection.cancelled:
            raise Failure(protocol.CANCELLED, "cancelled")

    # --- The session

    def initialize(self, params: dict) -> dict:
        options = params.get("initializationOptions") or {}
        if options.get("program"):
            self.workspace.program = Program(options["program"])
        if options.get("cldrParents"):
            self.workspace.parents = ["--cldr-parents"]
        elif options.get("parents"):
            self.workspace.parents = ["--parents", options["parents"]]
        folders = [folder["uri"] for folder in params.get("workspaceFolders") or ()]
        folders = folders or [uri for uri in (params.get("rootUri"),) if uri]
        paths = [path for path in map(path_of, folders) if path] or [path for path in (params.get("rootPath"),) if path]
        self.workspace.folders = list(map(os.path.normpath, paths))
        self.is_initialized = True
        return {"capabilities": CAPABILITIES, "serverInfo": {"name": "resb-lsp"}}

    def shutdown(self, params: dict) -> None:
        self.is_shut_down = True

    def folders_changed(self, params: dict) -> None:
        event = params["event"]
        removed = [path_of(folder["uri"]) for folder in event["removed"]]
        added = [path_of(folder["uri"]) for folder in event["added"]]
        kept = [path for path in self.workspace.folders if path not in removed]
        self.workspace.folders = kept + [path for path in added if path]
        self.lint_all()

    # --- Documents

    def opened(self, params: dict) -> None:
        item = params["textDocument"]
        path = path_of(item["uri"])
        document = Document(item["uri"], path and os.path.normpath(path), item["languageId"], item["version"], Text(item["text"]))
        self.workspace.documents[document.uri] = document
        self.lint(document)

    def changed(self, params: dict) -> None:
        document = self.document(params)
        text = document.text
        for change in params["contentChanges"]:
            text = text.changed(change)
        document.text, document.version = text, params["textDocument"].get("version")
        self.lint(document)

    def saved(self, params: dict) -> None:
        self.lint(self.document(params))

    def closed(self, params: dict) -> None:
        document = self.document(params)
        del self.workspace.documents[document.uri]
        self.linter.ask(document.uri, None)
        self.lint_others(document)

    def lint(self, document: Document) -> None:
        """Lints a document, and if it is a root or the settings, those that may depend on it."""
        self.linter.ask(document.uri, diagnostics.job_of(self.workspace, document))
        self.lint_others(document)

    def lint_others(self, changed: Document) -> None:
        module = self.workspace.module_of(changed.path)
        if os.path.basename(changed.name) == settings.NAME or module and module.root == changed.path:
            self.lint_all(changed)

    def lint_all(self, changed: Optional[Document] = None) -> None:
        """Lints all documents but a changed one."""
        for document in self.workspace.documents.values():
            if document is not changed:
                self.linter.ask(document.uri, diagnostics.job_of(self.workspace, document))

    def document(self, params: dict) -> Document:
        document = self.workspace.documents.get(params["textDocument"]["uri"])
        if not document:
            raise Failure(protocol.BAD_PARAMETERS, "the document isn't open")
        return document

    # --- Requests

    def in_document(self, answer: Callable[[Document, dict], Any]) -> Callable[[dict], Any]:
        """Makes the method of a request about a document. One that isn't served has no answer."""
        def method(params: dict) -> Any:
            document = self.document(params)
            return answer(document, params) if self.workspace.is_served(document) else None
        return method


def end_by_signal(server: Server) -> None:
    """Waits for SIGTERM in a thread, and ends the program. A handler in Python could wait for the next message of the editor."""
    receiving, sending = os.pipe()
    os.set_blocking(sending, False)
    signal.set_wakeup_fd(sending)
    signal.signal(signal.SIGTERM, lambda *_: None)

    def end() -> None:
        os.read(receiving, 1)
        try:
            server.workspace.unsaved.cleanup()
        finally:
            os._exit(1)

    threading.Thread(target=end, daemon=True).start()


def main() -> None:
    server = Server(Connection(sys.stdin.buffer, sys.stdout.buffer))
    end_by_signal(server)
    os._exit(server.serve())  # the thread that reads standard input may still wait for it
