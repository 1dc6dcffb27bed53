"""Reads and writes the messages of the language server protocol: JSON-RPC behind headers."""

from __future__ import annotations

import json
import queue
import threading
from typing import BinaryIO, Optional

MOST_BYTES = 256 << 20
PARSE_ERROR, INVALID_REQUEST, NO_METHOD, BAD_PARAMETERS, INTERNAL = -32700, -32600, -32601, -32602, -32603
NOT_INITIALIZED, CANCELLED, FAILED = -32002, -32800, -32803


class Failure(Exception):
    """Why a request has no result."""

    def __init__(self, code: int, message: str) -> None:
        super().__init__(message)
        self.code = code


def read_message(source: BinaryIO) -> Optional[bytes]:
    """Returns the next message, or None at the end or after a header that can't be read."""
    length = None
    while True:
        line = source.readline(4096)
        if not line.endswith(b"\n"):
            return None
        line = line.strip()
        if not line:
            break
        name, _, value = line.partition(b":")
        if name.strip().lower() == b"content-length" and value.strip().isdigit():
            length = int(value)
    if length is None or length > MOST_BYTES:
        return None
    body = source.read(length)
    return body if len(body) == length else None


class Connection:
    """Reads messages in a thread, so that a request can be cancelled while it is answered."""

    def __init__(self, source: BinaryIO, sink: BinaryIO) -> None:
        self.source, self.sink = source, sink
        self.messages: queue.Queue[Optional[dict]] = queue.Queue()
        self.cancelled: set = set()
        self.lock = threading.Lock()

    def start(self) -> None:
        threading.Thread(target=self.read, daemon=True).start()

    def read(self) -> None:
        while (body := read_message(self.source)) is not None:
            try:
                message = json.loads(body)
            except (ValueError, RecursionError):
                self.send({"id": None, "error": {"code": PARSE_ERROR, "message": "the message is no JSON"}})
                continue
            if not isinstance(message, dict):
                self.send({"id": None, "error": {"code": INVALID_REQUEST, "message": "the message is no object"}})
            elif message.get("method") == "$/cancelRequest":
                self.cancel(message)
            else:
                self.messages.put(message)
        self.messages.put(None)

    def cancel(self, message: dict) -> None:
        params = message.get("params")
        name = params.get("id") if isinstance(params, dict) else None
        if isinstance(name, (str, int)) and len(self.cancelled) < 10_000:
            self.cancelled.add(name)

    def send(self, message: dict) -> None:
        body = json.dumps({"jsonrpc": "2.0", **message}, ensure_ascii=True, separators=(",", ":")).encode()
        with self.lock:
            self.sink.write(b"Content-Length: %d\r\n\r\n%s" % (len(body), body))
            self.sink.flush()

    def notify(self, method: str, params: dict) -> None:
        self.send({"method": method, "params": params})
