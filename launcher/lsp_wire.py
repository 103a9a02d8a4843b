"""The frame of the language server protocol: JSON messages, each after a header with its length, over two streams of bytes."""
import json
import threading
from typing import Any, BinaryIO, Dict, Iterator, Optional

Message = Dict[str, Any]
PARSE_ERROR = -32700
INVALID_REQUEST = -32600
METHOD_NOT_FOUND = -32601
INTERNAL_ERROR = -32603
# A longer header or message than any editor sends ends the reading.
LONGEST_HEADER = 4096
LONGEST_MESSAGE = 64 << 20


class Wire:
    """Reads messages from one stream, and writes them to another, which several threads may do."""

    def __init__(self, source: BinaryIO, target: BinaryIO) -> None:
        self.source, self.target = source, target
        self.lock = threading.Lock()

    def messages(self) -> Iterator[Message]:
        """The messages up to the end of the stream. What is not JSON is answered with an error and left out."""
        while True:
            length = self.header()
            if length is None:
                return
            body = self.source.read(length)
            if len(body) < length:
                return
            try:
                message = json.loads(body)
            except (ValueError, RecursionError):
                self.refuse(None, PARSE_ERROR, "the message is not JSON")
                continue
            if isinstance(message, dict):
                yield message
            else:
                self.refuse(None, INVALID_REQUEST, "the message is not an object")

    def header(self) -> Optional[int]:
        """The length that the next header names, or None at the end of the stream."""
        length = None
        while True:
            line = self.source.readline(LONGEST_HEADER)
            if not line.endswith(b"\n"):
                return None
            name, _, value = line.partition(b":")
            if not line.strip():
                if length is not None:
                    return length
            elif name.strip().lower() == b"content-length":
                if not value.strip().isdigit() or int(value) > LONGEST_MESSAGE:
                    return None
                length = int(value)

    def send(self, message: Message) -> None:
        """Writes a message. Who reads no more is no concern of the one who writes: the end of the input ends the server."""
        body = json.dumps({"jsonrpc": "2.0", **message}).encode()
        with self.lock:
            try:
                self.target.write(b"Content-Length: %d\r\n\r\n" % len(body) + body)
                self.target.flush()
            except (BrokenPipeError, ValueError):
                pass

    def answer(self, number: Any, result: Any) -> None:
        self.send({"id": number, "result": result})

    def refuse(self, number: Any, code: int, text: str) -> None:
        self.send({"id": number, "error": {"code": code, "message": text}})

    def notify(self, method: str, params: Any) -> None:
        self.send({"method": method, "params": params})
