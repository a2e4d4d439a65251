"""Messages of the Language Server Protocol: headers, a JSON value, and the errors of JSON-RPC."""

from __future__ import annotations

import json
import re
from typing import Any, BinaryIO

#: A message that is larger is read over.
MOST_BYTES = 64 * 1_048_576
_LENGTH = re.compile(rb"content-length:[ \t]*([0-9]{1,18})[ \t]*", re.IGNORECASE)

PARSE_ERROR, INVALID_REQUEST, NO_METHOD, INVALID_PARAMS, INTERNAL_ERROR = -32700, -32600, -32601, -32602, -32603
NOT_INITIALIZED, REQUEST_FAILED, CANCELLED = -32002, -32803, -32800


class Failed(Exception):
    """A request that is answered by an error: its code, and what is wrong."""

    def __init__(self, code: int, said: str) -> None:
        super().__init__(said)
        self.code, self.said = code, said


def read_message(stream: BinaryIO) -> Any:
    """The next message, as JSON. Raises EOFError at the end, and Failed where it is none: the stream is behind it then."""
    length = _read_headers(stream)
    if length is None:
        raise Failed(PARSE_ERROR, "these headers have no Content-Length")
    if length > MOST_BYTES:
        _skip(stream, length)
        raise Failed(INVALID_REQUEST, f"a message has at most {MOST_BYTES} bytes")
    data = stream.read(length)
    if len(data) < length:
        raise EOFError
    try:
        return json.loads(data)
    # (a value that is nested too deeply is as little read as one that is none)
    except (ValueError, RecursionError) as error:
        raise Failed(PARSE_ERROR, f"this is no JSON: {error}") from None


def _read_headers(stream: BinaryIO) -> int | None:
    """The length that headers say; None where they say none. Raises EOFError."""
    length = None
    while True:
        line = stream.readline(MOST_BYTES)
        if not line.endswith(b"\n"):
            raise EOFError
        if not line.strip():
            return length
        found = _LENGTH.fullmatch(line.strip())
        length = int(found[1]) if found else length


def _skip(stream: BinaryIO, length: int) -> None:
    while length:
        read = len(stream.read(min(length, 1_048_576)))
        if not read:
            raise EOFError
        length -= read


def write_message(stream: BinaryIO, message: dict[str, Any]) -> None:
    """Writes a message. Raises OSError."""
    data = json.dumps({"jsonrpc": "2.0", **message}, separators=(",", ":")).encode()
    stream.write(b"Content-Length: %d\r\n\r\n" % len(data) + data)
    stream.flush()
