"""The edges of JSON-RPC over standard input and output, where ``python-lsp-jsonrpc`` trusts its client: what isn't a
message is answered by the protocol's error, and input in which messages can't be told apart ends the reading."""

import json
from typing import Any, BinaryIO, Callable, Dict, Optional

from pylsp_jsonrpc.endpoint import Endpoint as _Endpoint
from pylsp_jsonrpc.exceptions import JsonRpcRequestCancelled

MOST_BYTES = 256 * 1024 * 1024
"""How many bytes a message may have."""

_MOST_HEADER = 8 * 1024
_PARSE_ERROR, _INVALID_REQUEST, _INVALID_PARAMS, _INTERNAL_ERROR = -32700, -32600, -32602, -32603


class NoMessage(Exception):
    """Why what a client sends can't be read on."""


def message_of(file: BinaryIO) -> Optional[bytes]:
    """The next message's body, or nothing at the end. Raises ``NoMessage``."""
    length: Optional[int] = None
    room = _MOST_HEADER
    while True:
        line = file.readline(room + 1)
        room -= len(line)
        if not line and room == _MOST_HEADER:
            return None
        if room < 0 or not line.endswith(b"\n"):
            raise NoMessage("a header has no end")
        if not line.strip():
            break
        name, colon, value = line.partition(b":")
        if not colon:
            raise NoMessage("a header has no colon")
        if name.strip().lower() == b"content-length":
            if not value.strip().isdigit() or len(value.strip()) > 12:
                raise NoMessage("a length isn't a number")
            length = int(value)
    if length is None:
        raise NoMessage("a message has no length")
    if length > MOST_BYTES:
        raise NoMessage("a message has more than {} MiB".format(MOST_BYTES >> 20))
    body = file.read(length)
    if len(body) < length:
        raise NoMessage("a message has less than its length")
    return body


def _plain(message: Dict[str, Any]) -> Dict[str, Any]:
    """A message without what Python says of an error, which has names of files of this machine."""
    error = message.get("error")
    if not isinstance(error, dict) or "data" not in error:
        return message
    return {**message, "error": {"code": _INTERNAL_ERROR, "message": "this can't be answered"}}


class Endpoint(_Endpoint):  # type: ignore[misc]
    """Answers messages, whatever they are."""

    def __init__(self, dispatcher: Any, consumer: Callable[[Dict[str, Any]], None], **more: Any) -> None:
        super().__init__(dispatcher, lambda message: consumer(_plain(message)), **more)

    def take(self, body: bytes) -> None:
        """Takes the body of a message."""
        try:
            message = json.loads(body.decode("utf-8"))
        except (ValueError, RecursionError):
            self._refuse(_PARSE_ERROR, "this isn't JSON in UTF-8")
            return
        is_request = isinstance(message, dict) and message.get("jsonrpc") == "2.0"
        is_named = is_request and isinstance(message.get("method"), str)
        if not is_request or not (is_named or ("method" not in message and "id" in message)):
            number = message.get("id") if isinstance(message, dict) else None
            self._refuse(_INVALID_REQUEST, "this isn't a message of JSON-RPC 2.0", number)
            return
        if is_named and not isinstance(message.get("params"), (dict, type(None))):
            if "id" in message:
                self._refuse(_INVALID_PARAMS, "the parameters are named", message["id"])
            return
        if message.get("method") == "$/cancelRequest" and "id" not in (message.get("params") or {}):
            return
        try:
            self.consume(message)
        except (TypeError, KeyError, ValueError):
            # (an identifier that can't be one)
            self._refuse(_INVALID_REQUEST, "this isn't a message of JSON-RPC 2.0")

    def _refuse(self, code: int, reason: str, number: Any = None) -> None:
        """Sends an error. A message whose identifier isn't known is answered with none, as the protocol wants."""
        is_number = isinstance(number, (int, str)) and not isinstance(number, bool)
        said: Dict[str, Any] = {"jsonrpc": "2.0", "id": number if is_number else None}
        said["error"] = {"code": code, "message": reason}
        self._consumer(said)

    def _request_callback(self, request_id: Any) -> Callable[[Any], None]:
        """Answers a request that was cancelled too, as the protocol wants."""
        answered = super()._request_callback(request_id)

        def called(future: Any) -> None:
            """Answers when the request has ended."""
            if future.cancelled():
                self._client_request_futures.pop(request_id, None)
                error = JsonRpcRequestCancelled().to_dict()
                self._consumer({"jsonrpc": "2.0", "id": request_id, "error": error})
            else:
                answered(future)

        return called
