"""A language server for links: diagnostics as you type, the mended text as a code action, and on hover what the rule
requires.

``urlcheck-language-server`` speaks the Language Server Protocol 3.17 on standard input and output. It needs the package
``python-lsp-jsonrpc`` (Debian: python3-pylsp-jsonrpc).
"""

import logging
import os
import sys
from typing import Any, BinaryIO, Callable, List, NamedTuple, Optional, Tuple
from urllib.parse import SplitResult, unquote, urlsplit

PROGRAM = "urlcheck-language-server"
try:
    from pylsp_jsonrpc.dispatchers import MethodDispatcher
    from pylsp_jsonrpc.exceptions import JsonRpcException
    from pylsp_jsonrpc.streams import JsonRpcStreamWriter
except ImportError:
    NEEDED = "the package python-lsp-jsonrpc: pip install python-lsp-jsonrpc, or Debian's python3-pylsp-jsonrpc"
    sys.exit("{}: needs {}".format(PROGRAM, NEEDED))

from . import version
from ._documents.configuration import NONE, OWN, PROJECT, Configuration, Misconfigured, Project
from ._editors.checking import NOTE, START, Asked, Checking, Remark, Seen, unread
from ._editors.editing import Text, encoding_for
from ._editors.opened import Document, Opened, Outdated
from ._editors.protocol import FIX_ALL, Edits, Json, actions_on, at, diagnostics_on, hover_on, range_of
from ._editors.rpc import Endpoint, NoMessage, message_of
from ._editors.settings import Options, options_of
from ._readers.kinds import ARCHIVES
from ._readers.reading import LIST

KINDS_BY_LANGUAGE = {
    **{"html": "html", "markdown": "markdown", "mdx": "mdx", "quarto": "markdown", "rmd": "markdown"},
    **{"xml": "xml", "svg": "xml", "xhtml": "xml", "rss": "xml", "rst": "rst", "restructuredtext": "rst"},
    **{"css": "css", "links": LIST},
}
"""The kind of a document by the client's name for its language, if its own name says none."""

_LIST_END = ".links"

WAIT = 0.01
"""How many seconds a text stays as it is before it is checked."""

_MOST_ANSWERED = 32
"""How many requests are answered at once, most of which wait for a text to be checked."""

_NOT_INITIALIZED, _INVALID_REQUEST, _INVALID_PARAMS, _CONTENT_MODIFIED = -32002, -32600, -32602, -32801
_WARNING = 2


class Client(NamedTuple):
    """What a client can do."""

    answers_settings: bool = False
    """Whether it is asked for its settings."""
    watches: bool = False
    """Whether it says when files change that it is told to watch."""
    has_versions: bool = False
    """Whether it takes edits with the version of the text that they are of."""

    @classmethod
    def by(cls, capabilities: Json) -> "Client":
        """What its capabilities say."""

        def has(*names: str) -> bool:
            """Whether a capability is there, which is below the workspace's."""
            value: Any = capabilities.get("workspace")
            for name in names:
                value = value.get(name) if isinstance(value, dict) else None
            return bool(value)

        watches = has("didChangeWatchedFiles", "dynamicRegistration")
        return cls(has("configuration"), watches, has("workspaceEdit", "documentChanges"))


class Settled(NamedTuple):
    """What a document is checked by."""

    kind: Optional[str]
    counts: Configuration
    remarks: Tuple[Remark, ...] = ()
    """What is wrong with the project's configuration."""


class Server(MethodDispatcher):  # type: ignore[misc]
    """Answers a client. A method ``m_text_document__did_open`` answers ``textDocument/didOpen``."""

    def __init__(self, reader: BinaryIO, writer: BinaryIO) -> None:
        self._reader = reader
        self._endpoint = Endpoint(self, JsonRpcStreamWriter(writer).write, max_workers=_MOST_ANSWERED)
        self._opened = Opened(self._checked, self._publish)
        self._project = Project()
        self._client = Client()
        self._options = self._first_options = Options()
        self._encoding = "utf-16"
        self._is_initialized = False
        self._is_ending = False
        self.status = 1

    def run(self) -> int:
        """Answers until the client says the end or is gone, and gives the status."""
        try:
            while not self._is_ending:
                body = message_of(self._reader)
                if body is None:
                    break
                self._endpoint.take(body)
        except NoMessage as no_message:
            print("{}: {}".format(PROGRAM, no_message), file=sys.stderr)
            self.status = 1
        self._opened.end()
        return self.status

    def __getitem__(self, method: str) -> Callable[[Any], Any]:
        """What answers a method. Before ``initialize`` only that and ``exit`` are answered, and after ``shutdown`` only
        ``exit``."""
        answer: Callable[[Any], Any] = super().__getitem__(method)
        if method not in ("initialize", "exit") and not self._is_initialized:
            raise JsonRpcException("the server isn't initialized", _NOT_INITIALIZED)
        if method != "exit" and self.status == 0:
            raise JsonRpcException("the server is shut down", _INVALID_REQUEST)

        def answered(params: Any) -> Any:
            """The answer. Parameters that can't be read are refused."""
            try:
                return answer(params)
            except (AttributeError, LookupError, TypeError, ValueError):
                raise JsonRpcException("these aren't the parameters of " + method, _INVALID_PARAMS) from None

        return answered

    # ---- its life

    def m_initialize(self, **given: Any) -> Json:
        """Says what the server can do."""
        options = given.get("initializationOptions")
        options = options if isinstance(options, dict) else {}
        capabilities = given.get("capabilities")
        capabilities = capabilities if isinstance(capabilities, dict) else {}
        general = capabilities.get("general") or {}
        self._encoding = encoding_for(general.get("positionEncodings"), options.get("columns"))
        self._client = Client.by(capabilities)
        self._first_options = options_of(options.get("urlcheck", options))
        self._set(self._first_options)
        self._is_initialized = True
        self._opened.start()
        return {
            "capabilities": {
                "positionEncoding": self._encoding,
                "textDocumentSync": {"openClose": True, "change": 2, "save": True},
                "codeActionProvider": {"codeActionKinds": ["quickfix", FIX_ALL]},
                "hoverProvider": True,
            },
            "serverInfo": {"name": "urlcheck", "version": version()},
        }

    def m_initialized(self, **_: Any) -> None:
        """Asks for the settings, and to be told of a project's configuration that is saved, if the client does that."""
        self._ask_settings()
        if self._client.watches:
            watchers = [{"globPattern": "**/" + name} for name in (OWN, PROJECT)]
            registration: Json = {"id": "urlcheck", "method": "workspace/didChangeWatchedFiles"}
            registration["registerOptions"] = {"watchers": watchers}
            self._endpoint.request("client/registerCapability", {"registrations": [registration]})

    def m_shutdown(self, **_: Any) -> None:
        """Says that nothing more is asked."""
        self.status = 0

    def m_exit(self, **_: Any) -> None:
        """Ends the server."""
        self._is_ending = True

    # ---- what texts are checked by

    def m_workspace__did_change_configuration(self, settings: Any = None, **_: Any) -> None:
        """Takes other settings."""
        if self._client.answers_settings:
            self._ask_settings()
        else:
            self._take(settings.get("urlcheck", settings) if isinstance(settings, dict) else None)

    def m_workspace__did_change_watched_files(self, **_: Any) -> None:
        """Reads the project's configuration again, which was saved, made or removed."""
        self._configure_again()

    def _ask_settings(self) -> None:
        """Asks the client for its settings, if it can answer that."""
        if self._client.answers_settings:
            asked = self._endpoint.request("workspace/configuration", {"items": [{"section": "urlcheck"}]})
            asked.add_done_callback(self._take_settings)

    def _take_settings(self, answered: Any) -> None:
        """Takes the client's answer. One that failed changes nothing."""
        if answered.cancelled() or answered.exception() is not None:
            return
        settings = answered.result()
        self._take(settings[0] if isinstance(settings, list) and settings else None)

    def _take(self, settings: Any) -> None:
        """Takes the client's settings as they are now. Those that were taken away count no more; without any, what the
        client said at the start does."""
        self._set(options_of(settings) if isinstance(settings, dict) and settings else self._first_options)

    def _set(self, options: Options) -> None:
        """Takes these settings, and checks all that is open by them."""
        self._options = options
        for wrong in options.wrong:
            self._endpoint.notify("window/showMessage", {"type": _WARNING, "message": "urlcheck: " + wrong})
        self._opened.check_again(lambda _: True)

    def _configure_again(self) -> None:
        """Reads the project's files again, and has checked what is otherwise by them."""
        self._project = Project()
        self._opened.check_again(self._is_otherwise)

    def _is_otherwise(self, document: Document) -> bool:
        """Whether a document is to be checked by something else than it was. (What fails here is said when it is
        checked.)"""
        try:
            return bool(self._settled(document) != document.by)
        except Exception:
            return True

    def _settled(self, document: Document) -> Settled:
        """What a document is checked by."""
        given, config = self._options.given, NONE
        counts, remarks = NONE, []
        try:
            config = _configuration(self._project, document.uri)
            counts = given.over(config)
        except Misconfigured as misconfigured:
            remarks.append(Remark(START, str(misconfigured), NOTE))
        return Settled(_kind(document, config), counts, tuple(remarks))

    # ---- documents

    def m_text_document__did_open(self, textDocument: Json, **_: Any) -> None:
        """Takes a text."""
        uri, text = textDocument["uri"], textDocument["text"]
        if isinstance(uri, str) and isinstance(text, str):
            self._configure_again()
            language = textDocument.get("languageId")
            self._opened.put(Document(uri, language, Text(text, self._encoding), _number(textDocument)))

    def m_text_document__did_change(self, textDocument: Json, contentChanges: List[Json], **_: Any) -> None:
        """Takes changes."""
        self._opened.change(textDocument["uri"], _number(textDocument), contentChanges, WAIT)

    def m_text_document__did_save(self, textDocument: Json, **_: Any) -> None:
        """Reads the project's configuration again, which may be what was saved."""
        self._configure_again()

    def m_text_document__did_close(self, textDocument: Json, **_: Any) -> None:
        """Forgets a text."""
        document = self._opened.close(textDocument["uri"])
        if document is not None:
            self._publish(document, Seen([], []), None)

    def _checked(
        self, checking: Checking, document: Document, text: str, is_superseded: Callable[[], bool]
    ) -> Optional[Seen]:
        """What is seen in a text."""
        by = document.by = self._settled(document)
        if by.kind is None:
            return Seen([], [])
        try:
            seen = checking.check(Asked(document.uri, text, by.kind, self._encoding, by.counts), is_superseded)
        except OSError as error:
            seen = unread("can't be checked: {}".format(error.strerror))
        return seen and seen._replace(remarks=[*seen.remarks, *by.remarks])

    def _publish(self, document: Document, seen: Seen, number: Optional[int]) -> None:
        """Sends what is seen in a text to the client, with the version of the text."""
        said: Json = {"uri": document.uri, "diagnostics": diagnostics_on(seen, self._options.severity)}
        if number is not None:
            said["version"] = number
        self._endpoint.notify("textDocument/publishDiagnostics", said)

    # ---- what a client asks of a place

    def m_text_document__hover(self, textDocument: Json, position: Json, **_: Any) -> Callable[[], Optional[Json]]:
        """What the rule requires that is violated at a place."""
        seeing, wanted = self._opened.seeing(textDocument["uri"]), range_of({"start": position, "end": position})

        def hover() -> Optional[Json]:
            """The answer, once the text was checked."""
            found = at(_sure(seeing)[0], wanted)
            return hover_on(found[0]) if found else None

        return hover

    def m_text_document__code_action(
        self, textDocument: Json, range: Json, context: Any = None, **_: Any
    ) -> Callable[[], List[Json]]:
        """The mended texts that may be written in place of the links of a range."""
        uri, within = textDocument["uri"], range_of(range)
        seeing = self._opened.seeing(uri)
        wanted = context.get("only") if isinstance(context, dict) else None

        def actions() -> List[Json]:
            """The answer, once the text was checked."""
            seen, number = _sure(seeing)
            edits = Edits(uri, number, self._client.has_versions)
            return actions_on(seen, within, wanted, edits, self._options.severity)

        return actions


def _sure(seeing: Callable[[], Tuple[Seen, Optional[int]]]) -> Tuple[Seen, Optional[int]]:
    """What is seen in a text, and its version. Raises ``JsonRpcException`` if the text changes before that is known."""
    try:
        return seeing()
    except Outdated:
        raise JsonRpcException("the text has changed", _CONTENT_MODIFIED) from None


def _number(document: Json) -> Optional[int]:
    """The version of a text, if the client counts them."""
    number = document.get("version")
    return number if isinstance(number, int) else None


def _kind(document: Document, config: Configuration) -> Optional[str]:
    """The kind of a document by its name, or by its language."""
    path = unquote(_parts(document.uri).path)
    kind = config.kind_of(path) or (LIST if path.lower().endswith(_LIST_END) else None)
    # (books aren't texts)
    return kind if kind not in (None, *ARCHIVES) else KINDS_BY_LANGUAGE.get(str(document.language).lower())


def _parts(uri: str) -> SplitResult:
    """The parts of a URL; without one that names a file if it can't be read."""
    try:
        return urlsplit(uri)
    except ValueError:
        return urlsplit("")


def _configuration(project: Project, uri: str) -> Configuration:
    """The configuration of the document at a URL. Raises ``Misconfigured``."""
    parts = _parts(uri)
    if parts.scheme != "file":
        return NONE
    path = unquote(parts.path)
    if sys.platform == "win32":
        # (/c:/a/b is c:/a/b there, and a file of another machine has its name)
        path = "//" + parts.netloc + path if parts.netloc else path.lstrip("/")
    return project.configuration_of(os.path.dirname(os.path.abspath(path)))


USAGE = """\
usage: urlcheck-language-server [--version | --help]

Speaks the Language Server Protocol on standard input and output: an editor
starts it. Its settings come from the editor: docs/CONFIGURATION.md lists them.
"""


def main() -> None:
    """The program ``urlcheck-language-server``."""
    words = sys.argv[1:]
    if words in (["--version"], ["-V"]):
        print(PROGRAM, version())
    elif words in (["--help"], ["-h"]):
        print(USAGE, end="")
    elif [it for it in words if it != "--stdio"]:
        sys.exit("{}{}: it takes no arguments".format(USAGE, PROGRAM))
    else:
        # (what a client sends isn't to be copied to standard error)
        logging.getLogger("pylsp_jsonrpc").setLevel(logging.CRITICAL)
        server = Server(sys.stdin.buffer, sys.stdout.buffer)
        status = server.run()
        sys.stdout.flush()
        os._exit(status)


if __name__ == "__main__":
    main()
