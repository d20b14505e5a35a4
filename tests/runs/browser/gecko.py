"""Firefox without geckodriver, which Debian doesn't have: WebDriver over HTTP, each request of which is handed to
Marionette, which has the commands of WebDriver. One session."""

from __future__ import annotations

import contextlib
import http.server
import json
import os
import re
import socket
import subprocess
import tempfile
import threading
import time
from collections.abc import Iterator
from typing import Any

SESSION = "/session/[^/]+"
ELEMENT = SESSION + "/element/(?P<id>[^/]+)"
# Which command of Marionette stands for a request.
COMMANDS = (
    ("POST", SESSION + "/timeouts", "SetTimeouts"),
    ("POST", SESSION + "/url", "Navigate"),
    ("POST", SESSION + "/element", "FindElement"),
    ("POST", SESSION + "/elements", "FindElements"),
    ("GET", SESSION + "/element/active", "GetActiveElement"),
    ("POST", ELEMENT + "/click", "ElementClick"),
    ("POST", ELEMENT + "/clear", "ElementClear"),
    ("POST", ELEMENT + "/value", "ElementSendKeys"),
    ("GET", ELEMENT + "/computedrole", "GetComputedRole"),
    ("GET", ELEMENT + "/computedlabel", "GetComputedLabel"),
    ("POST", SESSION + "/execute/sync", "ExecuteScript"),
    ("POST", SESSION + "/execute/async", "ExecuteAsyncScript"),
    ("POST", SESSION + "/frame", "SwitchToFrame"),
    ("POST", SESSION + "/window/rect", "SetWindowRect"),
)
# In seconds: how long it may take to start, and to answer a command.
STARTING = 600
ANSWERING = 900


def preferences(dark: bool) -> dict[str, object]:
    """A port that is free, no first page about data, and the colours that pages are asked for."""
    return {
        "marionette.port": 0,
        "datareporting.policy.dataSubmissionEnabled": False,
        "layout.css.prefers-color-scheme.content-override": 0 if dark else 1,
    }


class Marionette:
    """The commands of a Firefox, on a socket: each way a length, a colon and JSON."""

    def __init__(self, port: int) -> None:
        self.number = 0
        self.socket = socket.create_connection(("127.0.0.1", port), ANSWERING)
        self.file = self.socket.makefile("rb")
        self._read()

    def _read(self) -> Any:
        length = b""
        while not length.endswith(b":"):
            byte = self.file.read(1)
            if not byte:
                raise RuntimeError("Firefox has ended")
            length += byte
        return json.loads(self.file.read(int(length[:-1])))

    def ask(self, name: str, parameters: dict[str, Any]) -> tuple[Any, Any]:
        """The error of a command, or None, and its value."""
        self.number += 1
        data = json.dumps([0, self.number, name, parameters]).encode()
        self.socket.sendall(b"%d:%s" % (len(data), data))
        _, _, error, value = self._read()
        return error, value

    def close(self) -> None:
        self.file.close()
        self.socket.close()


def told_port(process: subprocess.Popen[bytes], path: str) -> int:
    """The port that Firefox writes into this file of its profile, once it listens there."""
    end = time.monotonic() + STARTING
    while time.monotonic() < end and process.poll() is None:
        with contextlib.suppress(FileNotFoundError), open(path, encoding="ascii") as file:
            port = file.read()
            if port:
                return int(port)
        time.sleep(0.1)
    raise RuntimeError("Firefox doesn't tell its port")


class Handler(http.server.BaseHTTPRequestHandler):
    """Hands each request to the Firefox of its server."""

    protocol_version = "HTTP/1.1"
    server: Server

    def log_message(self, format: str, *words: object) -> None:
        pass

    def answer(self) -> None:
        length = int(self.headers.get("Content-Length") or 0)
        error, value = self.asked(json.loads(self.rfile.read(length)) if length else {})
        if isinstance(value, dict) and set(value) == {"value"}:
            value = value["value"]
        data = json.dumps({"value": error or value}).encode()
        self.send_response(500 if error else 200)
        self.send_header("Content-Type", "application/json; charset=utf-8")
        self.send_header("Content-Length", str(len(data)))
        self.end_headers()
        self.wfile.write(data)

    def asked(self, given: dict[str, Any]) -> tuple[Any, Any]:
        """The error of a request, or None, and its value."""
        if self.path == "/session":
            return self.server.marionette.ask("WebDriver:NewSession", {"capabilities": {"alwaysMatch": {}}})
        if self.command == "DELETE" and re.fullmatch(SESSION, self.path):
            return None, None
        for method, path, name in COMMANDS:
            found = re.fullmatch(path, self.path)
            if method == self.command and found:
                return self.server.marionette.ask("WebDriver:" + name, {**given, **found.groupdict()})
        return {"error": "unknown command", "message": self.command + " " + self.path, "stacktrace": ""}, None

    do_GET = do_POST = do_DELETE = answer


class Server(http.server.ThreadingHTTPServer):
    daemon_threads = True

    def __init__(self, marionette: Marionette) -> None:
        super().__init__(("127.0.0.1", 0), Handler)
        self.marionette = marionette


@contextlib.contextmanager
def started(dark: bool) -> Iterator[str]:
    """The address at which a headless Firefox, with a profile of its own, takes WebDriver."""
    with tempfile.TemporaryDirectory(ignore_cleanup_errors=True) as profile:
        with open(os.path.join(profile, "user.js"), "w", encoding="utf-8") as out:
            for name, value in preferences(dark).items():
                out.write("user_pref({}, {});\n".format(json.dumps(name), json.dumps(value)))
        process = subprocess.Popen(
            ["firefox-esr", "--headless", "--no-remote", "--profile", profile, "--marionette"],
            stdout=subprocess.DEVNULL,
            stderr=subprocess.DEVNULL,
            env={**os.environ, "HOME": profile, "MOZ_CRASHREPORTER_DISABLE": "1"},
        )
        try:
            marionette = Marionette(told_port(process, os.path.join(profile, "MarionetteActivePort")))
            with Server(marionette) as server, contextlib.closing(marionette):
                threading.Thread(target=server.serve_forever, daemon=True).start()
                yield "http://127.0.0.1:{}".format(server.server_port)
                server.shutdown()
        finally:
            process.terminate()
            process.wait(STARTING)
