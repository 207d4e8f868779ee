"""The HTTP server of the desk: it listens on the loopback alone, and asks the guard first."""

from __future__ import annotations

import json
import secrets
import socket
import threading
import traceback
from http.server import BaseHTTPRequestHandler, HTTPServer
from socketserver import ThreadingMixIn
from typing import Any, Callable, Optional

from .guard import HEADERS, Guard, Turned, length_of
from .service import Reply, Service

__all__ = ["DeskServer", "serve"]

HOST = "127.0.0.1"
MOST_AT_ONCE = 64
"""How many requests are worked at; others wait."""
PATIENCE = 20
"""How many seconds a request may take to come in."""


class DeskServer(ThreadingMixIn, HTTPServer):
    """A desk that listens at a port of 127.0.0.1 (0: any that is free); `address` is that of its page."""

    daemon_threads = True
    block_on_close = False
    request_queue_size = 512
    allow_reuse_address = True

    def __init__(self, service: Service, port: int = 0, token: Optional[str] = None) -> None:
        self.service = service
        self._room = threading.BoundedSemaphore(MOST_AT_ONCE)
        super().__init__((HOST, port), Handler)
        self.guard = Guard(token or secrets.token_urlsafe(24), self.server_address[1])

    @property
    def address(self) -> str:
        """The address of the page, with its token."""
        return self.guard.address

    def server_bind(self) -> None:
        """Takes the port, without a look for the name of this machine."""
        self.socket.setsockopt(socket.SOL_SOCKET, socket.SO_REUSEADDR, 1)
        self.socket.bind(self.server_address)
        self.server_address = self.socket.getsockname()
        self.server_name, self.server_port = HOST, self.server_address[1]

    def process_request(self, request: Any, client_address: Any) -> None:
        """Works at a request as soon as there is room for it."""
        self._room.acquire()
        try:
            super().process_request(request, client_address)
        except Exception:  # there is no thread; after an interrupt there may be one, which makes room itself
            self._room.release()
            raise

    def process_request_thread(self, request: Any, client_address: Any) -> None:
        """Works at a request in its thread."""
        try:
            super().process_request_thread(request, client_address)
        finally:
            self._room.release()

    def handle_error(self, request: Any, client_address: Any) -> None:
        """A connection that broke is no news."""

    def stop(self) -> None:
        """Ends searches, closes days, and stops to listen."""
        self.service.close()
        self.server_close()


class Handler(BaseHTTPRequestHandler):
    """A request."""

    server: DeskServer
    protocol_version = "HTTP/1.1"
    timeout = PATIENCE

    def do_GET(self) -> None:
        """Something is asked for."""
        self.worked(lambda parts: self.server.service.get(parts))

    def do_POST(self) -> None:
        """Something is to be changed."""
        self.worked(lambda parts: self.server.service.post(parts, self.body()))

    def do_other(self) -> None:
        """What the desk has no use for."""
        def refuse(_: Any) -> Reply:
            raise Turned(405, "the desk is asked by GET and POST")
        self.worked(refuse)

    do_HEAD = do_PUT = do_DELETE = do_OPTIONS = do_PATCH = do_TRACE = do_CONNECT = do_other

    def worked(self, work: Callable[[Any], Reply]) -> None:
        """Asks the guard, works, and answers."""
        self.close_connection = True
        try:
            hosts = self.headers.get_all("Host") or []
            parts = self.server.guard.parts(self.command, self.path, hosts, dict(self.headers.items()))
            reply = work(parts)
        except Turned as turned:
            reply = Reply.of({"error": turned.sentence}, turned.status)
        except (ConnectionError, TimeoutError, socket.timeout):
            return
        except Exception:  # what nobody foresaw is no end of the desk
            traceback.print_exc()
            reply = Reply.of({"error": "the desk has a fault here; its terminal says which"}, 500)
        self.write(reply)

    def body(self) -> Any:
        """The JSON value that the request brings. Raises `Turned` if it brings none."""
        if self.headers.get_content_type() != "application/json":
            raise Turned(415, "a request brings JSON")
        length = length_of(dict(self.headers.items()))
        data = self.rfile.read(length)
        if len(data) < length:
            raise Turned(400, "the request was cut")
        try:
            return json.loads(data.decode("utf-8"), parse_constant=no_constant)
        except (ValueError, RecursionError):
            raise Turned(400, "the request is no JSON") from None

    def write(self, reply: Reply) -> None:
        """Answers."""
        try:
            self.send_response(reply.status)
            self.send_header("Content-Type", reply.kind)
            self.send_header("Content-Length", str(len(reply.data)))
            for name, value in {**HEADERS, **reply.headers()}.items():
                self.send_header(name, value)
            self.end_headers()
            if self.command != "HEAD":
                self.wfile.write(reply.data)
        except (ConnectionError, TimeoutError, socket.timeout):
            pass

    def send_error(self, code: int, message: Optional[str] = None, explain: Optional[str] = None) -> None:
        """Answers what is no request at all."""
        self.close_connection = True
        self.command = getattr(self, "command", None) or "GET"
        self.request_version = "HTTP/1.1"
        self.write(Reply.of({"error": "this is no request that the desk knows"}, code))

    def version_string(self) -> str:
        """What serves, without versions."""
        return "desk"

    def log_message(self, format: str, *args: Any) -> None:
        """Requests are not written anywhere: their paths have the token."""


def no_constant(word: str) -> Any:
    """Turns away NaN and the infinities, which are no JSON."""
    raise ValueError(word)


def serve(server: DeskServer, tell: Callable[[str], None], browse: Optional[Callable[[str], Any]] = None) -> None:
    """Serves until it is stopped from the keyboard; `browse` is handed the address."""
    tell(server.address)
    if browse is not None:
        browse(server.address)
    try:
        server.serve_forever(poll_interval=0.2)
    except KeyboardInterrupt:
        pass
    finally:
        server.stop()
