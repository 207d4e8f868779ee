"""What the tests of the desk share: a folder of days, a desk that listens, and requests of all kinds."""

from __future__ import annotations

import http.client
import json
import os
import socket
import tempfile
import threading
import time
import unittest
from typing import Any, Dict, Optional, Tuple

from jambulskeg.desk.folder import Folder
from jambulskeg.desk.searching import Searches
from jambulskeg.desk.server import DeskServer
from jambulskeg.desk.service import Service
from jambulskeg.program import Program

THREE_VANS = "three vans (two spreadsheets)"
Reply = Tuple[int, Dict[str, str], bytes]


class DeskTests(unittest.TestCase):
    """A desk that listens while a test runs."""

    def setUp(self) -> None:
        folder = tempfile.TemporaryDirectory()
        self.addCleanup(folder.cleanup)
        self.folder = os.path.join(folder.name, "days")
        self.begin()

    def begin(self, jobs: int = 2) -> None:
        """Opens the desk."""
        self.service = Service(Folder(self.folder), Program.found(), Searches(jobs))
        self.server = DeskServer(self.service)
        self.thread = threading.Thread(target=self.server.serve_forever, args=(0.01,), daemon=True)
        self.thread.start()
        self.is_open = True
        self.addCleanup(self.end)

    def end(self) -> None:
        """Closes the desk."""
        if self.is_open:
            self.is_open = False
            self.server.shutdown()
            self.thread.join()
            self.server.stop()

    @property
    def port(self) -> int:
        """Where the desk listens."""
        return self.server.guard.port

    def request(
        self, method: str, target: str, body: Optional[bytes] = None, headers: Optional[Dict[str, str]] = None
    ) -> Reply:
        """A request as it is said, and what comes back."""
        connection = http.client.HTTPConnection("127.0.0.1", self.port, timeout=30)
        try:
            connection.putrequest(method, target, skip_host=True, skip_accept_encoding=True)
            for name, value in (headers or {}).items():
                connection.putheader(name, value)
            connection.endheaders(body)
            answer = connection.getresponse()
            return answer.status, dict(answer.headers.items()), answer.read()
        finally:
            connection.close()

    def own_headers(self, body: Optional[bytes]) -> Dict[str, str]:
        """The headers of the desk's own page."""
        host = f"127.0.0.1:{self.port}"
        if body is None:
            return {"Host": host}
        return {"Host": host, "Origin": f"http://{host}", "Content-Type": "application/json",
                "Content-Length": str(len(body))}

    def asked(self, method: str, path: str, tree: Any = None) -> Reply:
        """A request as the page makes it."""
        body = None if method == "GET" else json.dumps(tree).encode()
        return self.request(method, f"/{self.server.guard.token}/{path}", body, self.own_headers(body))

    def get(self, path: str) -> Any:
        """What the page is told of a path."""
        status, _, data = self.asked("GET", f"api/{path}")
        self.assertEqual(status, 200, data)
        return json.loads(data)

    def post(self, path: str, tree: Any, status: int = 200) -> Any:
        """What the page is told after a change."""
        found, _, data = self.asked("POST", f"api/{path}", tree)
        self.assertEqual(found, status, data)
        return json.loads(data)

    def made(self, **words: Any) -> str:
        """A day that was made; its path."""
        tree = words or {"from": "example", "example": THREE_VANS, "name": "Monday"}
        return f"day/{self.post('days', tree)['id']}"

    def planned(self, day: str, rounds: int = 3) -> Any:
        """The day after a search of some rounds."""
        self.post(f"{day}/plan", {"seconds": 5})
        while True:
            found = self.get(f"{day}/search")
            if found["status"] not in ("waiting", "searching"):
                return self.get(day)
            if found["rounds"] >= rounds:
                self.post(f"{day}/stop", {})
            time.sleep(0.02)

    def raw(self, data: bytes, close: bool = True) -> bytes:
        """What comes back to some bytes."""
        with socket.create_connection(("127.0.0.1", self.port), 30) as connection:
            connection.sendall(data)
            if close:
                connection.shutdown(socket.SHUT_WR)
            out = b""
            while True:
                found = connection.recv(65536)
                if not found:
                    return out
                out += found
