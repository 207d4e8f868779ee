"""Who may ask the desk: the page that it opened itself, on this machine, with the token in the address.

A page of another site cannot know the token, and what it sends has another `Origin`. A name that leads to this machine
by another way (DNS rebinding) is told by `Host`. Both are looked at before anything else is.
"""

from __future__ import annotations

import hmac
import re
from dataclasses import dataclass
from typing import List, Mapping, Optional, Tuple

__all__ = ["HEADERS", "MOST_BYTES", "POLICY", "Guard", "Turned", "length_of"]

MOST_BYTES = 64 * 2**20
"""The most bytes that a request may bring."""
POLICY = (
    "default-src 'none'; script-src 'self'; style-src 'self'; connect-src 'self'; img-src 'self' data:; "
    "base-uri 'none'; form-action 'none'; frame-ancestors 'none'"
)
"""What the page may do: its own script and style, no other, no inline one, and no other address."""
HEADERS: Mapping[str, str] = {
    "Content-Security-Policy": POLICY,
    "X-Content-Type-Options": "nosniff",
    "X-Frame-Options": "DENY",
    "Referrer-Policy": "no-referrer",
    "Cross-Origin-Resource-Policy": "same-origin",
    "Cross-Origin-Opener-Policy": "same-origin",
    "Cache-Control": "no-store",
    "Connection": "close",
}
"""What goes with every answer."""
PATH = re.compile(r"(?:[A-Za-z0-9_.-]+(?:/[A-Za-z0-9_.-]+)*)?")


class Turned(Exception):
    """A request that is turned away, with its status and a sentence."""

    def __init__(self, status: int, sentence: str) -> None:
        self.status, self.sentence = status, sentence
        super().__init__(sentence)


@dataclass(frozen=True)
class Guard:
    """Turns away whoever is not the page of this desk: `token` is the first part of each path, `port` where it
    listens."""

    token: str
    port: int

    @property
    def hosts(self) -> Tuple[str, ...]:
        """The names by which the desk is asked."""
        return f"127.0.0.1:{self.port}", f"localhost:{self.port}"

    @property
    def address(self) -> str:
        """The address of the page."""
        return f"http://127.0.0.1:{self.port}/{self.token}/"

    def parts(self, method: str, target: str, hosts: List[str], headers: Mapping[str, str]) -> List[str]:
        """The parts of the path after the token. Raises `Turned` if the request is not from the desk's own page.

        `hosts` are the values of all `Host` lines, `headers` those of other lines.
        """
        if len(hosts) != 1 or hosts[0].lower() not in self.hosts:
            raise Turned(403, "this desk is asked by its own address alone")
        path = self.after_token(target)
        origin = headers.get("Origin")
        if origin is None and method != "GET":
            raise Turned(403, "what changes something comes from the desk's own page")
        if origin is not None and origin not in [f"http://{host}" for host in self.hosts]:
            raise Turned(403, "another page may not ask the desk")
        is_own = headers.get("Sec-Fetch-Site", "none") in ("none", "same-origin")
        if not is_own and not is_opened(method, path, headers):
            raise Turned(403, "another page may not ask the desk")
        if PATH.fullmatch(path) is None or ".." in path.split("/") or "." in path.split("/"):
            raise Turned(404, "there is nothing here")
        return path.split("/") if path else []

    def after_token(self, target: str) -> str:
        """The path after the token. Raises `Turned` if the token is another one."""
        path = target.split("?", 1)[0]
        token, slash, rest = path[1:].partition("/")
        is_own = hmac.compare_digest(token.encode("utf-8", "replace"), self.token.encode())
        if not path.startswith("/") or not is_own or not slash:
            raise Turned(403, "the address of the desk has a word that is told when it is started")
        return rest


def is_opened(method: str, path: str, headers: Mapping[str, str]) -> bool:
    """Whether the page itself is opened as a whole, as from the file that the desk hands to the browser."""
    modes = headers.get("Sec-Fetch-Mode"), headers.get("Sec-Fetch-Dest")
    return method == "GET" and path == "" and modes == ("navigate", "document")


def length_of(headers: Mapping[str, str]) -> int:
    """How many bytes a request brings. Raises `Turned` if it does not say, or brings too many."""
    text: Optional[str] = headers.get("Content-Length")
    if headers.get("Transfer-Encoding") is not None or text is None:
        raise Turned(411, "a request says how many bytes it brings")
    if re.fullmatch("[0-9]{1,12}", text) is None:
        raise Turned(400, "the length of the request is no number")
    if int(text) > MOST_BYTES:
        raise Turned(413, "a request brings 64 MiB at most")
    return int(text)
