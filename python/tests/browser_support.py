"""A browser for scripts that are run by hand: Debian's Chromium without a window, spoken to by its debugging protocol.

    with Browser() as page:
        page.go("http://127.0.0.1:8000/")
        page.value("document.title")
"""

from __future__ import annotations

import base64
import json
import os
import secrets
import shutil
import socket
import struct
import subprocess
import tempfile
import time
import urllib.request
from types import TracebackType
from typing import Any, Dict, List, Optional, Sequence, Tuple, Type

KEYS: Dict[str, Tuple[str, int]] = {
    "Enter": ("\r", 13), "Escape": ("", 27), "Tab": ("", 9), "Delete": ("", 46), "ArrowLeft": ("", 37),
    "ArrowUp": ("", 38), "ArrowRight": ("", 39), "ArrowDown": ("", 40), "Home": ("", 36), "End": ("", 35),
    " ": (" ", 32),
}
"""What some keys write, and their codes."""
SHIFT, CONTROL = 8, 2


class WebSocket:
    """The client's end of a web socket, for texts alone."""

    def __init__(self, address: str) -> None:
        host, _, path = address[len("ws://"):].partition("/")
        name, _, port = host.partition(":")
        self._socket = socket.create_connection((name, int(port)))
        self._socket.settimeout(60)
        self._left = b""
        key = base64.b64encode(secrets.token_bytes(16)).decode()
        self._socket.sendall((
            f"GET /{path} HTTP/1.1\r\nHost: {host}\r\nUpgrade: websocket\r\nConnection: Upgrade\r\n"
            f"Sec-WebSocket-Key: {key}\r\nSec-WebSocket-Version: 13\r\n\r\n"
        ).encode())
        while b"\r\n\r\n" not in self._left:
            self._left += self._socket.recv(4096)
        self._left = self._left.split(b"\r\n\r\n", 1)[1]

    def send(self, text: str) -> None:
        """Sends a text."""
        data, mask = text.encode(), secrets.token_bytes(4)
        size = len(data)
        length = struct.pack("!BH", 0xfe, size) if size < 65536 else struct.pack("!BQ", 0xff, size)
        head = b"\x81" + (bytes([0x80 | size]) if size < 126 else length)
        repeated = (mask * (size // 4 + 1))[:size]
        masked = (int.from_bytes(data, "big") ^ int.from_bytes(repeated, "big")).to_bytes(size, "big") if size else b""
        self._socket.sendall(head + mask + masked)

    def take(self, size: int) -> bytes:
        """The next bytes."""
        while len(self._left) < size:
            found = self._socket.recv(65536)
            if not found:
                raise ConnectionError("the browser closed the connection")
            self._left += found
        out, self._left = self._left[:size], self._left[size:]
        return out

    def receive(self) -> str:
        """The next text."""
        whole = b""
        while True:
            first, second = self.take(2)
            size = second & 0x7f
            if size >= 126:
                size = int.from_bytes(self.take(2 if size == 126 else 8), "big")
            data = self.take(size)
            if first & 0x0f in (0, 1):
                whole += data
                if first & 0x80:
                    return whole.decode()

    def close(self) -> None:
        """Closes the connection."""
        self._socket.close()


class Browser:
    """A browser with one page."""

    def __init__(self, width: int = 1400, height: int = 1000) -> None:
        self._folder = tempfile.mkdtemp()
        self._process = subprocess.Popen(
            [shutil.which("chromium") or "chromium", "--headless=new", "--no-sandbox", "--disable-gpu",
             "--no-first-run", "--remote-debugging-port=0", f"--user-data-dir={self._folder}", "about:blank"],
            stdout=subprocess.DEVNULL, stderr=subprocess.DEVNULL,
        )
        self._socket = WebSocket(self.address())
        self._number = 0
        self.events: List[Any] = []
        for domain in ("Page", "Runtime", "Log", "DOM", "Network"):
            self.call(f"{domain}.enable")
        self.size(width, height)

    def __enter__(self) -> "Browser":
        return self

    def __exit__(
        self, kind: Optional[Type[BaseException]], problem: Optional[BaseException], trace: Optional[TracebackType]
    ) -> None:
        self.close()

    def address(self) -> str:
        """The address of the page's debugging protocol."""
        port = os.path.join(self._folder, "DevToolsActivePort")
        for _ in range(300):
            if os.path.exists(port) and os.path.getsize(port):
                break
            time.sleep(0.1)
        with open(port, encoding="ascii") as file:
            number = file.readline().strip()
        for _ in range(50):
            with urllib.request.urlopen(f"http://127.0.0.1:{number}/json/list") as answer:
                pages = [entry for entry in json.load(answer) if entry["type"] == "page"]
            if pages:
                return str(pages[0]["webSocketDebuggerUrl"])
            time.sleep(0.1)
        raise RuntimeError("the browser opened no page")

    def call(self, method: str, **words: Any) -> Any:
        """What a call of the protocol gives; events that come meanwhile are kept."""
        self._number += 1
        self._socket.send(json.dumps({"id": self._number, "method": method, "params": words}))
        while True:
            found = json.loads(self._socket.receive())
            if found.get("id") == self._number:
                if "error" in found:
                    raise RuntimeError(f"{method}: {found['error']}")
                return found["result"]
            self.events.append(found)

    def size(self, width: int, height: int) -> None:
        """The page's size."""
        self.call("Emulation.setDeviceMetricsOverride", width=width, height=height, deviceScaleFactor=1, mobile=False)

    def dark(self, is_dark: bool) -> None:
        """Whether the reader's screen is dark."""
        self.call("Emulation.setEmulatedMedia",
                  features=[{"name": "prefers-color-scheme", "value": "dark" if is_dark else "light"}])

    def go(self, address: str) -> None:
        """Opens an address."""
        self.call("Page.navigate", url=address)

    def value(self, script: str) -> Any:
        """What a script gives, in the page; a promise is waited for."""
        found = self.call("Runtime.evaluate", expression=script, returnByValue=True, awaitPromise=True)
        if "exceptionDetails" in found:
            raise RuntimeError(f"{script}: {found['exceptionDetails']}")
        return found["result"].get("value")

    def wait(self, script: str, seconds: float = 20) -> Any:
        """What a script gives as soon as it is something."""
        end = time.monotonic() + seconds
        while time.monotonic() < end:
            found = self.value(script)
            if found:
                return found
            time.sleep(0.03)
        raise AssertionError(f"it did not come: {script}")

    def middle(self, selector: str) -> Tuple[float, float]:
        """The middle of an element, scrolled into sight."""
        x, y = self.value(
            f"(() => {{ const e = document.querySelector({json.dumps(selector)});"
            " e.scrollIntoView({block: 'center'}); const b = e.getBoundingClientRect();"
            " return [b.x + b.width / 2, b.y + b.height / 2]; })()"
        )
        return float(x), float(y)

    def mouse(self, kind: str, x: float, y: float, modifiers: int = 0) -> None:
        """What the mouse does at a point."""
        is_moved = kind == "mouseMoved"
        self.call("Input.dispatchMouseEvent", type=kind, x=x, y=y, button="none" if is_moved else "left",
                  clickCount=0 if is_moved else 1, modifiers=modifiers)

    def click(self, selector: str, modifiers: int = 0) -> None:
        """Presses an element."""
        x, y = self.middle(selector)
        for kind in ("mouseMoved", "mousePressed", "mouseReleased"):
            self.mouse(kind, x, y, modifiers)

    def drag(self, selector: str, to: Tuple[float, float], steps: int = 6) -> None:
        """Drags an element to a point."""
        x, y = self.middle_seen(selector)
        self.mouse("mouseMoved", x, y)
        self.mouse("mousePressed", x, y)
        for step in range(1, steps + 1):
            self.call("Input.dispatchMouseEvent", type="mouseMoved", button="left", buttons=1,
                      x=x + (to[0] - x) * step / steps, y=y + (to[1] - y) * step / steps)
        self.mouse("mouseReleased", *to)

    def middle_seen(self, selector: str) -> Tuple[float, float]:
        """The middle of an element, where it is in sight."""
        x, y = self.value(
            f"(() => {{ const b = document.querySelector({json.dumps(selector)}).getBoundingClientRect();"
            " return [b.x + b.width / 2, b.y + b.height / 2]; })()"
        )
        return float(x), float(y)

    def key(self, name: str, modifiers: int = 0) -> None:
        """Presses a key."""
        text, code = KEYS.get(name, (name, ord(name.upper()[0])))
        words = {"key": name, "windowsVirtualKeyCode": code, "modifiers": modifiers}
        is_text = bool(text) and not modifiers & CONTROL
        self.call("Input.dispatchKeyEvent", type="keyDown", **words, **({"text": text} if is_text else {}))
        self.call("Input.dispatchKeyEvent", type="keyUp", **words)

    def type(self, words: str) -> None:
        """Writes into the field that has the focus."""
        self.call("Input.insertText", text=words)

    def files(self, selector: str, paths: Sequence[str]) -> None:
        """Chooses files in a field."""
        root = self.call("DOM.getDocument")["root"]["nodeId"]
        node = self.call("DOM.querySelector", nodeId=root, selector=selector)["nodeId"]
        self.call("DOM.setFileInputFiles", nodeId=node, files=list(paths))

    def picture(self, path: str, whole: bool = False) -> None:
        """Writes what is seen, or the whole page, as a PNG."""
        words: Dict[str, Any] = {"format": "png", "captureBeyondViewport": whole}
        if whole:
            found = self.call("Page.getLayoutMetrics")["cssContentSize"]
            words["clip"] = {"x": 0, "y": 0, "width": found["width"], "height": found["height"], "scale": 1}
        data = self.call("Page.captureScreenshot", **words)["data"]
        with open(path, "wb") as file:
            file.write(base64.b64decode(data))

    def problems(self) -> List[str]:
        """What the page complained of: exceptions, errors, what its policy did not allow."""
        self.value("0")
        out = []
        for event in self.events:
            if event["method"] == "Runtime.exceptionThrown":
                out.append(json.dumps(event["params"]["exceptionDetails"])[:400])
            if event["method"] == "Log.entryAdded" and event["params"]["entry"]["level"] == "error":
                out.append(event["params"]["entry"]["text"] + " " + event["params"]["entry"].get("url", "")[-60:])
        return out

    def close(self) -> None:
        """Ends the browser."""
        self._socket.close()
        self._process.terminate()
        self._process.wait(10)
        shutil.rmtree(self._folder, ignore_errors=True)
