"""A headless browser for the tests of pages and drawings, as Debian's package chromium, driven by the standard library
alone."""
from __future__ import annotations

import base64
import json
import os
import shutil
import socket
import struct
import subprocess
import tempfile
import time
import unittest
import urllib.request
from pathlib import Path
from typing import Any

PROGRAM = next(filter(None, map(shutil.which, ("chromium", "chromium-browser", "google-chrome"))), None)
"""The browser, where one is installed."""

_WORDS = ("--headless=new", "--no-sandbox", "--disable-gpu", "--disable-dev-shm-usage", "--no-first-run",
          "--hide-scrollbars", "--disable-background-networking", "--remote-debugging-port=0")


def _waited(found, seconds=60):
    """What a function gives as soon as that is something."""
    end = time.monotonic() + seconds
    while time.monotonic() < end:
        given = found()
        if given:
            return given
        time.sleep(0.05)
    return None


class Browser:
    """One page of a browser, for use in a `with`. `errors` has what the console, the scripts and requests of the
    network have told."""

    def __init__(self) -> None:
        self.folder = tempfile.TemporaryDirectory(ignore_cleanup_errors=True)
        self.process = subprocess.Popen([PROGRAM, *_WORDS, f"--user-data-dir={self.folder.name}", "about:blank"],
                                        stdout=subprocess.DEVNULL, stderr=subprocess.DEVNULL)
        self.count, self.errors = 0, []
        port = _waited(self._port)
        if port is None:
            self.close()
            raise unittest.SkipTest(f"{PROGRAM} does not start")
        self.stream = self._connected(port)
        for name in ("Page", "Runtime", "Log", "Network", "Accessibility"):
            self.send(f"{name}.enable")

    def _port(self) -> int | None:
        file = Path(self.folder.name, "DevToolsActivePort")
        lines = file.read_text().split("\n") if file.exists() else []
        return int(lines[0]) if len(lines) > 1 else None

    def _connected(self, port: int) -> Any:
        """The stream of the first page."""
        def page() -> str | None:
            with urllib.request.urlopen(f"http://127.0.0.1:{port}/json") as answer:
                pages = [each for each in json.load(answer) if each["type"] == "page"]
            return pages[0]["webSocketDebuggerUrl"] if pages else None

        path = _waited(page).split(str(port), 1)[1]
        self.socket = socket.create_connection(("127.0.0.1", port), timeout=60)
        key = base64.b64encode(os.urandom(16)).decode()
        lines = (f"GET {path} HTTP/1.1", f"Host: 127.0.0.1:{port}", "Upgrade: websocket", "Connection: Upgrade",
                 f"Sec-WebSocket-Key: {key}", "Sec-WebSocket-Version: 13", "", "")
        self.socket.sendall("\r\n".join(lines).encode())
        stream = self.socket.makefile("rb")
        while stream.readline().strip():
            pass
        return stream

    def __enter__(self) -> Browser:
        return self

    def __exit__(self, *_: object) -> None:
        self.close()

    def close(self) -> None:
        """Ends the browser that this object started."""
        self.process.terminate()
        self.process.wait(20)
        if hasattr(self, "stream"):
            self.stream.close()
            self.socket.close()
        self.folder.cleanup()

    def send(self, method: str, **parameters: Any) -> dict[str, Any]:
        """Calls the browser, and gives what it answers."""
        self.count += 1
        data = json.dumps({"id": self.count, "method": method, "params": parameters}).encode()
        size = len(data)
        head = bytes([128 | size]) if size < 126 else b"\xfe" + struct.pack(">H", size)
        self.socket.sendall(b"\x81" + head + bytes(4) + data)
        while True:
            answer = json.loads(self._frame())
            if answer.get("id") == self.count:
                if "error" in answer:
                    raise RuntimeError(answer["error"])
                return answer.get("result", {})
            self._note(answer)

    def _note(self, answer: dict[str, Any]) -> None:
        method, told = answer.get("method"), answer.get("params", {})
        if method == "Runtime.exceptionThrown":
            self.errors.append(str(told["exceptionDetails"].get("exception", told)))
        elif method == "Log.entryAdded":
            self.errors.append(told["entry"]["text"])
        elif method == "Network.requestWillBeSent":
            url = told["request"]["url"]
            if not url.startswith(("file:", "about:", "data:")):
                self.errors.append(f"the page asked for {url}")

    def _frame(self) -> bytes:
        found = b""
        while True:
            first, second = self.stream.read(2)
            size = second & 127
            if size == 126:
                size = struct.unpack(">H", self.stream.read(2))[0]
            elif size == 127:
                size = struct.unpack(">Q", self.stream.read(8))[0]
            found += self.stream.read(size)
            if first & 128:
                return found

    def run(self, script: str) -> Any:
        """What an expression of the page's script gives."""
        answer = self.send("Runtime.evaluate", expression=script, returnByValue=True, awaitPromise=True)
        if "exceptionDetails" in answer:
            raise RuntimeError(answer["exceptionDetails"]["exception"].get("description"))
        return answer["result"].get("value")

    def wide(self, width: int, dark: bool = False) -> None:
        """Makes the window so many pixels wide."""
        self.send("Emulation.setDeviceMetricsOverride", width=width, height=800, deviceScaleFactor=1,
                  mobile=width < 600)
        self.send("Emulation.setEmulatedMedia",
                  features=[{"name": "prefers-color-scheme", "value": "dark" if dark else "light"}])

    def open(self, path: Path | str, fragment: str = "") -> float:
        """Opens a page, and gives the seconds that it took to be there."""
        self.send("Page.navigate", url="about:blank")
        began = time.monotonic()
        self.send("Page.navigate", url=f"{Path(path).resolve().as_uri()}{fragment}")
        ready = "location.protocol === 'file:' && document.readyState === 'complete'"
        if not _waited(lambda: self.run(ready)):
            raise AssertionError(f"{path} does not open")
        return time.monotonic() - began

    def settle(self) -> None:
        """Waits until what was clicked has been done, a change of the address too."""
        self.run("new Promise(done => setTimeout(done, 20))")

    def click(self, selector: str, at: int = 0) -> None:
        self.run(f"(each => (each.focus(), each.click()))(document.querySelectorAll({json.dumps(selector)})[{at}])")
        self.settle()

    def key(self, key: str) -> None:
        text = "\r" if key == "Enter" else key if len(key) == 1 else ""
        code = {"Enter": 13, "Tab": 9}.get(key)
        told = {"key": key} | ({"windowsVirtualKeyCode": code} if code else {})
        self.send("Input.dispatchKeyEvent", type="keyDown", text=text, **told)
        self.send("Input.dispatchKeyEvent", type="keyUp", **told)
        self.settle()

    def text(self, selector: str) -> str:
        """What is to be read in the first element of this selector."""
        return self.run(f"document.querySelector({json.dumps(selector)}).innerText")

    def texts(self, selector: str) -> list[str]:
        return self.run(f"[...document.querySelectorAll({json.dumps(selector)})].map(each => each.innerText)")

    def spoken(self) -> list[tuple[str, str]]:
        """Role and name of what a screen reader finds on the page."""
        nodes = self.send("Accessibility.getFullAXTree")["nodes"]
        return [(node["role"]["value"], node.get("name", {}).get("value", "")) for node in nodes if not node["ignored"]]

    def picture(self, output: Path) -> None:
        """Writes a picture of the whole page (.png)."""
        size = self.send("Page.getLayoutMetrics")["cssContentSize"]
        clip = {"x": 0, "y": 0, "width": size["width"], "height": min(6000, size["height"]), "scale": 1}
        data = self.send("Page.captureScreenshot", format="png", captureBeyondViewport=True, clip=clip)["data"]
        output.write_bytes(base64.b64decode(data))
