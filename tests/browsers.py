"""Headless Chromium and Firefox, each driven by what Python's standard library has: Chromium over
two pipes, Firefox over a socket (Marionette).

    with opened(CHROMIUM, folder) as browser:
        browser.go("file:///..")
        browser.value("document.title")
"""

from __future__ import annotations

import base64
import json
import os
import shutil
import signal
import socket
import subprocess
import time
from abc import ABC, abstractmethod
from contextlib import contextmanager, suppress
from pathlib import Path
from typing import Any, Iterator, Sequence

# The names of the programs, and their packages in Debian.
CHROMIUM, FIREFOX = "chromium", "firefox-esr"
LIMIT = 60.0
SIZE = (1100, 900)
ANSWER = 1 << 26  # bytes


class Lacking(Exception):
    """This machine has no such browser; the text names the package."""


def program(name: str) -> str:
    found = shutil.which(name)
    if not found:
        raise Lacking(f"there is no {name}: install the Debian package {name}")
    return found


class Browser(ABC):
    """A browser with one tab."""

    @abstractmethod
    def go(self, url: str) -> None:
        """Loads a page."""

    @abstractmethod
    def value(self, expression: str) -> Any:
        """The value of an expression of JavaScript in the page; a promise is waited for."""

    @abstractmethod
    def choose(self, files: Sequence[Path]) -> None:
        """Chooses files in the field `files`."""

    @abstractmethod
    def picture(self) -> bytes:
        """The page as PNG."""

    def wait(self, expression: str) -> None:
        """Waits until an expression is true."""
        until = time.monotonic() + LIMIT
        while not self.value(f"Boolean({expression})"):
            if time.monotonic() > until:
                raise TimeoutError(f"never true: {expression}")
            time.sleep(0.02)


class Chromium(Browser):
    def __init__(self, folder: Path) -> None:
        down, up = os.pipe(), os.pipe()
        words = ["--headless=new", "--no-sandbox", "--disable-gpu", "--no-first-run"]
        words += ["--remote-debugging-pipe", f"--user-data-dir={folder / 'chromium'}"]
        words += [f"--window-size={SIZE[0]},{SIZE[1]}", "--disable-background-networking"]
        # The browser reads descriptor 3 and writes descriptor 4.
        shell = f'exec 3<&{down[0]} 4>&{up[1]}; exec "$0" "$@"'
        command = ["bash", "-c", shell, program(CHROMIUM), *words, "about:blank"]
        with open(folder / "chromium.log", "wb") as log:
            self.process = subprocess.Popen(
                command, stdout=log, stderr=log, pass_fds=(down[0], up[1]), start_new_session=True
            )
        os.close(down[0])
        os.close(up[1])
        self.out, self.into, self.rest, self.number = down[1], up[0], b"", 0
        self.errors: list[str] = []
        self.session = ""
        targets = self.call("Target.getTargets")["targetInfos"]
        target = next(it["targetId"] for it in targets if it["type"] == "page")
        attach = {"targetId": target, "flatten": True}
        self.session = self.call("Target.attachToTarget", **attach)["sessionId"]
        for name in ("Page", "Runtime", "DOM"):
            self.call(f"{name}.enable")

    def message(self) -> dict[str, Any]:
        while b"\0" not in self.rest:
            piece = os.read(self.into, 1 << 16)
            if not piece:
                raise ConnectionError("Chromium ended")
            self.rest += piece
        one, _, self.rest = self.rest.partition(b"\0")
        return json.loads(one)

    def call(self, method: str, **params: Any) -> dict[str, Any]:
        self.number += 1
        sent = {"id": self.number, "method": method, "params": params}
        if self.session:
            sent["sessionId"] = self.session
        data = json.dumps(sent).encode() + b"\0"
        while data:
            data = data[os.write(self.out, data) :]
        while True:
            got = self.message()
            if got.get("method") == "Runtime.exceptionThrown":
                self.errors.append(json.dumps(got["params"])[:500])
            if got.get("id") == self.number:
                if "error" in got:
                    raise RuntimeError(f"{method}: {got['error']}")
                return got["result"]

    def go(self, url: str) -> None:
        self.call("Page.navigate", url=url)
        self.wait(f"document.readyState === 'complete' && location.href === {json.dumps(url)}")

    def value(self, expression: str) -> Any:
        words = {"expression": expression, "awaitPromise": True, "returnByValue": True}
        got = self.call("Runtime.evaluate", **words)
        if "exceptionDetails" in got:
            raise RuntimeError(json.dumps(got["exceptionDetails"])[:500])
        return got["result"].get("value")

    def choose(self, files: Sequence[Path]) -> None:
        root = self.call("DOM.getDocument")["root"]["nodeId"]
        node = self.call("DOM.querySelector", nodeId=root, selector="#files")["nodeId"]
        self.call("DOM.setFileInputFiles", nodeId=node, files=[str(it) for it in files])

    def picture(self) -> bytes:
        height = self.value("document.documentElement.scrollHeight")
        clip = {"x": 0, "y": 0, "width": SIZE[0], "height": height, "scale": 1}
        got = self.call("Page.captureScreenshot", captureBeyondViewport=True, clip=clip)
        return base64.b64decode(got["data"])


class Firefox(Browser):
    def __init__(self, folder: Path) -> None:
        profile = folder / "firefox"
        profile.mkdir()
        (profile / "user.js").write_text('user_pref("marionette.port", 0);\n')
        words = ["--headless", "--marionette", "--no-remote", "--profile", str(profile)]
        words += ["--width", str(SIZE[0]), "--height", str(SIZE[1])]
        environment = {**os.environ, "HOME": str(folder), "MOZ_HEADLESS": "1"}
        with open(folder / "firefox.log", "wb") as log:
            self.process = subprocess.Popen(
                [program(FIREFOX), *words],
                stdout=log,
                stderr=log,
                env=environment,
                start_new_session=True,
            )
        self.errors: list[str] = []
        self.rest, self.number = b"", 0
        self.stream = socket.create_connection(("127.0.0.1", self.port(profile)), LIMIT)
        self.message()
        self.call("WebDriver:NewSession", capabilities={})

    def port(self, profile: Path) -> int:
        """The port that the browser chose and wrote to its profile."""
        until = time.monotonic() + LIMIT
        while time.monotonic() < until and self.process.poll() is None:
            with suppress(OSError, ValueError):
                return int((profile / "MarionetteActivePort").read_text())
            time.sleep(0.05)
        raise ConnectionError("Firefox opens no port")

    def message(self) -> Any:
        """A message: its length in decimal, a colon, and JSON."""
        while True:
            head, colon, rest = self.rest.partition(b":")
            if colon and len(rest) >= int(head):
                self.rest = rest[int(head) :]
                return json.loads(rest[: int(head)])
            piece = self.stream.recv(1 << 16)
            if not piece:
                raise ConnectionError("Firefox ended")
            self.rest += piece

    def call(self, name: str, **params: Any) -> Any:
        self.number += 1
        data = json.dumps([0, self.number, name, params]).encode()
        self.stream.sendall(b"%d:%b" % (len(data), data))
        _, _, error, result = self.message()
        if error:
            raise RuntimeError(f"{name}: {error['message']}")
        return result

    def go(self, url: str) -> None:
        self.call("WebDriver:Navigate", url=url)

    def value(self, expression: str) -> Any:
        script = f"const done = arguments[0]; Promise.resolve({expression}).then(done)"
        return self.call("WebDriver:ExecuteAsyncScript", script=script, args=[])["value"]

    def choose(self, files: Sequence[Path]) -> None:
        find = {"using": "css selector", "value": "#files"}
        found = self.call("WebDriver:FindElement", **find)["value"]
        element = next(iter(found.values()))
        text = "\n".join(str(it) for it in files)
        self.call("WebDriver:ElementSendKeys", id=element, text=text)

    def picture(self) -> bytes:
        return base64.b64decode(self.call("WebDriver:TakeScreenshot", full=True)["value"])


@contextmanager
def opened(name: str, folder: Path) -> Iterator[Browser]:
    """A browser with a profile in this folder. At the end its processes are ended."""
    browser = {CHROMIUM: Chromium, FIREFOX: Firefox}[name](folder)
    try:
        yield browser
    finally:
        with suppress(ProcessLookupError):
            os.killpg(browser.process.pid, signal.SIGKILL)
        browser.process.wait()
