"""A browser without a window, driven as a user does: by its pipe for debugging, with real events of mouse and keys."""

from __future__ import annotations

import base64
import json
import os
import shutil
import subprocess
import tempfile
import time
from pathlib import Path
from typing import Any

from helping import browser

FLAGS = ("--headless", "--no-sandbox", "--disable-gpu", "--remote-debugging-pipe", "--force-color-profile=srgb")
KEYS = {
    "ArrowLeft": 37, "ArrowUp": 38, "ArrowRight": 39, "ArrowDown": 40, "Enter": 13, "Tab": 9, "Delete": 46, " ": 32,
    "Escape": 27, "Home": 36, "End": 35,
}  # fmt: skip
SHIFT, CONTROL = 8, 2


class Broken(Exception):
    """The page's script failed, or the browser ended."""


class Browser:
    """One browser with one page."""

    def __init__(self) -> None:
        to_read, self._to = os.pipe()
        self._of, to_write = os.pipe()
        self._folder = tempfile.mkdtemp()
        words = [browser() or "chromium", *FLAGS, f"--user-data-dir={self._folder}", "about:blank"]
        # the browser reads its descriptor 3 and writes its descriptor 4
        start = f'exec "$@" 3<&{to_read} 4>&{to_write}'
        self._process = subprocess.Popen(
            ["bash", "-c", start, "browser", *words], pass_fds=(to_read, to_write), stderr=subprocess.DEVNULL
        )
        os.close(to_read)
        os.close(to_write)
        self._number, self._rest, self._session = 0, b"", ""
        self.failures: list[str] = []
        target = self.call("Target.createTarget", url="about:blank")["targetId"]
        self._session = self.call("Target.attachToTarget", targetId=target, flatten=True)["sessionId"]
        for domain in ("Page", "Runtime", "Log", "Network"):
            self.call(f"{domain}.enable")
        self.requests: list[str] = []

    def call(self, method: str, **parameters: Any) -> dict[str, Any]:
        """A call of the browser's protocol. Raises Broken where it fails."""
        self._number += 1
        message: dict[str, Any] = {"id": self._number, "method": method, "params": parameters}
        if self._session:
            message["sessionId"] = self._session
        left = json.dumps(message).encode() + b"\0"
        while left:
            left = left[os.write(self._to, left[:65536]) :]
        while True:
            said = self._read()
            if said.get("id") == self._number:
                if "error" in said:
                    raise Broken(f"{method}: {said['error']}")
                result: dict[str, Any] = said["result"]
                return result
            self._note(said)

    def _read(self) -> dict[str, Any]:
        while b"\0" not in self._rest:
            more = os.read(self._of, 1 << 20)
            if not more:
                raise Broken("the browser has ended")
            self._rest += more
        one, _, self._rest = self._rest.partition(b"\0")
        said: dict[str, Any] = json.loads(one)
        return said

    def _note(self, said: dict[str, Any]) -> None:
        """Keeps what went wrong in the page, and what it asked of a network."""
        parameters = said.get("params", {})
        if said.get("method") == "Runtime.exceptionThrown":
            self.failures.append(json.dumps(parameters["exceptionDetails"])[:600])
        if said.get("method") == "Log.entryAdded" and parameters["entry"]["level"] == "error":
            self.failures.append(parameters["entry"]["text"])
        if said.get("method") == "Network.requestWillBeSent":
            self.requests.append(parameters["request"]["url"])

    def value(self, expression: str) -> Any:
        """What an expression gives in the page, waited for. Raises Broken where it fails."""
        done = self.call("Runtime.evaluate", expression=expression, awaitPromise=True, returnByValue=True)
        if "exceptionDetails" in done:
            raise Broken(json.dumps(done["exceptionDetails"])[:600])
        return done["result"].get("value")

    def open(self, page: Path, state: str = "") -> None:
        """Opens a page from the disk, in place of what was open."""
        self.call("Page.navigate", url="about:blank")
        self.call("Page.navigate", url=f"file://{page.resolve()}{state}")

    def until(self, condition: str, seconds: float = 60) -> float:
        """Waits until a condition holds in the page, and says for how many seconds. Raises Broken where it takes longer
        than is allowed."""
        start = time.monotonic()
        while not self.value(f"(() => {{ try {{ return Boolean({condition}); }} catch {{ return false; }} }})()"):
            if time.monotonic() - start > seconds:
                raise Broken(f"it didn't come: {condition}; {self.failures[-3:]}")
            time.sleep(0.02)
        return time.monotonic() - start

    def screen(self, width: int, height: int, scale: float = 1, is_phone: bool = False) -> None:
        """The size of the window."""
        self.call(
            "Emulation.setDeviceMetricsOverride", width=width, height=height, deviceScaleFactor=scale, mobile=is_phone
        )
        self.call("Emulation.setTouchEmulationEnabled", enabled=is_phone)

    def dark(self, is_dark: bool) -> None:
        """Whether the system asks for dark pages."""
        features = [{"name": "prefers-color-scheme", "value": "dark" if is_dark else "light"}]
        self.call("Emulation.setEmulatedMedia", features=features)

    def mouse(self, kind: str, x: float, y: float, **more: Any) -> None:
        """An event of the mouse at a place of the window."""
        self.call("Input.dispatchMouseEvent", type=f"mouse{kind}", x=x, y=y, **more)

    def click(self, x: float, y: float) -> None:
        """A click at a place of the window."""
        self.mouse("Moved", x, y)
        self.mouse("Pressed", x, y, button="left", clickCount=1)
        self.mouse("Released", x, y, button="left", clickCount=1)

    def drag(self, begin: tuple[float, float], end: tuple[float, float], steps: int = 8) -> None:
        """Drags the mouse from one place to another."""
        self.mouse("Moved", *begin)
        self.mouse("Pressed", *begin, button="left", clickCount=1)
        for step in range(1, steps + 1):
            x, y = (a + (b - a) * step / steps for a, b in zip(begin, end))
            self.mouse("Moved", x, y, button="left", buttons=1)
        self.mouse("Released", *end, button="left", clickCount=1)

    def tap(self, x: float, y: float) -> None:
        """A tap of a finger."""
        self.call("Input.dispatchTouchEvent", type="touchStart", touchPoints=[{"x": x, "y": y}])
        self.call("Input.dispatchTouchEvent", type="touchEnd", touchPoints=[])

    def middle(self, selector: str) -> tuple[float, float]:
        """The middle of an element, which is scrolled into the window."""
        box = f"document.querySelector({json.dumps(selector)})"
        self.value(f"{box}.scrollIntoView({{block: 'center', behavior: 'instant'}})")
        return self.where(selector)

    def box(self, selector: str) -> tuple[float, float, float, float]:
        """Where an element is in the window, how wide, and how high."""
        box = f"document.querySelector({json.dumps(selector)}).getBoundingClientRect()"
        left, top, width, height = self.value(f"(({{x, y, width, height}}) => [x, y, width, height])({box})")
        return left, top, width, height

    def where(self, selector: str) -> tuple[float, float]:
        """The middle of an element, as the window stands."""
        left, top, width, height = self.box(selector)
        return left + width / 2, top + height / 2

    def click_on(self, selector: str) -> None:
        """A click on an element."""
        self.click(*self.middle(selector))

    def type(self, text: str) -> None:
        """Types a text."""
        self.call("Input.insertText", text=text)

    def press(self, key: str, modifiers: int = 0) -> None:
        """Presses a key."""
        code = KEYS.get(key) or ord(key.upper())
        text = {"Enter": "\r"}.get(key, key if len(key) == 1 and not modifiers & CONTROL else "")
        more = {"text": text} if text else {}
        shared = {"key": key, "windowsVirtualKeyCode": code, "modifiers": modifiers}
        self.call("Input.dispatchKeyEvent", type="keyDown", **shared, **more)
        self.call("Input.dispatchKeyEvent", type="keyUp", **shared)

    def files(self, selector: str, *paths: Path) -> None:
        """Chooses files in a field for files."""
        root = self.call("DOM.getDocument")["root"]["nodeId"]
        node = self.call("DOM.querySelector", nodeId=root, selector=selector)["nodeId"]
        self.call("DOM.setFileInputFiles", nodeId=node, files=[str(path.resolve()) for path in paths])

    def picture(self, file: Path, is_whole: bool = False) -> None:
        """Keeps what is seen as a picture: of the window, or of the whole page."""
        shot = self.call("Page.captureScreenshot", format="png", captureBeyondViewport=is_whole)["data"]
        file.write_bytes(base64.b64decode(shot))

    def close(self) -> None:
        """Ends the browser."""
        self._session = ""
        self.call("Browser.close")
        self._process.wait()
        os.close(self._to)
        os.close(self._of)
        shutil.rmtree(self._folder, ignore_errors=True)
