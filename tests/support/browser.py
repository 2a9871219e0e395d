"""A page in headless Chromium, by the DevTools protocol over a pipe: keys, values, errors."""

import base64
import json
import os
import pathlib
import shutil
import subprocess
import time
from types import TracebackType
from typing import Any, Optional, Type

import pytest

NAME = "chromium"
SECONDS = 120
CODES = {"ArrowLeft": 37, "ArrowRight": 39, "Home": 36, "End": 35, "PageUp": 33, "PageDown": 34,
         "Tab": 9}
FAILURES = ("Runtime.exceptionThrown", "Log.entryAdded")


class Browser:
    """One page. Its profile is in a folder that the caller has."""

    def __init__(self, page: pathlib.Path, folder: pathlib.Path) -> None:
        if shutil.which(NAME) is None:
            pytest.skip(f"{NAME} is not installed: the page was not opened in a browser")
        commands, self.commands = os.pipe()
        self.answers, answers = os.pipe()
        words = f'exec "$0" "$@" 3<&{commands} 4>&{answers}'
        self.process = subprocess.Popen(
            ["bash", "-c", words, NAME, "--headless", "--no-sandbox", "--disable-gpu",
             "--remote-debugging-pipe", f"--user-data-dir={folder}", "about:blank"],
            pass_fds=(commands, answers), stderr=subprocess.DEVNULL)
        os.close(commands)
        os.close(answers)
        self.rest, self.number = b"", 0
        self.session: Optional[str] = None
        self.tab: Optional[str] = None
        self.events: list[Any] = []
        self.open(page)

    def __enter__(self) -> "Browser":
        return self

    def __exit__(self, kind: Optional[Type[BaseException]], error: Optional[BaseException],
                 trace: Optional[TracebackType]) -> None:
        self.process.terminate()
        self.process.wait(60)
        os.close(self.commands)
        os.close(self.answers)

    def open(self, page: pathlib.Path) -> None:
        """Opens the page in a new tab, in place of the one before, and waits until it is loaded."""
        before, self.session = self.tab, None
        self.tab = self.call("Target.createTarget", url="about:blank")["targetId"]
        if before is not None:
            self.call("Target.closeTarget", targetId=before)
        self.session = self.call("Target.attachToTarget", targetId=self.tab, flatten=True)[
            "sessionId"]
        self.events = []
        for domain in ("Page", "Runtime", "Log", "Network"):
            self.call(f"{domain}.enable")
        self.call("Page.navigate", url=page.as_uri())
        while not any(event.get("method") == "Page.loadEventFired" for event in self.events):
            self.events.append(self.read())

    def read(self) -> Any:
        """The next message."""
        while b"\0" not in self.rest:
            part = os.read(self.answers, 65536)
            assert part, f"{NAME} ended"
            self.rest += part
        message, self.rest = self.rest.split(b"\0", 1)
        return json.loads(message)

    def call(self, method: str, **parameters: Any) -> Any:
        """What a command answers."""
        self.number += 1
        words: dict[str, Any] = {"id": self.number, "method": method, "params": parameters}
        if self.session is not None:
            words["sessionId"] = self.session
        os.write(self.commands, json.dumps(words).encode() + b"\0")
        while True:
            message = self.read()
            if message.get("id") == self.number:
                assert "error" not in message, message
                return message["result"]
            self.events.append(message)

    def value(self, expression: str) -> Any:
        """The value of an expression of JavaScript, or of what it promises."""
        answer = self.call("Runtime.evaluate", expression=expression, returnByValue=True,
                           awaitPromise=True)
        assert "exceptionDetails" not in answer, answer
        return answer["result"].get("value")

    def wait(self, expression: str, seconds: float = SECONDS) -> None:
        """Waits until an expression is true."""
        end = time.monotonic() + seconds
        while not self.value(f"!!({expression})"):
            assert time.monotonic() < end, f"waited in vain: {expression}"
            time.sleep(0.05)

    def drop(self, *files: pathlib.Path) -> None:
        """Drops files on the page."""
        data = {"items": [], "files": [str(it) for it in files], "dragOperationsMask": 1}
        for kind in ("dragEnter", "dragOver", "drop"):
            self.call("Input.dispatchDragEvent", type=kind, x=200, y=200, data=data)

    def picture(self) -> bytes:
        """The whole page as PNG."""
        self.call("Emulation.setScrollbarsHidden", hidden=True)
        answer = self.call("Page.captureScreenshot", format="png", captureBeyondViewport=True)
        return base64.b64decode(answer["data"])

    def text(self, name: str) -> str:
        """The text of an element."""
        return str(self.value(f"document.getElementById('{name}').textContent"))

    def press(self, name: str) -> None:
        """Presses a key."""
        for kind in ("rawKeyDown", "keyUp"):
            self.call("Input.dispatchKeyEvent", type=kind, key=name, code=name,
                      windowsVirtualKeyCode=CODES[name])

    def show_as(self, width: int, media: str = "", scheme: str = "light") -> None:
        """Shows the page in another width, for print, or in dark."""
        self.call("Emulation.setDeviceMetricsOverride", width=width, height=800,
                  deviceScaleFactor=1, mobile=False)
        self.call("Emulation.setEmulatedMedia", media=media,
                  features=[{"name": "prefers-color-scheme", "value": scheme}])

    def failures(self) -> list[Any]:
        """What the page's script threw, and what the browser refused or could not load."""
        return [event for event in self.events if event.get("method") in FAILURES]

    def requests(self) -> list[str]:
        """What was loaded."""
        return [event["params"]["request"]["url"] for event in self.events
                if event.get("method") == "Network.requestWillBeSent"]
