"""A page in headless Firefox, by the Marionette protocol over TCP: values, keys, pictures."""

import json
import os
import pathlib
import shutil
import socket
import subprocess
import time
from types import TracebackType
from typing import Any, Optional, Type

import pytest

NAME = "firefox-esr"
SECONDS = 120
SETTINGS = {
    "marionette.port": 0, "datareporting.policy.dataSubmissionEnabled": False,
    "browser.shell.checkDefaultBrowser": False, "app.update.enabled": False,
    "browser.startup.page": 0, "toolkit.cosmeticAnimations.enabled": False,
}


def free_port() -> int:
    """A port that nobody has now."""
    with socket.socket() as found:
        found.bind(("127.0.0.1", 0))
        return int(found.getsockname()[1])


class Firefox:
    """One page. Its profile is in a folder that the caller has."""

    def __init__(self, page: pathlib.Path, folder: pathlib.Path) -> None:
        if shutil.which(NAME) is None:
            pytest.skip(f"{NAME} is not installed: the page was not opened in it")
        folder.mkdir(parents=True, exist_ok=True)
        port = free_port()
        lines = [f"user_pref({json.dumps(name)}, {json.dumps(value)});\n"
                 for name, value in {**SETTINGS, "marionette.port": port}.items()]
        (folder / "user.js").write_text("".join(lines), encoding="utf-8")
        self.process = subprocess.Popen(
            [NAME, "--headless", "--marionette", "--no-remote", "--profile", folder],
            stdout=subprocess.DEVNULL, stderr=subprocess.DEVNULL,
            env={**os.environ, "HOME": str(folder)})
        self.rest, self.number = b"", 0
        self.link = self.connect(port)
        self.read()
        self.call("WebDriver:NewSession")
        self.call("WebDriver:SetTimeouts", script=SECONDS * 5000, pageLoad=SECONDS * 1000)
        self.call("WebDriver:Navigate", url=page.as_uri())

    def connect(self, port: int) -> socket.socket:
        """The browser's port, once it is open."""
        end = time.monotonic() + SECONDS
        while True:
            try:
                return socket.create_connection(("127.0.0.1", port))
            except OSError:
                assert time.monotonic() < end and self.process.poll() is None, f"no {NAME}"
                time.sleep(0.2)

    def __enter__(self) -> "Firefox":
        return self

    def __exit__(self, kind: Optional[Type[BaseException]], error: Optional[BaseException],
                 trace: Optional[TracebackType]) -> None:
        self.link.close()
        self.process.terminate()
        self.process.wait(60)

    def read(self) -> Any:
        """The next message: its length, a colon, and JSON."""
        while b":" not in self.rest:
            self.receive()
        length, self.rest = self.rest.split(b":", 1)
        while len(self.rest) < int(length):
            self.receive()
        message, self.rest = self.rest[:int(length)], self.rest[int(length):]
        return json.loads(message)

    def receive(self) -> None:
        """Takes what has come."""
        part = self.link.recv(1 << 20)
        assert part, f"{NAME} ended"
        self.rest += part

    def call(self, name: str, **parameters: Any) -> Any:
        """What a command answers."""
        self.number += 1
        text = json.dumps([0, self.number, name, parameters]).encode()
        self.link.sendall(str(len(text)).encode() + b":" + text)
        while True:
            message = self.read()
            if isinstance(message, list) and message[1] == self.number:
                assert message[2] is None, message[2]
                return message[3]

    def value(self, expression: str) -> Any:
        """The value of an expression of JavaScript, or of what it promises."""
        return self.call("WebDriver:ExecuteScript", script=f"return ({expression});", args=[],
                         newSandbox=False, sandbox=None)["value"]

    def wait(self, expression: str, seconds: float = SECONDS) -> None:
        """Waits until an expression is true."""
        end = time.monotonic() + seconds
        while not self.value(f"!!({expression})"):
            assert time.monotonic() < end, f"waited in vain: {expression}"
            time.sleep(0.05)
