"""A headless Chromium, which is driven over a pipe (the DevTools protocol, without a port)."""

from __future__ import annotations

import base64
import json
import os
import select
import shutil
import subprocess
import time
from pathlib import Path
from typing import Any

NAMES = ("chromium", "chromium-browser", "google-chrome")
# As an ordinary user it keeps its sandbox.
WORDS = ["--headless=new", "--remote-debugging-pipe", "--disable-gpu", "--no-first-run", "--hide-scrollbars",
         "--disable-dev-shm-usage"]
SECONDS = 60
# The keys that have no text, by their names in KeyboardEvent.
KEY_CODES = {"ArrowDown": 40, "ArrowUp": 38, "ArrowLeft": 37, "ArrowRight": 39, "Enter": 13, "Escape": 27, "Tab": 9,
             "PageDown": 34, "PageUp": 33, " ": 32}


def browser_path() -> str | None:
    return next(filter(None, map(shutil.which, NAMES)), None)


class Browser:
    """One page. `requests` are the addresses that it has asked for, and `faults` what its script has reported."""

    def __init__(self, folder: Path) -> None:
        self.requests: list[str] = []
        self.faults: list[str] = []
        self.number = 0
        self.read = b""
        commands, self.writer = os.pipe()
        self.reader, answers = os.pipe()
        words = [browser_path(), *WORDS, f"--user-data-dir={folder}", *(["--no-sandbox"] if os.geteuid() == 0 else [])]
        # The browser reads from 3 and writes to 4.
        self.process = subprocess.Popen(
            ["sh", "-c", f'exec 3<&{commands} 4>&{answers}; exec "$@"', "sh", *words], pass_fds=(commands, answers),
            stdin=subprocess.DEVNULL, stdout=subprocess.DEVNULL, stderr=subprocess.DEVNULL,
            env={**os.environ, "HOME": os.fspath(folder)})
        os.close(commands)
        os.close(answers)
        self.session: str | None = None
        target = self.ask("Target.createTarget", url="about:blank")["targetId"]
        self.session = self.ask("Target.attachToTarget", targetId=target, flatten=True)["sessionId"]
        for name in ("Page", "Network", "Runtime", "Log"):
            self.ask(f"{name}.enable")

    def __enter__(self) -> Browser:
        return self

    def __exit__(self, *given: object) -> None:
        os.close(self.writer)
        try:
            self.process.wait(10)
        except subprocess.TimeoutExpired:
            self.process.kill()
            self.process.wait()
        os.close(self.reader)

    def ask(self, method: str, **parameters: Any) -> dict[str, Any]:
        """What the browser answers."""
        self.number += 1
        question = {"id": self.number, "method": method, "params": parameters}
        if self.session:
            question["sessionId"] = self.session
        os.write(self.writer, json.dumps(question).encode() + b"\0")
        return self.wait_for(lambda it: it.get("id") == self.number, method).get("result", {})

    def wait_for(self, is_wanted: Any, what: str) -> dict[str, Any]:
        end = time.monotonic() + SECONDS
        while True:
            message = self.message(end, what)
            self.note(message)
            if is_wanted(message):
                if "error" in message:
                    raise AssertionError(f"{what}: {message['error']}")
                return message

    def message(self, end: float, what: str) -> dict[str, Any]:
        while b"\0" not in self.read:
            if not select.select([self.reader], [], [], max(end - time.monotonic(), 0))[0]:
                raise AssertionError(f"the browser gives no answer to {what}")
            piece = os.read(self.reader, 1 << 16)
            if not piece:
                raise AssertionError(f"the browser has ended before its answer to {what}")
            self.read += piece
        text, _, self.read = self.read.partition(b"\0")
        return json.loads(text)

    def note(self, message: dict[str, Any]) -> None:
        given = message.get("params", {})
        if message.get("method") == "Network.requestWillBeSent":
            self.requests.append(given["request"]["url"])
        elif message.get("method") == "Runtime.exceptionThrown":
            self.faults.append(json.dumps(given["exceptionDetails"]))
        elif message.get("method") == "Log.entryAdded":
            self.faults.append(given["entry"]["text"])

    def open(self, page: Path) -> None:
        fault = self.ask("Page.navigate", url=page.as_uri()).get("errorText")
        if fault:
            raise AssertionError(f"{page}: {fault}")
        self.wait_for(lambda it: it.get("method") == "Page.loadEventFired", f"{page}")

    def value(self, script: str) -> Any:
        """The value of an expression in the page."""
        answer = self.ask("Runtime.evaluate", expression=script, returnByValue=True)
        if "exceptionDetails" in answer:
            raise AssertionError(f"{script}: {answer['exceptionDetails']}")
        return answer["result"].get("value")

    def press(self, *keys: str) -> None:
        for key in keys:
            code = {"windowsVirtualKeyCode": KEY_CODES[key]} if key in KEY_CODES else {"text": key}
            self.ask("Input.dispatchKeyEvent", type="keyDown", key=key, **code)
            self.ask("Input.dispatchKeyEvent", type="keyUp", key=key, **code)

    def type(self, text: str) -> None:
        self.ask("Input.insertText", text=text)

    def click(self, x: float, y: float) -> None:
        for kind in ("mousePressed", "mouseReleased"):
            self.ask("Input.dispatchMouseEvent", type=kind, x=x, y=y, button="left", clickCount=1)

    def hover(self, x: float, y: float) -> None:
        self.ask("Input.dispatchMouseEvent", type="mouseMoved", x=x, y=y)

    def resize(self, width: int, height: int) -> None:
        self.ask("Emulation.setDeviceMetricsOverride", width=width, height=height, deviceScaleFactor=1, mobile=False)

    def emulate(self, medium: str = "", **features: str) -> None:
        """Shows the page as on another medium, such as print, or with features such as prefers_color_scheme."""
        wanted = [{"name": name.replace("_", "-"), "value": value} for name, value in features.items()]
        self.ask("Emulation.setEmulatedMedia", media=medium, features=wanted)

    def picture(self) -> bytes:
        """The page as a PNG."""
        return base64.b64decode(self.ask("Page.captureScreenshot", format="png")["data"])

    def paper(self) -> bytes:
        """The page as a PDF."""
        return base64.b64decode(self.ask("Page.printToPDF", printBackground=False)["data"])
