"""Drives chromium through its DevTools protocol. Several people have pages side by side, each with a separate profile.
It talks to chromium over a pair of pipes, so that no port is open."""

from __future__ import annotations

import base64
import fcntl
import json
import os
import select
import signal
import tempfile
import time
from contextlib import suppress
from pathlib import Path
from typing import Any

from netrev.errors import NetrevError

from .browser import CHROMIUM, PATIENCE
from .web_support import Web

Body = dict[str, Any]
LOADED = "document.getElementById('panel')?.innerText.includes('position')"
TO, FROM = 3, 4  # chromium's file descriptors for messages to it and from it
FREE = 10  # a number above all descriptors in use
ENDING = 10  # seconds


class BrowserError(NetrevError):
    """Raised if the browser, or a script in a page, reports an error."""


def moved(descriptor: int) -> int:
    """Moves an open file to an unused descriptor, and returns that."""
    number = fcntl.fcntl(descriptor, fcntl.F_DUPFD_CLOEXEC, FREE)
    os.close(descriptor)
    return number


class Chromium:
    """A browser that runs until the end of its `with` block."""

    def __enter__(self) -> Chromium:
        self._folder = tempfile.TemporaryDirectory(ignore_cleanup_errors=True)
        to, self._to = map(moved, os.pipe())
        self._from, back = map(moved, os.pipe())
        words = [CHROMIUM, "--headless=new", "--no-sandbox", "--disable-gpu", f"--user-data-dir={self._folder.name}"]
        words += ["--no-first-run", "--remote-debugging-pipe", "--window-size=1400,900"]
        actions = [(os.POSIX_SPAWN_DUP2, to, TO), (os.POSIX_SPAWN_DUP2, back, FROM)]
        actions += [(os.POSIX_SPAWN_OPEN, 2, os.devnull, os.O_WRONLY, 0)]  # type: ignore[list-item]
        self._process = os.posix_spawn(CHROMIUM, words, os.environ, file_actions=actions, setpgroup=0)
        os.close(to)
        os.close(back)
        self._rest, self._number = b"", 0
        self.events: list[Body] = []
        return self

    def __exit__(self, *_: object) -> None:
        with suppress(BrowserError, OSError):
            self("Browser.close")
        limit, has_ended = time.monotonic() + ENDING, False
        while not has_ended and time.monotonic() < limit:
            time.sleep(0.01)
            has_ended = os.waitpid(self._process, os.WNOHANG)[0] == self._process
        with suppress(ProcessLookupError):
            os.killpg(self._process, signal.SIGKILL)
        if not has_ended:
            os.waitpid(self._process, 0)
        os.close(self._to)
        os.close(self._from)
        self._folder.cleanup()

    def __call__(self, method: str, session: str = "", **parameters: Any) -> Body:
        """Sends a command, and returns the answer to it."""
        self._number += 1
        request: Body = {"id": self._number, "method": method, "params": parameters}
        if session:
            request["sessionId"] = session
        os.write(self._to, json.dumps(request).encode() + b"\0")
        while True:
            message = self._message()
            if message.get("id") == self._number:
                break
            self.events.append(message)
        if "error" in message:
            raise BrowserError(f"{method}: {message['error']}")
        result: Body = message["result"]
        return result

    def _message(self) -> Body:
        """The next message."""
        limit = time.monotonic() + PATIENCE
        while b"\0" not in self._rest:
            if not select.select([self._from], [], [], max(limit - time.monotonic(), 0))[0]:
                raise BrowserError(f"chromium said nothing for {PATIENCE} s")
            result = os.read(self._from, 1 << 16)
            if not result:
                raise BrowserError("chromium has ended")
            self._rest += result
        text, _, self._rest = self._rest.partition(b"\0")
        message: Body = json.loads(text)
        return message

    def page(self, address: str) -> Page:
        """A new page in its own browser context, which shares nothing with other pages."""
        person = self("Target.createBrowserContext")["browserContextId"]
        target = self("Target.createTarget", url="about:blank", browserContextId=person)["targetId"]
        session = self("Target.attachToTarget", targetId=target, flatten=True)["sessionId"]
        page = Page(self, session)
        for domain in ("Page", "Runtime", "Log"):
            page.does(f"{domain}.enable")
        page.does("Page.navigate", url=address)
        return page

    def opened(self, web: Web) -> Page:
        """The served page, after its timeline has been loaded."""
        page = self.page(str(web.address))
        page.until(LOADED)
        return page


class Page:
    """A person's open page."""

    def __init__(self, browser: Chromium, session: str) -> None:
        self._browser, self._session = browser, session

    def does(self, method: str, **parameters: Any) -> Body:
        """Sends a command to the page, and returns the answer to it."""
        return self._browser(method, self._session, **parameters)

    def value(self, script: str) -> Any:
        """The value of an expression in the page."""
        text = self.does("Runtime.evaluate", expression=script, awaitPromise=True, returnByValue=True)
        if "exceptionDetails" in text:
            raise BrowserError(f"{script}: {text['exceptionDetails']}")
        return text["result"].get("value")

    def until(self, script: str, patience: float = PATIENCE) -> Any:
        """Waits until an expression is true, and returns its value."""
        limit = time.monotonic() + patience
        while time.monotonic() < limit:
            if found := self.value(script):
                return found
            time.sleep(0.02)
        raise BrowserError(f"{script} didn't come true; the page says: {self.value('document.body.innerText')}")

    def types(self, text: str) -> None:
        """Types into the focused element, and then Enter."""
        self.does("Input.insertText", text=text)
        self.presses("Enter", "\r")

    def presses(self, key: str, text: str = "") -> None:
        """Presses a key."""
        code = {"Enter": 13, "ArrowUp": 38}.get(key, 0)
        for sort in ("keyDown", "keyUp"):
            more = {"text": text} if sort == "keyDown" and text else {}
            self.does("Input.dispatchKeyEvent", type=sort, key=key, windowsVirtualKeyCode=code, **more)

    def clicks(self, selector: str) -> None:
        """Clicks in the middle of an element."""
        box = self.value(f"(({{x, y, width, height}}) => [x + width / 2, y + height / 2])"
                         f"(document.querySelector({json.dumps(selector)}).getBoundingClientRect())")  # fmt: skip
        for sort in ("mousePressed", "mouseReleased"):
            self.does("Input.dispatchMouseEvent", type=sort, x=box[0], y=box[1], button="left", clickCount=1)

    def picture(self, path: Path) -> None:
        """Writes a picture of the page, as PNG."""
        path.write_bytes(base64.b64decode(self.does("Page.captureScreenshot")["data"]))

    def wrongs(self) -> list[str]:
        """The browser's errors in the page since it was opened."""
        self.value("1")
        found = []
        for event in self._browser.events:
            if event.get("sessionId") != self._session:
                continue
            if event["method"] == "Runtime.exceptionThrown":
                found.append(str(event["params"]["exceptionDetails"]))
            if event["method"] == "Log.entryAdded" and event["params"]["entry"]["level"] == "error":
                found.append(event["params"]["entry"]["text"])
        return found
