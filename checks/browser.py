"""A headless Chromium that is spoken to over its debugging pipe: pages are opened in it, keys are
pressed, and what it logs and asks of the network is kept."""

from __future__ import annotations

import base64
import fcntl
import json
import os
import select
import shutil
import signal
import subprocess
import tempfile
import time
from typing import Any

Row = dict[str, Any]  # an object of JSON

PROGRAMS = ("chromium", "chromium-browser", "google-chrome")
WORDS = ["--headless", "--no-sandbox", "--disable-gpu", "--no-first-run", "--hide-scrollbars"]
WORDS += ["--remote-debugging-pipe", "--disable-background-networking", "--disable-dev-shm-usage"]
PATIENCE = 60.0  # seconds for one answer

# Keys that write nothing, or nothing of their name: their number, and what they write.
KEYS = {
    "Enter": (13, "\r"),
    "Escape": (27, ""),
    "Tab": (9, ""),
    " ": (32, " "),
    "Home": (36, ""),
    "End": (35, ""),
    "PageUp": (33, ""),
    "PageDown": (34, ""),
    "ArrowLeft": (37, ""),
    "ArrowUp": (38, ""),
    "ArrowRight": (39, ""),
    "ArrowDown": (40, ""),
}


def find() -> str | None:
    """The browser of this machine, if it has one."""
    found = (shutil.which(name) for name in PROGRAMS)
    return next((path for path in found if path), None)


class Broken(Exception):
    """The browser does not answer, or a script failed in it."""


class Browser:
    """One page in one browser. `faults` has what the page logged, threw, or asked of a network."""

    def __init__(self, program: str) -> None:
        self.folder = tempfile.mkdtemp(prefix="page-")
        self.faults: list[str] = []
        self.loads = 0
        self.asked = 0
        self.waiting = b""
        self.started = self.start(program)
        target = self.send("Target.createTarget", {"url": "about:blank"})["targetId"]
        attached = self.send("Target.attachToTarget", {"targetId": target, "flatten": True})
        self.session: str = attached["sessionId"]
        for domain in ("Page", "Runtime", "Log", "Network"):
            self.ask(domain + ".enable")

    def start(self, program: str) -> subprocess.Popen[bytes]:
        """Starts the browser, which reads its descriptor 3 and writes its descriptor 4."""
        read, self.out = os.pipe()
        self.come, write = os.pipe()
        # away from the two numbers themselves
        high = [fcntl.fcntl(each, fcntl.F_DUPFD_CLOEXEC, 20) for each in (read, write)]

        def join() -> None:
            os.dup2(high[0], 3)
            os.dup2(high[1], 4)

        started = subprocess.Popen(
            [program, *WORDS, f"--user-data-dir={self.folder}", "about:blank"],
            stdout=subprocess.DEVNULL,
            stderr=subprocess.DEVNULL,
            stdin=subprocess.DEVNULL,
            preexec_fn=join,
            pass_fds=(3, 4),
            start_new_session=True,
        )
        for each in (read, write, *high):
            os.close(each)
        return started

    def close(self) -> None:
        """Ends the browser with all its processes, and takes its folder away."""
        del self.session  # what follows is the browser's, and not the page's
        try:
            self.send("Browser.close", {})
            self.started.wait(PATIENCE / 6)
        except (Broken, OSError, subprocess.TimeoutExpired):
            pass
        try:
            os.killpg(self.started.pid, signal.SIGKILL)
        except ProcessLookupError:
            pass
        self.started.wait()
        os.close(self.out)
        os.close(self.come)
        shutil.rmtree(self.folder, ignore_errors=True)

    def take(self, deadline: float) -> Row:
        """The next message."""
        while b"\0" not in self.waiting:
            ready = select.select([self.come], [], [], max(0.0, deadline - time.monotonic()))[0]
            more = os.read(self.come, 1 << 20) if ready else b""
            if not more:
                raise Broken("the browser does not answer")
            self.waiting += more
        message, _, self.waiting = self.waiting.partition(b"\0")
        row: Row = json.loads(message)
        self.note(row)
        return row

    def note(self, row: Row) -> None:
        """Keeps what a message tells of faults and of pages that were loaded."""
        method, params = row.get("method"), row.get("params", {})
        if method == "Page.loadEventFired":
            self.loads += 1
        elif method == "Runtime.exceptionThrown":
            self.faults.append(str(params["exceptionDetails"].get("exception", params)))
        elif method == "Runtime.consoleAPICalled" and params["type"] in ("error", "warning"):
            self.faults.append(f"console: {params['args']}")
        elif method == "Log.entryAdded" and params["entry"]["level"] in ("error", "warning"):
            self.faults.append(f"log: {params['entry']['text']}")
        elif method == "Network.requestWillBeSent":
            address = params["request"]["url"]
            if not address.startswith(("file:", "data:")):
                self.faults.append(f"request: {address}")

    def send(self, method: str, params: Row) -> Row:
        """What a command answers."""
        self.asked += 1
        message: Row = {"id": self.asked, "method": method, "params": params}
        if hasattr(self, "session"):
            message["sessionId"] = self.session
        left = memoryview(json.dumps(message).encode() + b"\0")
        while left:
            left = left[os.write(self.out, left) :]
        deadline = time.monotonic() + PATIENCE
        while True:
            row = self.take(deadline)
            if row.get("id") == self.asked:
                if "error" in row:
                    raise Broken(f"{method}: {row['error']}")
                answer: Row = row["result"]
                return answer

    def ask(self, method: str, **params: Any) -> Row:
        return self.send(method, params)

    def size(self, width: int, height: int, scale: float = 1) -> None:
        """The window's size; a small scale spares drawing it."""
        self.ask(
            "Emulation.setDeviceMetricsOverride",
            width=width,
            height=height,
            deviceScaleFactor=scale,
            mobile=False,
        )

    def dark(self, dark: bool, media: str = "") -> None:
        """What the system prefers; and which medium the page is for, as `print`."""
        scheme = {"name": "prefers-color-scheme", "value": "dark" if dark else "light"}
        self.ask("Emulation.setEmulatedMedia", media=media, features=[scheme])

    def open(self, path: str, place: str = "") -> float:
        """Opens a file, and answers how many seconds it took until it was loaded."""
        self.ask("Page.navigate", url="about:blank")
        loads, began = self.loads, time.monotonic()
        if "errorText" in self.ask("Page.navigate", url=f"file://{path}{place}"):
            raise Broken(f"{path} can't be opened")
        while self.evaluate("document.readyState + location.protocol") != "completefile:":
            time.sleep(0.01)
        assert self.loads >= loads
        return time.monotonic() - began

    def evaluate(self, expression: str) -> Any:
        """The value of an expression in the page."""
        answer = self.ask(
            "Runtime.evaluate", expression=expression, returnByValue=True, awaitPromise=True
        )
        if "exceptionDetails" in answer:
            raise Broken(str(answer["exceptionDetails"].get("exception", answer)))
        return answer["result"].get("value")

    def press(self, key: str, shift: bool = False) -> None:
        """Presses a key. It is let go where that does something: Space presses a button then."""
        number, text = KEYS.get(key, (ord(key[0].upper()), key))
        params = {"key": key, "windowsVirtualKeyCode": number, "modifiers": 8 if shift else 0}
        down = {"type": "keyDown", "text": text} if text else {"type": "rawKeyDown"}
        self.ask("Input.dispatchKeyEvent", **params, **down)
        if key == " ":
            self.ask("Input.dispatchKeyEvent", **params, type="keyUp")

    def write(self, text: str) -> None:
        self.ask("Input.insertText", text=text)

    def picture(self, path: str) -> None:
        """Keeps what is seen as a PNG file."""
        self.evaluate("new Promise(done => requestAnimationFrame(() => done(1)))")
        with open(path, "wb") as file:
            file.write(base64.b64decode(self.ask("Page.captureScreenshot")["data"]))
