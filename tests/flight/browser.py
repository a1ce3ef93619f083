"""A headless Chromium that is driven through its debugging pipe, without any other package."""

import base64
import contextlib
import fcntl
import json
import os
import pathlib
import shutil
import subprocess
import tempfile
from typing import Any, Iterator

PROGRAM = shutil.which("chromium") or shutil.which("chromium-browser")
SIZE = (1200, 900)
Message = dict[str, Any]


class Browser:
    """One page in a browser."""

    def __init__(self, to_browser: int, from_browser: int) -> None:
        self.to_browser = os.fdopen(to_browser, "wb", buffering=0)
        self.from_browser = os.fdopen(from_browser, "rb")
        self.number = 0
        self.session: str | None = None
        self.events: list[Message] = []
        self.left = b""

    def close(self) -> None:
        """Closes the pipes."""
        self.to_browser.close()
        self.from_browser.close()

    def call(self, method: str, **given: Any) -> Message:
        """Calls the browser, and answers its result."""
        self.number += 1
        message = {"id": self.number, "method": method, "params": given}
        if self.session:
            message["sessionId"] = self.session
        self.to_browser.write(json.dumps(message).encode() + b"\0")
        while True:
            answer = self._read()
            if answer.get("id") == self.number:
                if "error" in answer:
                    raise RuntimeError(f"{method}: {answer['error']}")
                result: Message = answer["result"]
                return result
            self.events.append(answer)

    def _read(self) -> Message:
        while b"\0" not in self.left:
            data = os.read(self.from_browser.fileno(), 1 << 16)
            if not data:
                raise RuntimeError("the browser ended")
            self.left += data
        message, self.left = self.left.split(b"\0", 1)
        answer: Message = json.loads(message)
        return answer

    def open(self, path: pathlib.Path) -> None:
        """Opens a file in a page of its own."""
        target = self.call("Target.createTarget", url="about:blank")["targetId"]
        self.session = self.call("Target.attachToTarget", targetId=target, flatten=True)["sessionId"]
        for domain in ("Page", "Runtime", "Network", "Log"):
            self.call(f"{domain}.enable")
        self.call("Network.emulateNetworkConditions", offline=True, latency=0, downloadThroughput=0, uploadThroughput=0)
        self.call("Page.navigate", url=path.resolve().as_uri())
        self.wait_for("document.readyState === 'complete' && !!window.page")

    def wait_for(self, expression: str, tries: int = 200) -> None:
        """Waits until an expression of the page is true."""
        for _ in range(tries):
            if self.value(expression):
                return
            self.value("new Promise((done) => setTimeout(done, 50))")
        raise RuntimeError(f"the page never came to {expression}: {self.faults()}")

    def value(self, expression: str) -> Any:
        """What an expression of the page is."""
        answer = self.call("Runtime.evaluate", expression=expression, returnByValue=True, awaitPromise=True)
        if "exceptionDetails" in answer:
            raise RuntimeError(f"{expression}: {answer['exceptionDetails']}")
        return answer["result"].get("value")

    def faults(self) -> list[str]:
        """What went wrong in the page so far, and what it asked the network for."""
        found = []
        for event in self.events:
            if event["method"] in ("Runtime.exceptionThrown", "Log.entryAdded"):
                found.append(json.dumps(event["params"]))
            if event["method"] == "Network.requestWillBeSent" and not event["params"]["request"]["url"].startswith(
                "file:"
            ):
                found.append(event["params"]["request"]["url"])
        return found

    def drag(self, begin: tuple[float, float], end: tuple[float, float]) -> None:
        """Drags with the left button."""
        self._mouse("mouseMoved", begin, 0)
        self._mouse("mousePressed", begin, 1)
        for part in (0.3, 0.7, 1.0):
            across, down = (a + part * (b - a) for a, b in zip(begin, end))
            self._mouse("mouseMoved", (across, down), 1)
        self._mouse("mouseReleased", end, 0)

    def move(self, place: tuple[float, float]) -> None:
        """Moves the pointer."""
        self._mouse("mouseMoved", place, 0)

    def double_click(self, place: tuple[float, float]) -> None:
        """Clicks twice."""
        for clicks in (1, 2):
            self._mouse("mousePressed", place, 1, clicks)
            self._mouse("mouseReleased", place, 0, clicks)

    def _mouse(self, kind: str, place: tuple[float, float], buttons: int, clicks: int = 1) -> None:
        button = "none" if kind == "mouseMoved" and not buttons else "left"
        self.call(
            "Input.dispatchMouseEvent",
            type=kind,
            x=place[0],
            y=place[1],
            button=button,
            buttons=buttons,
            clickCount=clicks,
        )

    def screenshot(self, path: pathlib.Path) -> None:
        """Writes what is to be seen as a PNG."""
        path.write_bytes(base64.b64decode(self.call("Page.captureScreenshot", format="png")["data"]))


def _pipe() -> tuple[int, int]:
    """A pipe whose ends have numbers above those that the browser has for its own."""
    ends = os.pipe()
    reader, writer = (fcntl.fcntl(end, fcntl.F_DUPFD_CLOEXEC, 10) for end in ends)
    for end in ends:
        os.close(end)
    return reader, writer


@contextlib.contextmanager
def browser() -> Iterator[Browser]:
    """A browser of its own, which is ended with its folder removed."""
    with tempfile.TemporaryDirectory(prefix="flight-browser-", ignore_cleanup_errors=True) as folder:
        in_read, in_write = _pipe()
        out_read, out_write = _pipe()
        words = [
            str(PROGRAM),
            "--headless=new",
            "--remote-debugging-pipe",
            "--no-first-run",
            "--disable-gpu",
            "--disable-dev-shm-usage",
        ]
        words += ["--disable-background-networking", f"--user-data-dir={folder}", f"--window-size={SIZE[0]},{SIZE[1]}"]
        words += ["--no-sandbox"] if os.geteuid() == 0 else []
        shell = ["bash", "-c", f'exec "$@" 3<&{in_read} 4>&{out_write}', "bash", *words]
        nothing = subprocess.DEVNULL
        program = subprocess.Popen(shell, pass_fds=(in_read, out_write), stdin=nothing, stdout=nothing, stderr=nothing)
        os.close(in_read)
        os.close(out_write)
        page = Browser(in_write, out_read)
        try:
            yield page
        finally:
            page.close()
            program.terminate()
            program.wait(timeout=20)
