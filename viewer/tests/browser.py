"""A headless Chromium, driven over its debugging pipe: messages are JSON texts, each ended by a zero byte."""
from __future__ import annotations

import base64
import json
import os
import select
import shutil
import signal
import subprocess
import tempfile
import time
from typing import Any

KEY_CODES = {
    "ArrowLeft": 37, "ArrowUp": 38, "ArrowRight": 39, "ArrowDown": 40, "PageUp": 33, "PageDown": 34, "End": 35, "Home": 36, " ": 32,
    "Enter": 13, "Tab": 9,
}
PROGRAMS = ["chromium", "chromium-browser", "google-chrome"]


def chromium() -> str | None:
    """The path of a Chromium on this machine, or None."""
    return next(filter(None, map(shutil.which, PROGRAMS)), None)


class Browser:
    """One page in a headless Chromium; no call waits longer than `seconds`."""

    def __init__(self, seconds: float = 120) -> None:
        self.seconds = seconds
        self.count = 0
        self.session: str | None = None
        self.unread = b""
        self.folder = tempfile.TemporaryDirectory(prefix="viewer-", ignore_cleanup_errors=True)
        words = [chromium() or PROGRAMS[0], "--headless", "--no-sandbox", "--disable-gpu", "--hide-scrollbars", "--disable-dev-shm-usage"]
        words += ["--no-first-run", "--disable-extensions", "--disable-background-networking", "--force-color-profile=srgb"]
        words += [f"--user-data-dir={self.folder.name}", "--remote-debugging-pipe", "about:blank"]
        to_read, self.write_end = os.pipe()
        self.read_end, to_write = os.pipe()
        # Chromium reads its messages from descriptor 3 and writes them to 4; the shell puts the two pipes there.
        shell = f'exec "$@" 3<&{to_read} 4>&{to_write}'
        self.process = subprocess.Popen(
            ["bash", "-c", shell, "-", *words], pass_fds=(to_read, to_write), start_new_session=True,
            stdin=subprocess.DEVNULL, stdout=subprocess.DEVNULL, stderr=subprocess.DEVNULL,
        )
        os.close(to_read)
        os.close(to_write)
        target = self.call("Target.createTarget", url="about:blank")["targetId"]
        self.session = self.call("Target.attachToTarget", targetId=target, flatten=True)["sessionId"]
        self.call("Page.enable")

    def __enter__(self) -> Browser:
        return self

    def __exit__(self, *_: object) -> None:
        os.close(self.write_end)
        os.close(self.read_end)
        try:
            os.killpg(self.process.pid, signal.SIGKILL)
        except ProcessLookupError:
            pass
        self.process.wait()
        self.folder.cleanup()

    def message(self, deadline: float) -> dict[str, Any]:
        """The next message of the browser."""
        while b"\0" not in self.unread:
            ready, _, _ = select.select([self.read_end], [], [], max(0, deadline - time.monotonic()))
            part = os.read(self.read_end, 1 << 16) if ready else b""
            if not part:
                raise TimeoutError("the browser is silent")
            self.unread += part
        text, _, self.unread = self.unread.partition(b"\0")
        return dict(json.loads(text))

    def call(self, method: str, **words: object) -> Any:
        """What a method of the debugging protocol answers."""
        self.count += 1
        message: dict[str, Any] = {"id": self.count, "method": method, "params": words}
        if self.session:
            message["sessionId"] = self.session
        os.write(self.write_end, json.dumps(message).encode() + b"\0")
        deadline = time.monotonic() + self.seconds
        while True:
            answer = self.message(deadline)
            if answer.get("id") == self.count:
                if "error" in answer:
                    raise RuntimeError(f"{method}: {answer['error']['message']}")
                return answer["result"]

    def run(self, script: str) -> Any:
        """The value of an expression in the page, awaited."""
        answer = self.call("Runtime.evaluate", expression=script, awaitPromise=True, returnByValue=True)
        if "exceptionDetails" in answer:
            raise RuntimeError(answer["exceptionDetails"].get("exception", {}).get("description", "the page threw"))
        return answer["result"].get("value")

    def open(self, url: str) -> None:
        """Opens a page, and waits until it is there."""
        self.call("Page.navigate", url=url)
        deadline = time.monotonic() + self.seconds
        while self.run("document.readyState") != "complete" or self.run("location.href").split("#")[0] != url.split("#")[0]:
            if time.monotonic() > deadline:
                raise TimeoutError(f"{url} does not open")
            time.sleep(0.05)

    def size(self, width: int, height: int, scale: float = 1, dark: bool = False, still: bool = False) -> None:
        """Sets the size of the window in pixels, the colour scheme, and whether the user wants no motion."""
        self.call("Emulation.setDeviceMetricsOverride", width=width, height=height, deviceScaleFactor=scale, mobile=False)
        features = {"prefers-color-scheme": "dark" if dark else "light", "prefers-reduced-motion": "reduce" if still else "no-preference"}
        self.call("Emulation.setEmulatedMedia", features=[{"name": name, "value": value} for name, value in features.items()])

    def press(self, key: str) -> None:
        """Presses a key and lets it go."""
        words = {"key": key, "code": "Space" if key == " " else key, "windowsVirtualKeyCode": KEY_CODES.get(key, 0)}
        text = {"text": {"Enter": "\r"}.get(key, key)} if key in (" ", "Enter") else {}
        self.call("Input.dispatchKeyEvent", type="keyDown" if text else "rawKeyDown", **words, **text)
        self.call("Input.dispatchKeyEvent", type="keyUp", **words)

    def touch(self, *places: tuple[float, float]) -> None:
        """Puts a finger on the first place, moves it to the others, and lifts it."""
        self.call("Emulation.setTouchEmulationEnabled", enabled=True)
        for index, (x, y) in enumerate(places):
            self.call("Input.dispatchTouchEvent", type="touchMove" if index else "touchStart", touchPoints=[{"x": x, "y": y}])
        self.call("Input.dispatchTouchEvent", type="touchEnd", touchPoints=[])
        self.call("Emulation.setTouchEmulationEnabled", enabled=False)

    def click(self, x: float, y: float) -> None:
        """Presses the mouse's left button over a point, and lets it go."""
        for kind in ["mousePressed", "mouseReleased"]:
            self.call("Input.dispatchMouseEvent", type=kind, x=x, y=y, button="left", clickCount=1)

    def wheel(self, x: int, y: int, by: int) -> None:
        """Turns the wheel over a point of the window."""
        self.call("Input.dispatchMouseEvent", type="mouseWheel", x=x, y=y, deltaX=0, deltaY=by)

    def choose(self, selector: str, path: str | os.PathLike[str]) -> None:
        """Chooses a file in a file input, as a user does."""
        root = self.call("DOM.getDocument")["root"]["nodeId"]
        node = self.call("DOM.querySelector", nodeId=root, selector=selector)["nodeId"]
        self.call("DOM.setFileInputFiles", nodeId=node, files=[os.path.abspath(path)])

    def picture(self, path: str | os.PathLike[str]) -> None:
        """Writes a PNG of the window to a file."""
        data = self.call("Page.captureScreenshot", format="png")["data"]
        with open(path, "wb") as file:
            file.write(base64.b64decode(data))
