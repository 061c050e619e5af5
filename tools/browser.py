"""Drives Chromium without a window, by its DevTools protocol over two pipes."""

import base64
import contextlib
import fcntl
import json
import os
import select
import shutil
import subprocess
import tempfile
import time

NAMES = ["chromium", "chromium-browser", "google-chrome"]
FLAGS = ["--headless", "--no-sandbox", "--disable-gpu", "--hide-scrollbars", "--no-first-run", "--remote-debugging-pipe"]


def find_browser():
    """The path of the browser, or None."""
    return next(filter(None, map(shutil.which, NAMES)), None)


class Browser:
    """A page in a browser. Errors of what it shows are gathered in `errors`."""

    def __init__(self, folder):
        to_it, own_out = (fcntl.fcntl(it, fcntl.F_DUPFD_CLOEXEC, 10) for it in os.pipe())
        own_in, from_it = (fcntl.fcntl(it, fcntl.F_DUPFD_CLOEXEC, 10) for it in os.pipe())

        def connect():
            os.dup2(to_it, 3)
            os.dup2(from_it, 4)

        command = [find_browser(), *FLAGS, f"--user-data-dir={folder}"]
        quiet = {"stdin": subprocess.DEVNULL, "stdout": subprocess.DEVNULL, "stderr": subprocess.DEVNULL}
        self.process = subprocess.Popen(command, preexec_fn=connect, close_fds=False, **quiet)
        os.close(to_it)
        os.close(from_it)
        self.to, self.source, self.held, self.count, self.attached = own_out, own_in, b"", 0, None
        self.errors, self.loaded = [], False
        target = self.ask("Target.createTarget", url="about:blank")["targetId"]
        self.attached = self.ask("Target.attachToTarget", targetId=target, flatten=True)["sessionId"]
        for it in ("Page", "Runtime", "Log", "Network"):
            self.ask(f"{it}.enable")

    def read(self, until):
        while b"\0" not in self.held:
            if not select.select([self.source], [], [], max(until - time.monotonic(), 0))[0]:
                raise TimeoutError("the browser doesn't answer")
            some = os.read(self.source, 1 << 20)
            if not some:
                raise EOFError("the browser has ended")
            self.held += some
        message, self.held = self.held.split(b"\0", 1)
        return json.loads(message)

    def note(self, message):
        """What the page does that is no answer."""
        method, told = message.get("method"), message.get("params", {})
        self.loaded |= method == "Page.loadEventFired"
        if method == "Runtime.exceptionThrown":
            self.errors.append(str(told["exceptionDetails"].get("exception", {}).get("description", told["exceptionDetails"]["text"])))
        elif method == "Log.entryAdded" and told["entry"]["level"] == "error":
            self.errors.append(told["entry"]["text"])
        elif method == "Network.requestWillBeSent" and not told["request"]["url"].startswith(("file:", "about:", "data:")):
            self.errors.append(f"asks for {told['request']['url']}")

    def ask(self, method, **told):
        self.count += 1
        message = {"id": self.count, "method": method, "params": told, **({"sessionId": self.attached} if self.attached else {})}
        os.write(self.to, json.dumps(message).encode() + b"\0")
        until = time.monotonic() + 60
        while True:
            answer = self.read(until)
            if answer.get("id") == self.count:
                if "error" in answer:
                    raise ValueError(f"{method}: {answer['error']}")
                return answer["result"]
            self.note(answer)

    def open(self, path, mark="", width=1280, height=900, scheme="light", touch=False):
        """Opens a file in a window of this size and of this scheme of colours; with `touch` on a screen that is touched."""
        self.ask("Emulation.setDeviceMetricsOverride", width=width, height=height, deviceScaleFactor=1, mobile=touch)
        self.ask("Emulation.setTouchEmulationEnabled", enabled=touch)
        self.ask("Emulation.setEmulatedMedia", features=[{"name": "prefers-color-scheme", "value": scheme}])
        # (a file that is open already would only be scrolled to its mark)
        for url in ("about:blank", f"file://{path}{mark}"):
            self.loaded = False
            self.ask("Page.navigate", url=url)
            until = time.monotonic() + 60
            while not self.loaded:
                self.note(self.read(until))

    def value(self, script):
        """What this comes to in the page."""
        result = self.ask("Runtime.evaluate", expression=script, returnByValue=True)
        if "exceptionDetails" in result:
            raise ValueError(f"{script}: {result['exceptionDetails']}")
        return result["result"].get("value")

    def press(self, key, **more):
        for kind in ("keyDown", "keyUp"):
            self.ask("Input.dispatchKeyEvent", type=kind, key=key, **more)

    def click(self, x, y):
        for kind in ("mousePressed", "mouseReleased"):
            self.ask("Input.dispatchMouseEvent", type=kind, x=x, y=y, button="left", buttons=1, clickCount=1)

    def tap(self, x, y):
        self.ask("Input.dispatchTouchEvent", type="touchStart", touchPoints=[{"x": x, "y": y}])
        self.ask("Input.dispatchTouchEvent", type="touchEnd", touchPoints=[])

    def swipe(self, x, y, by_x, by_y, steps=10):
        """Moves a finger on the screen, from x and y on, in a fifth of a second."""
        self.ask("Input.dispatchTouchEvent", type="touchStart", touchPoints=[{"x": x, "y": y}])
        for step in range(1, steps + 1):
            point = {"x": x + by_x * step / steps, "y": y + by_y * step / steps}
            self.ask("Input.dispatchTouchEvent", type="touchMove", touchPoints=[point])
            time.sleep(0.2 / steps)
        self.ask("Input.dispatchTouchEvent", type="touchEnd", touchPoints=[])

    def shoot(self, path, whole=True):
        """Writes a picture of the whole page, or of what the window shows."""
        size = self.ask("Page.getLayoutMetrics")["cssContentSize"]
        clip = {"x": 0, "y": 0, "width": size["width"], "height": size["height"], "scale": 1}
        wanted = {"clip": clip, "captureBeyondViewport": True} if whole else {}
        shot = self.ask("Page.captureScreenshot", format="png", **wanted)
        with open(path, "wb") as to:
            to.write(base64.b64decode(shot["data"]))

    def close(self):
        with contextlib.suppress(OSError, EOFError, TimeoutError, ValueError):
            self.attached = None
            self.ask("Browser.close")
        self.process.wait(30)
        os.close(self.to)
        os.close(self.source)


@contextlib.contextmanager
def open_browser():
    """A browser with a home of its own, which goes with it."""
    folder = tempfile.mkdtemp()
    browser = Browser(folder)
    try:
        yield browser
    finally:
        browser.close()
        shutil.rmtree(folder, ignore_errors=True)
