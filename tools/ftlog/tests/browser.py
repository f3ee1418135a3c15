"""A real browser without a window, which opens a page and is given keys: Chromium, by its DevTools protocol over two pipes.

There is none for a test if neither of its usual names is on the path.
"""
import base64
import json
import os
import select
import shutil
import subprocess
import tempfile
import time

NAMES = ("chromium", "chromium-browser", "google-chrome")
WORDS = ["--headless=new", "--no-sandbox", "--disable-gpu", "--disable-dev-shm-usage", "--no-first-run", "--remote-debugging-pipe"]
THERE = "document.readyState === 'complete' && location.href !== 'about:blank' && document.getElementById('where').textContent !== ''"
SECONDS = 120  # that an answer may take
KEYS = {"ArrowRight": 39, "ArrowLeft": 37, "Home": 36, "End": 35, "Enter": 13}


def program():
    """The path of a browser, None if there is none."""
    return next((path for path in map(shutil.which, NAMES) if path), None)


class Browser:
    """A running browser with one page; it ends with the `with` block."""

    def __enter__(self):
        """Starts it, and opens an empty page."""
        self.folder = tempfile.TemporaryDirectory()
        (down, self.sends), (self.gets, up) = os.pipe(), os.pipe()
        # The protocol is at the descriptors 3 and 4. Both ends are first moved well above, so that neither takes the other's place.
        words = [program(), *WORDS, f"--user-data-dir={self.folder.name}", "about:blank"]
        move = 'exec 3<&"$1" 4>&"$2"; shift 2; exec "$@"'
        quiet = {"stdout": subprocess.DEVNULL, "stderr": subprocess.DEVNULL}
        self.running = subprocess.Popen(["bash", "-c", move, "bash", str(down), str(up), *words], pass_fds=(down, up), **quiet)
        os.close(down)
        os.close(up)
        self.number, self.read, self.session = 0, b"", None
        page = next(target for target in self.ask("Target.getTargets")["targetInfos"] if target["type"] == "page")
        self.session = self.ask("Target.attachToTarget", targetId=page["targetId"], flatten=True)["sessionId"]
        self.faults = []
        self.ask("Runtime.enable")
        return self

    def __exit__(self, *_):
        """Ends it."""
        self.running.kill()
        self.running.wait()
        os.close(self.sends)
        os.close(self.gets)
        self.folder.cleanup()

    def ask(self, method, **words):
        """The answer to a call of the protocol."""
        self.number += 1
        call = {"id": self.number, "method": method, "params": words, **({"sessionId": self.session} if self.session else {})}
        os.write(self.sends, json.dumps(call).encode() + b"\0")
        while True:
            told = self.message()
            if told.get("method") == "Runtime.exceptionThrown":
                self.faults.append(told["params"]["exceptionDetails"])
            if told.get("id") == self.number:
                if "error" in told:
                    raise RuntimeError(f"{method}: {told['error']}")
                return told["result"]

    def message(self):
        """The next message of the browser."""
        until = time.monotonic() + SECONDS
        while b"\0" not in self.read:
            ready, _, _ = select.select([self.gets], [], [], max(0, until - time.monotonic()))
            part = os.read(self.gets, 1 << 16) if ready else b""
            if not part:
                raise RuntimeError("the browser doesn't answer")
            self.read += part
        text, _, self.read = self.read.partition(b"\0")
        return json.loads(text)

    def value(self, text):
        """What an expression of the page's language is."""
        came = self.ask("Runtime.evaluate", expression=text, returnByValue=True, awaitPromise=True)
        if "exceptionDetails" in came:
            raise RuntimeError(str(came["exceptionDetails"]))
        return came["result"].get("value")

    def open(self, address):
        """Opens a page, and waits until it is there and drawn."""
        self.ask("Page.navigate", url=address)
        until = time.monotonic() + SECONDS
        while time.monotonic() < until:
            if self.value(THERE):
                return
            time.sleep(0.1)
        raise RuntimeError("the page doesn't open")

    def drawn(self):
        """Waits until what was asked for is drawn."""
        self.value("new Promise((done) => requestAnimationFrame(() => requestAnimationFrame(done)))")

    def press(self, *keys, shift=False):
        """Presses these keys, one after the other."""
        for key in keys:
            words = {"key": key, "windowsVirtualKeyCode": KEYS.get(key, ord(key[0].upper())), "modifiers": 8 if shift else 0}
            text = {"text": key} if len(key) == 1 else {"text": "\r"} if key == "Enter" else {}
            self.ask("Input.dispatchKeyEvent", type="keyDown", **words, **text)
            self.ask("Input.dispatchKeyEvent", type="keyUp", **words)
        self.drawn()

    def type(self, text):
        """Types a text where the page has its caret."""
        self.ask("Input.insertText", text=text)
        self.drawn()

    def click(self, x, y):
        """Clicks at a place of the page."""
        for kind in ("mousePressed", "mouseReleased"):
            self.ask("Input.dispatchMouseEvent", type=kind, x=x, y=y, button="left", clickCount=1)
        self.drawn()

    def size(self, width, height, is_dark=False):
        """Sets the size of the page, and whether it is dark."""
        self.ask("Emulation.setDeviceMetricsOverride", width=width, height=height, deviceScaleFactor=1, mobile=False)
        self.ask("Emulation.setEmulatedMedia", features=[{"name": "prefers-color-scheme", "value": "dark" if is_dark else "light"}])

    def picture(self):
        """A picture of what is shown, as the bytes of a PNG file."""
        return base64.b64decode(self.ask("Page.captureScreenshot", format="png")["data"])
