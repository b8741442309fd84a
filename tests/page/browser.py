"""A headless Chromium for tests: pages are opened, keys pressed, what stands in a page read, and pictures of it taken.

It is spoken to through two pipes by its own protocol, so nothing but the browser and the standard library is needed.
"""

import base64
import contextlib
import json
import os
import select
import shutil
import subprocess
import tempfile
import time

NAMES = ("chromium", "chromium-browser", "google-chrome", "google-chrome-stable")
KEYS = {"ArrowRight": 39, "ArrowLeft": 37, "Home": 36, "End": 35, " ": 32}


def executable():
    """Where the browser is, or None."""
    return next((found for name in NAMES if (found := shutil.which(name))), None)


@contextlib.contextmanager
def room():
    """A temporary folder, in which a browser that goes may still write."""
    folder = tempfile.mkdtemp(prefix="page.")
    try:
        yield folder
    finally:
        shutil.rmtree(folder, ignore_errors=True)


class Browser:
    """A browser with one page."""

    def __init__(self, program, folder):
        asks, self._asks = os.pipe()
        self._answers, answers = os.pipe()
        words = [program, "--headless=new", "--no-sandbox", "--disable-gpu", "--no-first-run", "--disable-extensions",
                 "--disable-dev-shm-usage", "--hide-scrollbars", f"--user-data-dir={folder}", "--remote-debugging-pipe",
                 "about:blank"]
        redirected = f'exec "$@" 3<&{asks} 4>&{answers}'
        self.process = subprocess.Popen(["sh", "-c", redirected, "sh", *words], pass_fds=(asks, answers),
                                        stdin=subprocess.DEVNULL, stdout=subprocess.DEVNULL, stderr=subprocess.DEVNULL)
        os.close(asks)
        os.close(answers)
        self._rest = b""
        self._number = 0
        self._session = None
        self.events = []
        target = self.ask("Target.createTarget", url="about:blank")["targetId"]
        self._session = self.ask("Target.attachToTarget", targetId=target, flatten=True)["sessionId"]
        for domain in ("Page", "Runtime"):
            self.ask(domain + ".enable")
        self.ask("Page.setLifecycleEventsEnabled", enabled=True)

    def _read(self):
        """The next message of the browser, which is to come in ten minutes."""
        while b"\0" not in self._rest:
            if not select.select([self._answers], [], [], 600)[0]:
                raise EOFError("the browser says nothing any more")
            more = os.read(self._answers, 1 << 20)
            if not more:
                raise EOFError("the browser has ended")
            self._rest += more
        message, self._rest = self._rest.split(b"\0", 1)
        return json.loads(message)

    def ask(self, method, **words):
        """Calls a method of the protocol, and gives its result. Events that come meanwhile are kept."""
        self._number += 1
        message = {"id": self._number, "method": method, "params": words}
        if self._session:
            message["sessionId"] = self._session
        data = json.dumps(message).encode() + b"\0"
        while data:
            data = data[os.write(self._asks, data):]
        while (answer := self._read()).get("id") != self._number:
            self.events.append(answer)
        if "error" in answer:
            raise RuntimeError(f"{method}: {answer['error']}")
        return answer["result"]

    def open(self, path):
        """Opens a file, and gives the seconds until it was loaded."""
        self.events.clear()
        self._load("about:blank")
        began = time.monotonic()
        self._load(f"file://{path}")
        return time.monotonic() - began

    def _load(self, url):
        """Opens an address, and waits until this one is loaded: what is told of another may come late."""
        loader = self.ask("Page.navigate", url=url)["loaderId"]

        def is_loaded(event):
            told = event.get("params", {})
            return event.get("method") == "Page.lifecycleEvent" and (told["loaderId"], told["name"]) == (loader, "load")

        while not any(map(is_loaded, self.events)):
            self.events.append(self._read())

    def value(self, expression):
        """What an expression is in the page."""
        answer = self.ask("Runtime.evaluate", expression=expression, returnByValue=True, awaitPromise=True)
        if "exceptionDetails" in answer:
            raise RuntimeError(f"{expression[:80]}: {answer['exceptionDetails']}")
        return answer["result"].get("value")

    def press(self, key):
        """Presses a key, as a reader does."""
        code = KEYS[key]
        for kind in ("rawKeyDown", "keyUp"):
            self.ask("Input.dispatchKeyEvent", type=kind, key=key, code=key, windowsVirtualKeyCode=code)

    def click(self, x, y):
        """Presses and releases the mouse at a place."""
        for kind in ("mousePressed", "mouseReleased"):
            self.ask("Input.dispatchMouseEvent", type=kind, x=x, y=y, button="left", clickCount=1)

    def look(self, width, height, dark):
        """Gives the page a size, and light or dark colours."""
        self.ask("Emulation.setDeviceMetricsOverride", width=width, height=height, deviceScaleFactor=1, mobile=False)
        scheme = {"name": "prefers-color-scheme", "value": "dark" if dark else "light"}
        self.ask("Emulation.setEmulatedMedia", features=[scheme])

    def picture(self, path):
        """A picture of what is seen, as PNG or, where the name says so, as WebP."""
        form = {"format": "webp", "quality": 70} if str(path).endswith(".webp") else {"format": "png"}
        data = self.ask("Page.captureScreenshot", **form)["data"]
        with open(path, "wb") as file:
            file.write(base64.b64decode(data))

    def close(self):
        """Ends the browser."""
        self._session = None
        try:
            self.ask("Browser.close")
            self.process.wait(timeout=20)
        except (EOFError, OSError, RuntimeError, subprocess.TimeoutExpired):
            self.process.kill()
            self.process.wait()
