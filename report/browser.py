"""Chromium without a window, spoken to over its own pipe: it opens pages, presses keys, takes pictures, and tells what its console says and what it asks for."""

import base64
import fcntl
import json
import os
import select
import shutil
import signal
import subprocess
import tempfile
import time
import urllib.parse

# How many seconds an answer may take.
LIMIT = 120

KEYS = {"Tab": 9, "Enter": 13, "Escape": 27, "PageUp": 33, "PageDown": 34, "End": 35, "Home": 36, "ArrowLeft": 37, "ArrowUp": 38, "ArrowRight": 39, "ArrowDown": 40}


class Failed(Exception):
    """What the browser refuses, or doesn't do in time."""


def program():
    """The browser of this machine, or None."""
    return next((found for found in map(shutil.which, ("chromium", "chromium-browser", "google-chrome")) if found), None)


class Browser:
    """A browser with one page."""

    def __init__(self):
        self.profile = tempfile.mkdtemp(prefix="fulwethi-browser-")
        # (3 and 4 are its ends in the browser; here they are others, so that none is in the way)
        their_in, self.out = os.pipe()
        self.inward, their_out = os.pipe()
        ends = [fcntl.fcntl(end, fcntl.F_DUPFD_CLOEXEC, 10) for end in (their_in, their_out)]
        os.close(their_in)
        os.close(their_out)
        words = [program(), "--headless", "--no-sandbox", "--disable-gpu", "--hide-scrollbars", "--no-first-run", "--disable-extensions", "--disable-background-networking"]
        words += ["--remote-debugging-pipe", f"--user-data-dir={self.profile}", "about:blank"]
        self.ran = subprocess.Popen(words, close_fds=False, preexec_fn=lambda: (os.dup2(ends[0], 3), os.dup2(ends[1], 4)), start_new_session=True, stdin=subprocess.DEVNULL, stdout=subprocess.DEVNULL, stderr=subprocess.DEVNULL)
        for end in ends:
            os.close(end)
        self.rest, self.number, self.events, self.said, self.asked = b"", 0, [], [], []
        self.session = None
        target = next(it for it in self.ask("Target.getTargets")["targetInfos"] if it["type"] == "page")
        self.session = self.ask("Target.attachToTarget", targetId=target["targetId"], flatten=True)["sessionId"]
        for domain in ("Page", "Runtime", "Log", "Network"):
            self.ask(f"{domain}.enable")

    def receive(self, until):
        """The next message of the browser."""
        while b"\0" not in self.rest:
            left = until - time.monotonic()
            if left <= 0 or not select.select([self.inward], [], [], left)[0]:
                raise Failed("the browser didn't answer in time")
            chunk = os.read(self.inward, 1 << 20)
            if not chunk:
                raise Failed("the browser ended")
            self.rest += chunk
        text, _, self.rest = self.rest.partition(b"\0")
        return json.loads(text)

    def ask(self, method, **parameters):
        """Asks for something, and answers what is answered; what is told meanwhile is kept."""
        self.number += 1
        message = {"id": self.number, "method": method, "params": parameters, **({"sessionId": self.session} if self.session else {})}
        left = json.dumps(message).encode() + b"\0"
        while left:
            left = left[os.write(self.out, left) :]
        until = time.monotonic() + LIMIT
        while True:
            told = self.receive(until)
            if told.get("id") == self.number:
                if "error" in told:
                    raise Failed(f"{method}: {told['error']['message']}")
                return told["result"]
            self.keep(told)

    def keep(self, told):
        self.events.append(told.get("method"))
        parameters = told.get("params", {})
        if told.get("method") == "Runtime.exceptionThrown":
            details = parameters["exceptionDetails"]
            self.said.append(details.get("exception", {}).get("description", details["text"]))
        elif told.get("method") == "Network.requestWillBeSent":
            self.asked.append(parameters["request"]["url"])
        elif told.get("method") == "Log.entryAdded":
            self.said.append(parameters["entry"]["text"])
        elif told.get("method") == "Runtime.consoleAPICalled":
            self.said.append(" ".join(str(it.get("value")) for it in parameters["args"]))

    def open(self, path, place=""):
        """Opens a file, and answers how many seconds it took until its script had run and a picture of it could be shown."""
        # (a page that differs by its place alone isn't loaded again)
        self.load("about:blank")
        self.said, self.asked = [], []
        began = time.monotonic()
        self.load("file://" + urllib.parse.quote(os.path.abspath(path)) + place)
        self.settle()
        return time.monotonic() - began

    def load(self, address):
        self.events = []
        told = self.ask("Page.navigate", url=address)
        if "errorText" in told:
            raise Failed(f"{address}: {told['errorText']}")
        until = time.monotonic() + LIMIT
        while "Page.loadEventFired" not in self.events:
            self.keep(self.receive(until))

    def settle(self):
        """Waits until what is due has been drawn."""
        self.run("new Promise((done) => requestAnimationFrame(() => requestAnimationFrame(() => setTimeout(done, 20))))")

    def run(self, script):
        """The value of an expression in the page."""
        told = self.ask("Runtime.evaluate", expression=script, returnByValue=True, awaitPromise=True)
        if "exceptionDetails" in told:
            raise Failed(f"{script}: {told['exceptionDetails'].get('exception', {}).get('description')}")
        return told["result"].get("value")

    def press(self, *keys):
        """Presses keys, one after another."""
        for key in keys:
            code = KEYS.get(key) or ord(key.upper())
            text = {"Enter": "\r"}.get(key, key if len(key) == 1 else "")
            pressed = {"key": key, "code": key, "windowsVirtualKeyCode": code}
            self.ask("Input.dispatchKeyEvent", type="keyDown", **pressed, **({"text": text} if text else {}))
            self.ask("Input.dispatchKeyEvent", type="keyUp", **pressed)
        self.settle()

    def click(self, x, y):
        for kind in ("mousePressed", "mouseReleased"):
            self.ask("Input.dispatchMouseEvent", type=kind, x=x, y=y, button="left", clickCount=1)
        self.settle()

    def size(self, width, height, ratio=1):
        self.ask("Emulation.setDeviceMetricsOverride", width=width, height=height, deviceScaleFactor=ratio, mobile=False)

    def prefer(self, scheme):
        """light or dark."""
        self.ask("Emulation.setEmulatedMedia", features=[{"name": "prefers-color-scheme", "value": scheme}])
        self.settle()

    def picture(self, whole=False):
        """A picture of what is in sight, or of the whole page, as PNG."""
        self.settle()
        return base64.b64decode(self.ask("Page.captureScreenshot", format="png", captureBeyondViewport=whole)["data"])

    def close(self):
        try:
            self.session = None
            self.ask("Browser.close")
            self.ran.wait(10)
        except (Failed, OSError, subprocess.TimeoutExpired):
            os.killpg(self.ran.pid, signal.SIGKILL)
            self.ran.wait()
        os.close(self.out)
        os.close(self.inward)
        shutil.rmtree(self.profile, ignore_errors=True)

    def __enter__(self):
        return self

    def __exit__(self, *_):
        self.close()
