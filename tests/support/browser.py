"""Chromium without a window, and one page in it, by the Chrome DevTools protocol over a pipe."""
import base64
import json
import os
import select
import shutil
import subprocess
import tempfile
import time

BROWSERS = ["chromium", "chromium-browser", "google-chrome"]
FLAGS = ["--headless=new", "--no-sandbox", "--disable-gpu", "--disable-dev-shm-usage", "--hide-scrollbars"]
FLAGS += ["--no-first-run", "--disable-extensions", "--disable-background-networking", "--disable-component-update"]
FLAGS += ["--disable-sync", "--no-default-browser-check", "--remote-debugging-pipe", "about:blank"]
SECONDS = 60

# By its name, what the protocol says of a key: its code, its number, and the text that it types.
KEYS = {
    "Tab": ("Tab", 9, ""),
    "Enter": ("Enter", 13, "\r"),
    "Delete": ("Delete", 46, ""),
    "ArrowDown": ("ArrowDown", 40, ""),
    "ArrowUp": ("ArrowUp", 38, ""),
    "ArrowRight": ("ArrowRight", 39, ""),
    "ArrowLeft": ("ArrowLeft", 37, ""),
    "End": ("End", 35, ""),
    "d": ("KeyD", 68, "d"),
}


class BrowserFault(Exception):
    """What the browser refused, or what it said of a script that broke off."""


def find_browser():
    """The browser that `CHROMIUM` names, or one that is there; None where there is none."""
    named = os.environ.get("CHROMIUM")
    return shutil.which(named) if named else next(filter(None, map(shutil.which, BROWSERS)), None)


class Browser:
    """A browser, with a folder of its own for what it keeps."""

    def __init__(self, path):
        self.folder = tempfile.mkdtemp()
        to_it, ours = os.pipe()
        ours_read, from_it = os.pipe()
        self.write_end, self.read_end = ours, ours_read
        # the browser reads from 3 and writes to 4
        words = ["bash", "-c", f'exec "$@" 3<&{to_it} 4>&{from_it}', "bash", path]
        quiet = {"stdin": subprocess.DEVNULL, "stdout": subprocess.DEVNULL, "stderr": subprocess.DEVNULL}
        words += [f"--user-data-dir={self.folder}", *FLAGS]
        self.process = subprocess.Popen(words, pass_fds=(to_it, from_it), **quiet)
        os.close(to_it)
        os.close(from_it)
        self.number = 0
        self.rest = b""
        self.events = []

    def close(self):
        try:
            self.call("Browser.close")
        except (BrowserFault, OSError):
            self.process.kill()
        try:
            self.process.wait(10)
        except subprocess.TimeoutExpired:
            self.process.kill()
            self.process.wait()
        os.close(self.write_end)
        os.close(self.read_end)
        shutil.rmtree(self.folder, ignore_errors=True)

    def call(self, method, session=None, seconds=SECONDS, **parameters):
        """Calls a method of the protocol, and returns its result. Events that come before are kept."""
        self.number += 1
        message = {"id": self.number, "method": method, "params": parameters}
        if session:
            message["sessionId"] = session
        self._write(json.dumps(message).encode() + b"\0")
        until = time.monotonic() + seconds
        while True:
            answer = self._read(until)
            if answer.get("id") != self.number:
                self.events.append(answer)
            elif "error" in answer:
                raise BrowserFault(f"{method}: {answer['error']['message']}")
            else:
                return answer["result"]

    def _write(self, data):
        while data:
            data = data[os.write(self.write_end, data) :]

    def _read(self, until):
        """The next message."""
        parts = [self.rest]
        while b"\0" not in parts[-1]:
            left = until - time.monotonic()
            if left <= 0 or not select.select([self.read_end], [], [], left)[0]:
                raise BrowserFault("the browser does not answer")
            parts.append(os.read(self.read_end, 1 << 20))
            if not parts[-1]:
                raise BrowserFault("the browser has ended")
        message, self.rest = b"".join(parts).split(b"\0", 1)
        return json.loads(message)

    def page(self):
        """A new page."""
        target = self.call("Target.createTarget", url="about:blank")["targetId"]
        session = self.call("Target.attachToTarget", targetId=target, flatten=True)["sessionId"]
        return Page(self, target, session)


class Page:
    """A page, its keys and its pointer."""

    def __init__(self, browser, target, session):
        self.browser = browser
        self.target = target
        self.session = session
        for domain in ("Page", "Runtime", "Log"):
            self.call(f"{domain}.enable")

    def call(self, method, **parameters):
        return self.browser.call(method, self.session, **parameters)

    def close(self):
        self.browser.call("Target.closeTarget", targetId=self.target)

    def open(self, url):
        """Goes to an address, and waits until the page says that it is ready."""
        self.call("Page.navigate", url="about:blank")
        self.call("Page.navigate", url=url)
        self.wait("document.documentElement?.dataset.ready === 'yes'")

    def faults(self):
        """What the page has said of faults so far: exceptions, and what its policy refused."""
        found = []
        for event in self.browser.events:
            told = event.get("params", {})
            if event.get("method") == "Runtime.exceptionThrown":
                found.append(told["exceptionDetails"].get("exception", {}).get("description", "an exception"))
            elif event.get("method") == "Log.entryAdded" and told["entry"]["level"] == "error":
                found.append(told["entry"]["text"])
        return found

    def value(self, expression):
        """The value of an expression, or that of the promise that it is."""
        told = self.call("Runtime.evaluate", expression=expression, returnByValue=True, awaitPromise=True)
        if "exceptionDetails" in told:
            raise BrowserFault(told["exceptionDetails"].get("exception", {}).get("description", "an exception"))
        return told["result"].get("value")

    def wait(self, expression, seconds=SECONDS):
        """Waits until an expression holds."""
        until = time.monotonic() + seconds
        while not self.value(expression):
            if time.monotonic() > until:
                raise BrowserFault(f"it never holds that {expression}")
            time.sleep(0.01)

    def size(self, width, height, is_phone=False):
        box = {"width": width, "height": height, "deviceScaleFactor": 1}
        self.call("Emulation.setDeviceMetricsOverride", mobile=is_phone, **box)

    def picture(self, path):
        """Writes a picture of the whole page."""
        self.call("Page.bringToFront")
        box = self.call("Page.getLayoutMetrics")["cssContentSize"]
        clip = {**box, "scale": 1}
        told = self.call("Page.captureScreenshot", format="png", captureBeyondViewport=True, clip=clip)
        with open(path, "wb") as file:
            file.write(base64.b64decode(told["data"]))

    def type(self, text):
        """Types a text where the keys go, as one insertion."""
        self.call("Input.insertText", text=text)

    def press(self, name):
        """Presses a key."""
        code, number, text = KEYS.get(name, (f"Key{name.upper()}", ord(name[0].upper()), name))
        told = {"key": name, "code": code, "windowsVirtualKeyCode": number}
        self.call("Input.dispatchKeyEvent", type="keyDown", **told, **({"text": text} if text else {}))
        self.call("Input.dispatchKeyEvent", type="keyUp", **told)

    def select_all(self):
        """Presses Ctrl and A."""
        told = {"key": "a", "code": "KeyA", "windowsVirtualKeyCode": 65, "modifiers": 2}
        self.call("Input.dispatchKeyEvent", type="rawKeyDown", commands=["selectAll"], **told)
        self.call("Input.dispatchKeyEvent", type="keyUp", **told)

    def place(self, expression):
        """The middle of an element, which is scrolled into view first."""
        script = f"(() => {{ const it = {expression}; it.scrollIntoView({{ block: 'center' }});"
        script += " const box = it.getBoundingClientRect();"
        return self.value(f"{script} return [box.x + box.width / 2, box.y + box.height / 2]; }})()")

    def mouse(self, kind, x, y):
        self.call("Input.dispatchMouseEvent", type=kind, x=x, y=y, button="left", buttons=1, clickCount=1)

    def click(self, expression):
        x, y = self.place(expression)
        self.mouse("mousePressed", x, y)
        self.mouse("mouseReleased", x, y)

    def drag(self, expression, height):
        """Drags the middle of an element up or down, to where another expression says."""
        x, y = self.place(expression)
        end = self.value(height)
        self.mouse("mousePressed", x, y)
        for part in (1, 2, 3, 4):
            self.mouse("mouseMoved", x, y + (end - y) * part / 4)
        self.mouse("mouseReleased", x, end)

    def drop(self, path):
        """Drops a file on the page."""
        data = {"items": [], "files": [path], "dragOperationsMask": 1}
        for kind in ("dragEnter", "dragOver", "drop"):
            self.call("Input.dispatchDragEvent", type=kind, x=200, y=200, data=data)
