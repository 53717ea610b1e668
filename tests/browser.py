"""A Chromium without a window, driven by its remote debugging protocol over two pipes."""

import base64
import json
import os
import shutil
import signal
import subprocess
import tempfile

WORDS = [
    "--headless=new",
    "--remote-debugging-pipe",
    "--no-first-run",
    "--disable-gpu",
    "--disable-background-networking",
    "--disable-component-update",
    "--hide-scrollbars",
    "--force-color-profile=srgb",
]
KEYS = {
    "Enter": (13, "\r"),
    "Tab": (9, ""),
    "Escape": (27, ""),
    " ": (32, " "),
    "ArrowLeft": (37, ""),
    "ArrowRight": (39, ""),
    "Backspace": (8, ""),
}


class BrowserError(Exception):
    """What the browser answered in place of a result."""


def found_program():
    """The browser's program; none where there is none."""
    names = ("chromium", "chromium-browser", "google-chrome")
    return next(filter(None, map(shutil.which, names)), None)


class Browser:
    """The browser, its profile in a folder of its own, and what it told of each page so far."""

    def __init__(self, program):
        self.folder = tempfile.mkdtemp(prefix="page-")
        self.number = 0
        self.left = b""
        self.told = []
        self.addresses = set()
        words = [program, *WORDS, f"--user-data-dir={self.folder}"]
        # As root Chromium has no sandbox.
        words += ["--no-sandbox"] * (os.geteuid() == 0)
        their_input, self.to = os.pipe()
        self.answers, their_output = os.pipe()
        self.process = subprocess.Popen(
            ["bash", "-c", f'exec "$@" 3<&{their_input} 4>&{their_output}', "", *words],
            pass_fds=(their_input, their_output),
            stdin=subprocess.DEVNULL,
            stdout=subprocess.DEVNULL,
            stderr=subprocess.DEVNULL,
            start_new_session=True,
        )
        os.close(their_input)
        os.close(their_output)

    def message(self):
        """The next message of the browser."""
        while b"\0" not in self.left:
            part = os.read(self.answers, 1 << 20)
            if not part:
                raise BrowserError("the browser has ended")
            self.left += part
        text, self.left = self.left.split(b"\0", 1)
        return json.loads(text)

    def call(self, method, session=None, **parameters):
        """Calls a method, and keeps what the browser tells meanwhile."""
        self.number += 1
        asked = {"id": self.number, "method": method, "params": parameters}
        if session:
            asked["sessionId"] = session
        text = memoryview(json.dumps(asked).encode() + b"\0")
        while text:
            text = text[os.write(self.to, text) :]
        while True:
            message = self.message()
            if message.get("id") != self.number:
                self.told.append(message)
            elif "error" in message:
                raise BrowserError(f"{method}: {message['error']['message']}")
            else:
                return message["result"]

    def page(self, width, height, before=""):
        """A new page of that size, which runs the script `before` ahead of its own."""
        target = self.call("Target.createTarget", url="about:blank")["targetId"]
        session = self.call("Target.attachToTarget", targetId=target, flatten=True)
        page = Page(self, target, session["sessionId"])
        for domain in ("Page", "Runtime", "Log", "Network"):
            page.call(f"{domain}.enable")
        page.size(width, height)
        if before:
            page.call("Page.addScriptToEvaluateOnNewDocument", source=before)
        return page

    def close(self):
        """Ends the browser and all that it started, and removes its profile."""
        try:
            self.call("Browser.close")
            self.process.wait(10)
        except (BrowserError, OSError, subprocess.TimeoutExpired):
            os.killpg(self.process.pid, signal.SIGKILL)
            self.process.wait()
        shutil.rmtree(self.folder, ignore_errors=True)


class Page:
    """One page of the browser."""

    def __init__(self, browser, target, session):
        self.browser = browser
        self.target = target
        self.session = session

    def call(self, method, **parameters):
        return self.browser.call(method, self.session, **parameters)

    def size(self, width, height):
        how = {"width": width, "height": height, "deviceScaleFactor": 1, "mobile": False}
        self.call("Emulation.setDeviceMetricsOverride", **how)

    def dark(self, is_dark):
        scheme = {"name": "prefers-color-scheme", "value": "dark" if is_dark else "light"}
        self.call("Emulation.setEmulatedMedia", features=[scheme])

    def open(self, address):
        """Goes to an address. Where only its fragment is another, the page stays."""
        self.browser.addresses.add(address.partition("#")[0])
        self.call("Page.navigate", url=address)

    def evaluate(self, expression):
        """What an expression of JavaScript comes to, once it is there."""
        how = {"expression": expression, "awaitPromise": True, "returnByValue": True}
        found = self.call("Runtime.evaluate", userGesture=True, **how)
        if "exceptionDetails" in found:
            told = found["exceptionDetails"]
            raise BrowserError(told.get("exception", {}).get("description", told["text"]))
        return found["result"].get("value")

    def press(self, key, control=False):
        code, text = KEYS[key]
        how = {"key": key, "windowsVirtualKeyCode": code, "modifiers": 2 * control}
        self.call("Input.dispatchKeyEvent", type="keyDown", text="" if control else text, **how)
        self.call("Input.dispatchKeyEvent", type="keyUp", **how)

    def write(self, text):
        """Types a text where the cursor is."""
        self.call("Input.insertText", text=text)

    def click(self, selector):
        """Presses the mouse on the middle of the first element that is found."""
        name = json.dumps(selector)
        at = self.evaluate(
            f"(() => {{ const it = document.querySelector({name}); it.scrollIntoView({{ block: 'nearest' }});"
            " const box = it.getBoundingClientRect();"
            " return [box.x + box.width / 2, box.y + box.height / 2]; })()"
        )
        how = {"x": at[0], "y": at[1], "button": "left", "clickCount": 1}
        self.call("Input.dispatchMouseEvent", type="mousePressed", **how)
        self.call("Input.dispatchMouseEvent", type="mouseReleased", **how)

    def picture(self, file, whole=False):
        """Keeps what is seen, or the whole page, as a PNG."""
        shot = self.call("Page.captureScreenshot", captureBeyondViewport=whole)
        with open(file, "wb") as to:
            to.write(base64.b64decode(shot["data"]))

    def close(self):
        self.browser.call("Target.closeTarget", targetId=self.target)
