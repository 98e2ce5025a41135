"""Chromium without a window, driven by its DevTools protocol over two pipes. Debian's package `chromium`."""

import base64
import json
import os
import select
import shutil
import subprocess
import tempfile
import time

PROGRAM = shutil.which("chromium")
SECONDS = 60
KEYS = {"Enter": (13, "\r"), "Tab": (9, ""), "Backspace": (8, "")}


class Browser:
    """One page, of one size. `more` are further words of the program's command line."""

    def __init__(self, width=1200, height=760, more=()):
        self.folder = tempfile.TemporaryDirectory(ignore_cleanup_errors=True)  # its processes end a little later
        ours, theirs = os.pipe(), os.pipe()
        words = [PROGRAM, "--headless=new", "--no-sandbox", "--disable-gpu", "--hide-scrollbars", "--no-first-run"]
        words += [f"--window-size={width},{height}", f"--user-data-dir={self.folder.name}", "--remote-debugging-pipe"]
        shell = f'exec "$@" 3<&{ours[0]} 4>&{theirs[1]}'
        command = ["bash", "-c", shell, "bash", *words, *more, "about:blank"]
        options = {"stdout": subprocess.DEVNULL, "stderr": subprocess.DEVNULL}
        self.process = subprocess.Popen(command, pass_fds=(ours[0], theirs[1]), **options)
        os.close(ours[0])
        os.close(theirs[1])
        self.out, self.into, self.held = ours[1], theirs[0], b""
        self.last, self.session, self.told = 0, None, []
        target = self.call("Target.createTarget", url="about:blank")["targetId"]
        self.session = self.call("Target.attachToTarget", targetId=target, flatten=True)["sessionId"]
        for domain in ("Page", "Runtime", "Log", "Network"):
            self.call(f"{domain}.enable")
        self.size(width, height)

    def size(self, width, height):
        """The size of the window, which is the screen's."""
        self.width = width
        size = {"width": width, "height": height, "deviceScaleFactor": 1, "mobile": False}
        self.call("Emulation.setDeviceMetricsOverride", **size, screenWidth=width, screenHeight=height)

    def call(self, method, **words):
        self.last += 1
        asked = {"id": self.last, "method": method, "params": words}
        os.write(self.out, json.dumps(asked | ({"sessionId": self.session} if self.session else {})).encode() + b"\0")
        while True:
            told = json.loads(self.message())
            if told.get("id") == self.last:
                if "error" in told:
                    raise AssertionError(f"{method}: {told['error']['message']}")
                return told["result"]
            self.told.append(told)

    def message(self):
        end = time.monotonic() + SECONDS
        while b"\0" not in self.held:
            ready, _, _ = select.select([self.into], [], [], max(0, end - time.monotonic()))
            some = os.read(self.into, 65536) if ready else b""
            if not some:
                raise AssertionError("the browser ended, or says nothing")
            self.held += some
        message, _, self.held = self.held.partition(b"\0")
        return message

    def value(self, text):
        """What an expression is in the page, once its promise is kept."""
        done = self.call("Runtime.evaluate", expression=text, awaitPromise=True, returnByValue=True)
        if "exceptionDetails" in done:
            raise AssertionError(f"{text}: {done['exceptionDetails']}")
        return done["result"].get("value")

    def until(self, text):
        """Waits until an expression is true in the page."""
        end = time.monotonic() + SECONDS
        while not self.value(text):
            if time.monotonic() > end:
                raise AssertionError(f"never {text}: {self.value('document.body.innerText')[:900]!r}")
            time.sleep(0.05)

    def show(self, url):
        self.call("Page.navigate", url=url)
        self.until("document.readyState === 'complete' && document.querySelector('.socket') !== null")

    def place(self, name):
        """Where the middle of an element is."""
        told = f"document.querySelector({json.dumps(name)}).getBoundingClientRect()"
        box = self.value(f"(({{ x, y, width, height }}) => [x + width / 2, y + height / 2])({told})")
        return tuple(box)

    def touch(self, x, y):
        """A press of a mouse or a finger, on whatever is there."""
        for kind in ("mousePressed", "mouseReleased"):
            self.call("Input.dispatchMouseEvent", type=kind, x=x, y=y, button="left", clickCount=1)

    def press(self, key):
        code, text = KEYS[key] if key in KEYS else (ord(key.upper()), key)
        more = {"key": key, "windowsVirtualKeyCode": code}
        self.call("Input.dispatchKeyEvent", type="keyDown", **more, **({"text": text} if text else {}))
        self.call("Input.dispatchKeyEvent", type="keyUp", **more)

    def type(self, text):
        """What a scanner types: each letter, and Enter."""
        for letter in text:
            self.press(letter)
        self.press("Enter")

    def picture(self, file, most=100_000):
        """A picture of the page from its top on, of all that it shows or of so many pixels."""
        self.value("window.scrollTo(0, 0)")
        height = self.value("Math.ceil(document.documentElement.getBoundingClientRect().height)")
        height = min(most, height)
        clip = {"x": 0, "y": 0, "width": self.width, "height": height, "scale": 1}
        png = self.call("Page.captureScreenshot", format="png", clip=clip, captureBeyondViewport=True)
        file.write_bytes(base64.b64decode(png["data"]))

    def close(self):
        self.process.kill()
        self.process.wait()
        os.close(self.out)
        os.close(self.into)
        self.folder.cleanup()
