"""A browser without a window, for tests of pages: Chromium, led by its DevTools protocol over two pipes."""

import base64
import fcntl
import itertools
import json
import os
import select
import shutil
import subprocess
import tempfile
import time
import unittest

NAMES = ("chromium", "chromium-browser", "google-chrome", "google-chrome-stable", "chrome")
BROWSER = next(filter(None, map(shutil.which, NAMES)), None)
needs_browser = unittest.skipUnless(BROWSER, "needs chromium")
# Seconds in which the browser answers, and in which what is waited for comes.
PATIENCE = 100
WORDS = ("--headless=new", "--no-sandbox", "--disable-gpu", "--hide-scrollbars", "--remote-debugging-pipe", "--no-first-run")
# The browser's codes of keys that are no letters.
CODES = {"Backspace": 8, "ArrowLeft": 37, "ArrowUp": 38, "ArrowRight": 39, "ArrowDown": 40, "Home": 36}


class Browser:
    """A running browser with one page, which is this large."""

    def __init__(self, width=900, height=700):
        self.folder = tempfile.mkdtemp()
        to_read, self.writing = os.pipe()
        self.reading, to_write = os.pipe()
        # (3 and 4 are where the browser reads and writes: none of these may be one of them)
        ends = [fcntl.fcntl(end, fcntl.F_DUPFD_CLOEXEC, 10) for end in (to_read, to_write)]

        def put_in_place():
            os.dup2(ends[0], 3)
            os.dup2(ends[1], 4)

        words = [BROWSER, *WORDS, f"--user-data-dir={self.folder}", "about:blank"]
        out = {"stdin": subprocess.DEVNULL, "stdout": subprocess.DEVNULL, "stderr": subprocess.DEVNULL}
        self.process = subprocess.Popen(words, preexec_fn=put_in_place, close_fds=False, start_new_session=True, **out)
        for end in (to_read, to_write, *ends):
            os.close(end)
        self.numbers = itertools.count(1)
        self.heard = b""
        self.events = []
        self.session = None
        target = self.ask("Target.createTarget", url="about:blank")["targetId"]
        self.session = self.ask("Target.attachToTarget", targetId=target, flatten=True)["sessionId"]
        for domain in ("Page", "Network", "Runtime", "Log"):
            self.ask(f"{domain}.enable")
        self.resize(width, height)

    def close(self):
        """Ends the browser."""
        self.session = None
        try:
            self.ask("Browser.close")
            self.process.wait(PATIENCE)
        except (OSError, EOFError, AssertionError, subprocess.TimeoutExpired):
            self.process.kill()
            self.process.wait()
        os.close(self.writing)
        os.close(self.reading)
        shutil.rmtree(self.folder, ignore_errors=True)

    def resize(self, width, height):
        """Gives the page another size, of pixels that are those of the screen."""
        self.ask("Emulation.setDeviceMetricsOverride", width=width, height=height, deviceScaleFactor=1, mobile=False)

    def send(self, method, values):
        """Calls a method, and gives the number that its result will have."""
        number = next(self.numbers)
        message = {"id": number, "method": method, "params": values}
        if self.session:
            message["sessionId"] = self.session
        os.write(self.writing, json.dumps(message).encode() + b"\0")
        return number

    def ask(self, method, **values):
        """The result of a method; events that come before it are kept."""
        number = self.send(method, values)
        while True:
            said = self.listen()
            if said.get("id") == number:
                if "error" in said:
                    raise AssertionError(f"{method}: {said['error']}")
                return said["result"]
            self.events.append(said)
            if said.get("method") == "Page.javascriptDialogOpening":
                # (a page that asks whether to stay is left all the same)
                self.send("Page.handleJavaScriptDialog", {"accept": True})

    def listen(self):
        """The next message of the browser."""
        while b"\0" not in self.heard:
            if not select.select([self.reading], [], [], PATIENCE)[0]:
                raise AssertionError("the browser says nothing")
            more = os.read(self.reading, 1 << 16)
            if not more:
                raise EOFError("the browser has ended")
            self.heard += more
        message, _, self.heard = self.heard.partition(b"\0")
        return json.loads(message)

    def open(self, path):
        """Opens a file, and waits until it is there."""
        self.visit(f"file://{path}")

    def visit(self, address):
        """Opens a page, and waits until it is there."""
        self.events.clear()
        self.ask("Page.navigate", url=address)
        self.wait("document.readyState === 'complete'")

    def run(self, script):
        """The value of an expression in the page, awaited where it is a promise."""
        said = self.ask("Runtime.evaluate", expression=script, returnByValue=True, awaitPromise=True)
        if "exceptionDetails" in said:
            raise AssertionError(f"{script}: {said['exceptionDetails']}")
        return said["result"].get("value")

    def wait(self, script, patience=PATIENCE):
        """Waits until an expression in the page is true, and gives its value."""
        end = time.monotonic() + patience
        while time.monotonic() < end:
            try:
                value = self.run(script)
            except AssertionError:  # (while a page is loaded, there is none to ask)
                value = None
            if value:
                return value
            time.sleep(0.03)
        raise AssertionError(f"never came: {script}")

    def key(self, key, shift=False):
        """Presses a key and lets it go."""
        code = CODES.get(key, ord(key[0].upper()))
        values = {"key": key, "windowsVirtualKeyCode": code, "modifiers": 8 if shift else 0}
        text = {"text": key} if len(key) == 1 else {}
        self.ask("Input.dispatchKeyEvent", type="keyDown", **values, **text)
        self.ask("Input.dispatchKeyEvent", type="keyUp", **values)

    def mouse(self, kind, x, y, button="none", **values):
        """An event of the mouse: mousePressed, mouseReleased, mouseMoved or mouseWheel."""
        held = {"none": 0, "left": 1, "right": 2, "middle": 4}[button] if kind != "mouseReleased" else 0
        clicks = 0 if kind in ("mouseMoved", "mouseWheel") else 1
        self.ask("Input.dispatchMouseEvent", type=kind, x=x, y=y, button=button, buttons=held, clickCount=clicks, **values)

    def drag(self, start, end, button="left", shift=False):
        """Presses a button of the mouse at a place, and lets it go at another."""
        held = {"modifiers": 8 if shift else 0}
        self.mouse("mousePressed", *start, button, **held)
        for part in (0.25, 0.5, 0.75, 1):
            self.mouse("mouseMoved", *(a + (b - a) * part for a, b in zip(start, end)), button, **held)
        self.mouse("mouseReleased", *end, button, **held)

    def touch(self, kind, *places):
        """An event of fingers at these places: touchStart, touchMove or touchEnd."""
        points = [{"x": x, "y": y, "id": number} for number, (x, y) in enumerate(places)]
        self.ask("Input.dispatchTouchEvent", type=kind, touchPoints=points)

    def addresses(self):
        """What the page has asked for since it was opened."""
        self.run("0")
        return [it["params"]["request"]["url"] for it in self.events if it.get("method") == "Network.requestWillBeSent"]

    def complaints(self):
        """What went wrong in the page's script since it was opened, and what the browser wrote into its log."""
        self.run("0")
        kinds = ("Runtime.exceptionThrown", "Log.entryAdded")
        return [it["params"] for it in self.events if it.get("method") in kinds]

    def picture(self):
        """A picture of the page, as the bytes of a PNG."""
        return base64.b64decode(self.ask("Page.captureScreenshot", format="png")["data"])
