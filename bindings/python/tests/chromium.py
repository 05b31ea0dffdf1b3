"""Chromium without a screen, which a test drives by its own protocol over two pipes."""

import base64
import json
import os
import select
import shutil
import subprocess
import tempfile
import time

NAMES = ("chromium", "chromium-browser", "google-chrome")


def found():
    """The path of the browser, if there is one."""
    return next(filter(None, map(shutil.which, NAMES)), None)


class Failed(Exception):
    """The browser reports an error, or an exception of the page."""


class Browser:
    """A browser with one page."""

    def __init__(self):
        self._folder = tempfile.TemporaryDirectory()
        to_browser, self._out = os.pipe()
        self._in, from_browser = os.pipe()
        words = [
            found(),
            "--headless=new",
            "--remote-debugging-pipe",
            f"--user-data-dir={self._folder.name}",
            "--no-first-run",
            "--disable-gpu",
            "--disable-extensions",
            "--force-color-profile=srgb",
            "--font-render-hinting=none",
            "--hide-scrollbars",
            "--disable-dev-shm-usage",
            "--lang=en",
        ]
        if os.geteuid() == 0:
            words.append("--no-sandbox")
        # The browser reads from 3 and writes to 4.
        shell = f'exec "$@" 3<&{to_browser} 4>&{from_browser}'
        self._process = subprocess.Popen(
            ["bash", "-c", shell, "bash", *words, "about:blank"],
            pass_fds=[to_browser, from_browser],
            stdout=subprocess.DEVNULL,
            stderr=subprocess.DEVNULL,
        )
        os.close(to_browser)
        os.close(from_browser)
        self._held, self._number, self._session = b"", 0, None
        self.problems = []
        targets = self._call("Target.getTargets")["targetInfos"]
        target = next(each["targetId"] for each in targets if each["type"] == "page")
        self._session = self._call("Target.attachToTarget", targetId=target, flatten=True)["sessionId"]
        for domain in ("Page", "Runtime", "Log"):
            self._call(f"{domain}.enable")

    def close(self):
        try:
            self._session = None
            self._call("Browser.close")
        except (OSError, Failed, EOFError):
            self._process.kill()
        self._process.wait(120)
        os.close(self._out)
        os.close(self._in)
        self._folder.cleanup()

    def _call(self, method, **params):
        self._number += 1
        message = {"id": self._number, "method": method, "params": params}
        if self._session:
            message["sessionId"] = self._session
        os.write(self._out, json.dumps(message).encode() + b"\0")
        while True:
            answer = self._read()
            if answer.get("id") == self._number:
                if "error" in answer:
                    raise Failed(f"{method}: {answer['error']}")
                return answer["result"]
            self._note(answer)

    def _note(self, event):
        params = event.get("params", {})
        if event.get("method") == "Runtime.exceptionThrown":
            details = params["exceptionDetails"]
            self.problems.append(details.get("exception", {}).get("description", details["text"]))
        if event.get("method") == "Log.entryAdded" and params["entry"]["level"] == "error":
            self.problems.append(params["entry"]["text"])

    def _read(self, patience=300):
        while b"\0" not in self._held:
            if not select.select([self._in], [], [], patience)[0]:
                raise Failed("the browser doesn't answer")
            data = os.read(self._in, 1 << 20)
            if not data:
                raise EOFError
            self._held += data
        message, _, self._held = self._held.partition(b"\0")
        return json.loads(message)

    def go(self, address):
        self._call("Page.navigate", url=address)
        self.until("document.readyState === 'complete'")

    def run(self, script):
        """What a script of the page returns."""
        told = self._call("Runtime.evaluate", expression=script, returnByValue=True, awaitPromise=True)
        if "exceptionDetails" in told:
            raise Failed(told["exceptionDetails"].get("exception", {}).get("description", told))
        return told["result"].get("value")

    def until(self, script, patience=120):
        """Waits until a script returns something true. Returns whether it did."""
        ends = time.monotonic() + patience
        while True:
            try:
                got = self.run(f"Boolean({script})")
            except Failed:
                got = None
            if got or time.monotonic() > ends:
                return got
            time.sleep(0.02)

    def type(self, text):
        """Types a text where the focus is."""
        self._call("Input.insertText", text=text)

    def press(self, key, shift=False, control=False):
        """Presses a key."""
        codes = {"Tab": 9, "Enter": 13, "F8": 119, "Escape": 27, "End": 35, "Home": 36, " ": 32}
        named = {
            "key": key,
            "code": "Space" if key == " " else key,
            "windowsVirtualKeyCode": codes.get(key, ord(key[0].upper())),
        }
        modifiers = (8 if shift else 0) + (2 if control else 0)
        text = {"text": {"Enter": "\r", " ": " "}[key]} if key in ("Enter", " ") and not control else {}
        self._call("Input.dispatchKeyEvent", type="keyDown", modifiers=modifiers, **named, **text)
        self._call("Input.dispatchKeyEvent", type="keyUp", modifiers=modifiers, **named)

    def size(self, width, height, scale=1):
        self._call(
            "Emulation.setDeviceMetricsOverride", width=width, height=height, deviceScaleFactor=scale, mobile=False
        )

    def theme(self, name):
        self.media("prefers-color-scheme", name)

    def media(self, name, value):
        """Has the page see a value of a media feature."""
        self._call("Emulation.setEmulatedMedia", features=[{"name": name, "value": value}])

    def picture(self, path, complete=False):
        """Takes a screenshot: of the window, or of the complete page."""
        told = self._call("Page.captureScreenshot", format="png", captureBeyondViewport=complete)
        with open(path, "wb") as file:
            file.write(base64.b64decode(told["data"]))
