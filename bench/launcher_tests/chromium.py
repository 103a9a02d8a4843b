"""A headless Chromium with one page, driven by its own protocol over two pipes."""
import base64
import json
import os
import shutil
import signal
import subprocess
import tempfile
import time

NAMES = ("chromium", "chromium-browser", "google-chrome")
WORDS = (
    "--headless=new --remote-debugging-pipe --no-sandbox --no-first-run --disable-gpu --disable-extensions --disable-dev-shm-usage "
    "--disable-background-networking --disable-component-update --disable-sync --force-device-scale-factor=1 --window-size=1280,900"
).split()
# The virtual key codes of keys that are more than their letter.
KEYS = {"Tab": 9, "Enter": 13, " ": 32, "PageUp": 33, "PageDown": 34, "End": 35, "Home": 36}
KEYS.update({"ArrowLeft": 37, "ArrowUp": 38, "ArrowRight": 39, "ArrowDown": 40})
TEXTS = {"Enter": "\r", "Tab": ""}
SHIFT = 8
# How long an answer may take.
SECONDS = 120


def find():
    """The program, or None."""
    return next(filter(None, map(shutil.which, NAMES)), None)


class Browser:
    """Ends with the `with` that it stands in."""

    def __init__(self, file):
        self.folder = tempfile.TemporaryDirectory()
        down, self.down = os.pipe()
        self.up, up = os.pipe()
        words = [file, *WORDS, f"--user-data-dir={self.folder.name}", "about:blank"]
        # Chromium reads commands from descriptor 3 and writes to descriptor 4.
        shell = ["sh", "-c", f'exec "$@" 3<&{down} 4>&{up}', "sh", *words]
        how = {"stdin": subprocess.DEVNULL, "stdout": subprocess.DEVNULL, "stderr": subprocess.DEVNULL}
        self.child = subprocess.Popen(shell, pass_fds=(down, up), start_new_session=True, **how)
        os.close(down)
        os.close(up)
        self.number, self.read, self.session, self.errors = 0, b"", None, []
        target = self.ask("Target.createTarget", url="about:blank")["targetId"]
        self.session = self.ask("Target.attachToTarget", targetId=target, flatten=True)["sessionId"]
        for domain in ("Page", "Runtime", "Performance"):
            self.ask(f"{domain}.enable")

    def __enter__(self):
        return self

    def __exit__(self, *_):
        os.close(self.down)
        try:
            self.child.wait(5)
        except subprocess.TimeoutExpired:
            os.killpg(self.child.pid, signal.SIGKILL)
            self.child.wait()
        os.close(self.up)
        self.folder.cleanup()

    def ask(self, method, **given):
        """Sends a command and returns its result. Errors of the page's scripts meanwhile are kept."""
        self.number += 1
        sent = {"id": self.number, "method": method, "params": given, **({"sessionId": self.session} if self.session else {})}
        os.write(self.down, json.dumps(sent).encode() + b"\0")
        while True:
            got = self.message()
            if got.get("method") == "Runtime.exceptionThrown":
                self.errors.append(got["params"]["exceptionDetails"].get("exception", {}).get("description", "an error"))
            if got.get("id") == self.number:
                if "error" in got:
                    raise ValueError(f"{method}: {got['error']['message']}")
                return got["result"]

    def message(self):
        while b"\0" not in self.read:
            more = os.read(self.up, 1 << 20)
            if not more:
                raise ValueError("Chromium has ended")
            self.read += more
        text, _, self.read = self.read.partition(b"\0")
        return json.loads(text)

    def value(self, expression):
        """The value of an expression of the page's scripts."""
        got = self.ask("Runtime.evaluate", expression=expression, returnByValue=True, awaitPromise=True)
        if "exceptionDetails" in got:
            raise ValueError(f"{expression}: {got['exceptionDetails'].get('exception', {}).get('description')}")
        return got["result"].get("value")

    def wait(self, expression):
        """Waits until an expression holds, and returns the seconds that it took."""
        start = time.monotonic()
        while not self.value(expression):
            if time.monotonic() - start > SECONDS:
                raise ValueError(f"{expression} does not come")
            time.sleep(0.02)
        return time.monotonic() - start

    def click(self, x, y):
        for kind in ("mouseMoved", "mousePressed", "mouseReleased"):
            button = {} if kind == "mouseMoved" else {"button": "left", "clickCount": 1}
            self.ask("Input.dispatchMouseEvent", type=kind, x=x, y=y, **button)

    def press(self, key, shift=False):
        code = KEYS[key] if key in KEYS else ord(key.upper()) if key.isalnum() else 0
        text = TEXTS.get(key, key if len(key) == 1 else "")
        given = {"key": key, "windowsVirtualKeyCode": code, "modifiers": SHIFT if shift else 0}
        self.ask("Input.dispatchKeyEvent", type="keyDown", **given, **({"text": text} if text else {}))
        self.ask("Input.dispatchKeyEvent", type="keyUp", **given)

    def media(self, scheme, media=""):
        features = [{"name": "prefers-color-scheme", "value": scheme}]
        self.ask("Emulation.setEmulatedMedia", media=media, features=features)

    def picture(self, file, is_whole=False):
        got = self.ask("Page.captureScreenshot", format="png", captureBeyondViewport=is_whole)
        file.write_bytes(base64.b64decode(got["data"]))

    def print(self, file):
        got = self.ask("Page.printToPDF", printBackground=True)
        file.write_bytes(base64.b64decode(got["data"]))
