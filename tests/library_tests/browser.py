"""A browser without a window, driven over a pipe."""
import base64
import contextlib
import json
import os
import subprocess
import tempfile
import time

SECONDS = 40
READY = "document.documentElement?.dataset.ready === 'yes'"
KEYS = {"Enter": 13, "Escape": 27, "ArrowUp": 38, "ArrowDown": 40}


class Browser:
    def __enter__(self):
        self._folder = tempfile.TemporaryDirectory(prefix="sorachest-", ignore_cleanup_errors=True)
        to_it, self._to = os.pipe()
        self._from, from_it = os.pipe()
        words = ["chromium", "--headless=new", "--no-sandbox", "--disable-gpu", "--disable-dev-shm-usage", "--hide-scrollbars"]
        words += ["--remote-debugging-pipe", f"--user-data-dir={self._folder.name}", "--no-first-run", "about:blank"]
        # the browser reads its commands at 3 and writes its answers at 4
        shell = ["sh", "-c", f'exec "$@" 3<&{to_it} 4>&{from_it}', "sh", *words]
        quiet = {"stdin": subprocess.DEVNULL, "stdout": subprocess.DEVNULL, "stderr": subprocess.DEVNULL}
        self._begun = subprocess.Popen(shell, pass_fds=(to_it, from_it), **quiet)
        os.close(to_it)
        os.close(from_it)
        self._answers, self._number, self._read = {}, 0, b""
        self.requests, self._loaded = [], set()
        return self

    def __exit__(self, *_):
        with contextlib.suppress(OSError, AssertionError):
            self.tell("Browser.close")
        self._begun.kill()
        self._begun.wait()
        os.close(self._to)
        os.close(self._from)
        self._folder.cleanup()

    def tell(self, method, session=None, **words):
        """What the browser answers to this."""
        self._number += 1
        message = {"id": self._number, "method": method, "params": words}
        if session:
            message["sessionId"] = session
        os.write(self._to, json.dumps(message).encode() + b"\0")
        while self._number not in self._answers:
            self._hear()
        answer = self._answers.pop(self._number)
        if "error" in answer:
            raise AssertionError(f"{method}: {answer['error']}")
        return answer["result"]

    def _hear(self):
        part = os.read(self._from, 1 << 16)
        if not part:
            raise AssertionError("the browser has ended")
        *messages, self._read = (self._read + part).split(b"\0")
        for it in map(json.loads, messages):
            if "id" in it:
                self._answers[it["id"]] = it
            elif it["method"] == "Network.requestWillBeSent":
                self.requests.append(it["params"]["request"]["url"])
            elif it["method"] == "Page.loadEventFired":
                self._loaded.add(it["sessionId"])

    def reload(self, session):
        """Returns when the page is loaded again: before that it answers nothing."""
        self._loaded.discard(session)
        self.tell("Page.reload", session)
        while session not in self._loaded:
            self._hear()

    def page(self, address, width, height, scheme="light"):
        """A page of this size, once it is ready."""
        target = self.tell("Target.createTarget", url="about:blank")["targetId"]
        session = self.tell("Target.attachToTarget", targetId=target, flatten=True)["sessionId"]
        page = Page(self, session)
        for method in ("Page.enable", "Network.enable", "Runtime.enable"):
            page.tell(method)
        page.tell("Emulation.setDeviceMetricsOverride", width=width, height=height, deviceScaleFactor=1, mobile=False)
        page.tell("Emulation.setEmulatedMedia", features=[{"name": "prefers-color-scheme", "value": scheme}])
        page.tell("Page.navigate", url=address)
        page.until(READY)
        return page


class Page:
    def __init__(self, browser, session):
        self._browser, self._session = browser, session

    @property
    def requests(self):
        return self._browser.requests

    def tell(self, method, **words):
        return self._browser.tell(method, self._session, **words)

    def evaluate(self, script):
        """What a script comes to in the page."""
        came = self.tell("Runtime.evaluate", expression=script, awaitPromise=True, returnByValue=True)
        if "exceptionDetails" in came:
            raise AssertionError(f"{script:.200}: {came['exceptionDetails']}")
        return came["result"].get("value")

    def until(self, condition):
        limit = time.monotonic() + SECONDS
        while not self.evaluate(condition):
            if time.monotonic() > limit:
                raise AssertionError(f"it never came to {condition}")
            time.sleep(0.05)

    def settled(self):
        """The page, once nothing runs in it."""
        self.until("document.documentElement.dataset.busy === 'no'")
        return self

    def reload(self):
        self._browser.reload(self._session)
        self.until(READY)

    def text(self, place):
        """The text of an element, by its name."""
        return self.evaluate(f"document.getElementById('{place}').textContent")

    def click(self, place):
        self.evaluate(f"document.getElementById('{place}').click()")

    def type(self, text):
        self.tell("Input.insertText", text=text)

    def press(self, key, control=False):
        words = {"key": key, "code": key, "windowsVirtualKeyCode": KEYS[key], "modifiers": 2 if control else 0}
        for kind in ("rawKeyDown", "keyUp"):
            self.tell("Input.dispatchKeyEvent", type=kind, **words)

    def picture(self, width, height, scale):
        """What is seen of so much of the page, as a PNG."""
        clip = {"x": 0, "y": 0, "width": width, "height": height, "scale": scale}
        return base64.b64decode(self.tell("Page.captureScreenshot", format="png", clip=clip)["data"])
