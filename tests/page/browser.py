"""A headless browser with one page, and Chromium by the DevTools protocol over a pipe."""
import base64
import json
import os
import select
import shutil
import subprocess
import tempfile
import time
from contextlib import AbstractContextManager
from typing import Any, Dict, List, Optional, Sequence

from harness import SECONDS, same, text_of, wait_for

MIDDLE = "(r => [r.x + r.width / 2, r.y + r.height / 2])(document.querySelector(%s).getBoundingClientRect())"


class Browser(AbstractContextManager):
    """What the browsers have in common. Each shows an address, evaluates code, presses keys, clicks and chooses files in its own
    way. `errors` are what the page has said of faults of its own."""

    NAMES: Sequence[str] = ()

    def __init__(self) -> None:
        self.count = 0
        self.errors: List[str] = []

    @classmethod
    def find(cls) -> Optional[str]:
        """The browser on the path, if there is one."""
        return next(filter(None, map(shutil.which, cls.NAMES)), None)

    def __exit__(self, *_: object) -> None:
        self.close()

    def open(self, path: str, width: int = 1280, height: int = 800, dark: bool = False, after: str = "") -> None:
        """Opens a file in a window of this size and theme, with this after the `#` of its address."""
        self.show(f"file://{os.path.abspath(path)}{after and '#'}{after}", width, height, dark)
        self.js(text_of("tests/page/looking.js"))
        self.settle()

    def until(self, condition: str) -> None:
        """Waits until a condition of the page holds, and what is then done is drawn."""
        wait_for(lambda: self.js(condition), condition)
        self.settle()

    def settle(self) -> None:
        """Waits until what was done is drawn."""
        self.js("new Promise(done => requestAnimationFrame(() => requestAnimationFrame(() => setTimeout(done, 20))))")

    def key(self, *keys: str) -> None:
        for key in keys:
            self.press(key)
            self.settle()

    def holds(self, wanted: Any, code: str, *keys: str) -> None:
        """Presses keys, and then fails the test unless an expression of the page has a value."""
        if keys:
            self.key(*keys)
        found = self.js(code)
        same(list(wanted) if isinstance(wanted, tuple) else wanted, found, f"{code} after {keys}" if keys else code)

    def type(self, text: str) -> None:
        """Puts a text in where the cursor is, at once."""
        self.js(f"document.execCommand('insertText', false, {json.dumps(text)})")

    def click(self, selector: str) -> None:
        """Clicks on the middle of the first element of a selector."""
        self.click_at(*self.js(MIDDLE % json.dumps(selector)))
        self.settle()

    def go(self, address: str) -> None:
        self.js(f"location.hash = {json.dumps(address)}")
        self.settle()

    def choose_files(self, paths: List[str]) -> None:
        """Chooses files as a user does by the button."""
        self.give_files(paths)
        self.settle(), time.sleep(0.1), self.settle()

    def drop(self, files: Dict[str, bytes]) -> None:
        """Drops files on the page."""
        self.js(f"looking.drop({json.dumps([[name, base64.b64encode(data).decode()] for name, data in files.items()])})")

    def open_files(self, *paths: str) -> None:
        """Chooses files, and waits until the page of histories has read them."""
        before = self.js("app.sources.length")
        self.choose_files(list(paths))
        self.until(f"app.sources.length >= {before + len(paths)}")


class Chromium(Browser):
    """Chromium. Its protocol is JSON texts, each ended by a zero byte, on handles 3 and 4."""

    NAMES = ("chromium", "chromium-browser", "google-chrome", "google-chrome-stable", "chrome")
    WORDS = ("--headless=new", "--no-sandbox", "--disable-gpu", "--no-first-run", "--disable-dev-shm-usage", "--hide-scrollbars=false",
             "--remote-debugging-pipe", "--force-device-scale-factor=1", "about:blank")

    def __init__(self, program: str) -> None:
        super().__init__()
        to_read, self.to = os.pipe()
        self.back, back_write = os.pipe()
        self.folder = tempfile.mkdtemp(prefix="page-chromium-")

        def handles() -> None:
            # the two ends may be 3 or 4 themselves, so each gets a high number first
            os.dup2(to_read, 100), os.dup2(back_write, 101)
            os.dup2(100, 3), os.dup2(101, 4)

        self.process = subprocess.Popen([program, f"--user-data-dir={self.folder}", *self.WORDS], preexec_fn=handles, close_fds=False,
                                        stdin=subprocess.DEVNULL, stdout=subprocess.DEVNULL, stderr=subprocess.DEVNULL)
        os.close(to_read), os.close(back_write)
        self.buffer, self.session = b"", None
        target = self.call("Target.createTarget", url="about:blank")["targetId"]
        self.session = self.call("Target.attachToTarget", targetId=target, flatten=True)["sessionId"]
        for domain in ("Page", "Runtime", "Log"):
            self.call(domain + ".enable")

    def receive(self) -> dict:
        while b"\0" not in self.buffer:
            if not select.select([self.back], [], [], SECONDS)[0]:
                raise RuntimeError(f"no answer in {SECONDS} seconds")
            piece = os.read(self.back, 1 << 20)
            if not piece:
                raise RuntimeError("the browser has ended")
            self.buffer += piece
        text, self.buffer = self.buffer.split(b"\0", 1)
        return json.loads(text)

    def call(self, method: str, **parameters: Any) -> dict:
        """The answer to a call of the protocol. What the page says of faults meanwhile is kept."""
        self.count += 1
        message = {"id": self.count, "method": method, "params": parameters, **({"sessionId": self.session} if self.session else {})}
        data = json.dumps(message).encode() + b"\0"
        while data:
            data = data[os.write(self.to, data):]
        while True:
            reply = self.receive()
            if reply.get("id") == self.count:
                if "error" in reply:
                    raise RuntimeError(reply["error"])
                return reply["result"]
            if reply.get("method") == "Runtime.exceptionThrown":
                self.errors.append(reply["params"]["exceptionDetails"].get("exception", {}).get("description", "?"))
            if reply.get("method") == "Log.entryAdded" and reply["params"]["entry"]["level"] == "error":
                self.errors.append(reply["params"]["entry"]["text"])

    def js(self, code: str) -> Any:
        """The value of an expression, of a promise what it comes to."""
        result = self.call("Runtime.evaluate", expression=code, returnByValue=True, awaitPromise=True)
        if "exceptionDetails" in result:
            raise RuntimeError(result["exceptionDetails"]["exception"].get("description"))
        return result["result"].get("value")

    def show(self, url: str, width: int, height: int, dark: bool) -> None:
        self.call("Emulation.setDeviceMetricsOverride", width=width, height=height, deviceScaleFactor=1, mobile=False)
        self.call("Emulation.setEmulatedMedia", features=[{"name": "prefers-color-scheme", "value": "dark" if dark else "light"}])
        self.call("Page.navigate", url="about:blank")
        self.call("Page.navigate", url=url)
        self.until("location.protocol === 'file:' && document.readyState === 'complete'")

    def press(self, key: str, with_control: bool = False) -> None:
        text = "" if with_control else key if len(key) == 1 else "\r" if key == "Enter" else ""
        how = {"key": key, "modifiers": 2 * with_control, "windowsVirtualKeyCode": {"Enter": 13, "Escape": 27, "Tab": 9}.get(key, 0)}
        self.call("Input.dispatchKeyEvent", type="keyDown", text=text, **how)
        self.call("Input.dispatchKeyEvent", type="keyUp", **how)

    def click_at(self, x: float, y: float) -> None:
        for kind in ("mousePressed", "mouseReleased"):
            self.call("Input.dispatchMouseEvent", type=kind, x=x, y=y, button="left", clickCount=1)

    def give_files(self, paths: List[str]) -> None:
        root = self.call("DOM.getDocument")["root"]["nodeId"]
        node = self.call("DOM.querySelector", nodeId=root, selector="#file")["nodeId"]
        self.call("DOM.setFileInputFiles", nodeId=node, files=paths)

    def close(self) -> None:
        try:
            self.call("Browser.close")
        except (RuntimeError, OSError):
            self.process.kill()
        self.process.wait(10)
        for handle in (self.to, self.back):
            os.close(handle)
        shutil.rmtree(self.folder, ignore_errors=True)
