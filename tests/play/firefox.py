"""Headless Firefox by WebDriver BiDi: JSON texts over a WebSocket of this machine."""
import base64
import json
import os
import re
import shutil
import socket
import struct
import subprocess
import tempfile
from typing import Any, List

from browser import Browser
from harness import SECONDS, bytes_of, hold, wait_for

PREFERENCES = {"remote.active-protocols": 1, "browser.shell.checkDefaultBrowser": False, "datareporting.policy.dataSubmissionEnabled": False,
               "toolkit.telemetry.reportingpolicy.firstRun": False, "app.update.enabled": False, "browser.startup.page": 0,
               "network.captive-portal-service.enabled": False, "network.connectivity-service.enabled": False,
               "browser.safebrowsing.update.enabled": False, "extensions.systemAddon.update.enabled": False,
               "app.normandy.enabled": False, "browser.download.folderList": 2, "browser.download.useDownloadDir": True,
               "accessibility.tabfocus": 7}
# The keys with a number instead of a letter, by the names that a page gets.
KEYS = {"Enter": "\ue007", "Escape": "\ue00c", "Tab": "\ue004", "Home": "\ue011", "End": "\ue010", "Control": "\ue009"}


class Socket:
    """A WebSocket of a client, for texts."""

    def __init__(self, port: int, path: str) -> None:
        self.stream = socket.create_connection(("127.0.0.1", port), SECONDS)
        self.reader = self.stream.makefile("rb")
        key = base64.b64encode(os.urandom(16)).decode()
        self.stream.sendall(f"GET {path} HTTP/1.1\r\nHost: 127.0.0.1:{port}\r\nUpgrade: websocket\r\nConnection: Upgrade\r\n"
                            f"Sec-WebSocket-Key: {key}\r\nSec-WebSocket-Version: 13\r\n\r\n".encode())
        head = list(iter(self.reader.readline, b"\r\n"))
        hold(b" 101 " in head[0], f"no WebSocket: {head}")

    def take(self, count: int) -> bytes:
        taken = self.reader.read(count)
        if len(taken) < count:
            raise RuntimeError("the browser has ended")
        return taken

    def send(self, data: bytes, kind: int = 1) -> None:
        size = len(data)
        head = bytes([0x80 | kind]) + (bytes([0x80 | size]) if size < 126 else struct.pack(">BH", 0xfe, size) if size < 1 << 16
                                       else struct.pack(">BQ", 0xff, size))
        mask, whole = b"play", int.from_bytes(data, "big")  # (Firefox takes no mask of zeros)
        self.stream.sendall(head + mask + (whole ^ int.from_bytes((mask * (size // 4 + 1))[:size], "big")).to_bytes(size, "big"))

    def receive(self) -> bytes:
        text = b""
        while True:
            first, second = self.take(2)
            size = second & 0x7f
            if size >= 126:
                size = int.from_bytes(self.take(2 if size == 126 else 8), "big")
            piece, kind = self.take(size), first & 0x0f
            if kind == 9:
                self.send(piece, 10)
            if kind == 8:
                raise RuntimeError("the browser has ended")
            if kind < 3:
                text += piece
                if first & 0x80:
                    return text


def plain(value: dict) -> Any:
    """A value as WebDriver BiDi writes it, as JSON would have it."""
    kind, inside = value["type"], value.get("value")
    if kind in ("array", "nodelist", "htmlcollection"):
        return [plain(it) for it in inside or []]
    if kind == "object":
        return {key: plain(it) for key, it in inside or []}
    return inside if kind in ("string", "boolean") or kind == "number" and not isinstance(inside, str) else None


class Firefox(Browser):
    """Firefox, which is started again for another theme."""

    NAMES = ("firefox-esr", "firefox")

    def __init__(self, program: str) -> None:
        super().__init__()
        self.program = program
        self.start(False)

    def start(self, dark: bool) -> None:
        """Starts the browser with a theme, and opens a page in it."""
        self.folder, self.dark, self.count = tempfile.mkdtemp(prefix="page-firefox-"), dark, 0
        themes = {"layout.css.prefers-color-scheme.content-override": 0 if dark else 1, "browser.download.dir": self.folder}
        with open(os.path.join(self.folder, "user.js"), "w", encoding="ascii") as file:
            file.write("".join(f"user_pref({json.dumps(name)}, {json.dumps(value)});\n" for name, value in {**PREFERENCES, **themes}.items()))
        words = [self.program, "--headless", "--no-remote", "--profile", self.folder, "--remote-debugging-port", "0", "about:blank"]
        room = {**os.environ, "HOME": self.folder, "MOZ_HEADLESS": "1", "MOZ_DISABLE_AUTO_SAFE_MODE": "1"}
        self.told = open(os.path.join(self.folder, "told"), "w+", encoding="utf-8", errors="replace")
        self.process = subprocess.Popen(words, env=room, stdin=subprocess.DEVNULL, stdout=self.told, stderr=self.told)
        self.socket = Socket(self.port(), "/session")
        self.call("session.new", capabilities={})
        self.page = self.call("browsingContext.getTree")["contexts"][0]["context"]
        self.call("session.subscribe", events=["log.entryAdded"])

    def port(self) -> int:
        """The port on which the browser listens, by what it prints."""
        said = lambda: re.search(rb"WebDriver BiDi listening on ws://[\w.]+:(\d+)", bytes_of(self.told.name))
        wait_for(lambda: said() or self.process.poll() is not None, "Firefox listens")
        return int(said()[1])

    def call(self, method: str, **parameters: Any) -> dict:
        """The answer to a command. What the page says of faults meanwhile is kept."""
        self.count += 1
        self.socket.send(json.dumps({"id": self.count, "method": method, "params": parameters}).encode())
        while True:
            reply = json.loads(self.socket.receive())
            if reply.get("id") == self.count:
                if reply["type"] == "error":
                    raise RuntimeError(f"{method}: {reply['error']}: {reply['message']}")
                return reply["result"]
            if reply.get("method") == "log.entryAdded" and reply["params"]["level"] == "error":
                self.errors.append(reply["params"]["text"])

    def on_page(self, method: str, **parameters: Any) -> dict:
        return self.call(method, context=self.page, **parameters)

    def js(self, code: str) -> Any:
        found = self.call("script.evaluate", expression=code, target={"context": self.page}, awaitPromise=True, userActivation=True)
        if found["type"] == "exception":
            raise RuntimeError(found["exceptionDetails"]["text"])
        return plain(found["result"])

    def show(self, url: str, width: int, height: int, dark: bool) -> None:
        if dark != self.dark:
            self.close(), self.start(dark)
        self.on_page("browsingContext.setViewport", viewport={"width": width, "height": height})
        for it in ("about:blank", url):
            self.on_page("browsingContext.navigate", url=it, wait="complete")

    def perform(self, kind: str, steps: List[dict]) -> None:
        """Does what a user does with keys or with a pointer."""
        self.on_page("input.performActions", actions=[{"type": kind, "id": kind, "actions": steps}])

    def press(self, key: str, with_control: bool = False) -> None:
        values = [KEYS["Control"]] * with_control + [KEYS.get(key, key)]
        self.perform("key", [{"type": "keyDown", "value": it} for it in values] + [{"type": "keyUp", "value": it} for it in values[::-1]])

    def click_at(self, x: float, y: float) -> None:
        self.perform("pointer", [{"type": "pointerMove", "x": int(x), "y": int(y)}, {"type": "pointerDown", "button": 0},
                                 {"type": "pointerUp", "button": 0}])

    def give_files(self, paths: List[str]) -> None:
        found = self.on_page("browsingContext.locateNodes", locator={"type": "css", "value": "#file"})["nodes"][0]
        self.on_page("input.setFiles", element={"sharedId": found["sharedId"]}, files=paths)

    def close(self) -> None:
        try:
            self.call("browser.close")
            self.process.wait(20)
        except (RuntimeError, OSError, subprocess.TimeoutExpired):
            self.process.kill()
            self.process.wait(20)
        self.socket.stream.close(), self.told.close()
        shutil.rmtree(self.folder, ignore_errors=True)
