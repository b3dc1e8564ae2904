"""Firefox without a window and with a fresh profile, over a web socket (WebDriver BiDi). It answers to the calls of chromium.py; what it cannot do
is Missing."""
import base64
import json
import os
import pathlib
import socket
import struct
import subprocess
import tempfile
import time

from browser import SLOW_START, Failed, Missing, cleared

KEYS = {"Enter": "\ue007", "Tab": "\ue004", "Escape": "\ue00c", "ArrowRight": "\ue014"}
HELD = {2: ["\ue009"], 8: ["\ue008"]}


class Socket:
    """The side of a web socket that the standard library does not have: text, in frames that are masked on the way out."""

    def __init__(self, port, path):
        self.stream = socket.create_connection(("127.0.0.1", port))
        self.held = b""
        key = base64.b64encode(os.urandom(16)).decode()
        self.stream.sendall(f"GET {path} HTTP/1.1\r\nHost: 127.0.0.1:{port}\r\nUpgrade: websocket\r\nConnection: Upgrade\r\n"
                            f"Sec-WebSocket-Key: {key}\r\nSec-WebSocket-Version: 13\r\n\r\n".encode())
        while b"\r\n\r\n" not in self.held:
            self.held += self.stream.recv(4096)
        head, _, self.held = self.held.partition(b"\r\n\r\n")
        if b" 101 " not in head:
            raise Failed(head.decode())

    def send(self, text):
        body, mask = text.encode(), os.urandom(4)
        size = len(body)
        form, short = ("!BB", size) if size < 126 else ("!BBH", 126) if size < 65536 else ("!BBQ", 127)
        head = struct.pack(form, 0x81, 0x80 | short, *([] if size < 126 else [size]))
        self.stream.sendall(head + mask + bytes(it ^ mask[i % 4] for i, it in enumerate(body)))

    def take(self, count):
        while len(self.held) < count:
            part = self.stream.recv(1 << 20)
            if not part:
                raise Failed("the browser ended")
            self.held += part
        taken, self.held = self.held[:count], self.held[count:]
        return taken

    def read(self, within):
        self.stream.settimeout(within)
        text, last = b"", False
        while not last:
            first, length = self.take(2)
            last = first & 0x80 != 0
            if length == 126:
                length, = struct.unpack("!H", self.take(2))
            elif length == 127:
                length, = struct.unpack("!Q", self.take(8))
            text += self.take(length)
        return json.loads(text)


class Firefox:
    NAMES = ("firefox-esr", "firefox")

    def __init__(self, command, width=1280, height=800):
        self.profile = tempfile.mkdtemp(prefix="cool-web-")
        words = [command, "--headless", "--remote-debugging-port=0", "--profile", self.profile]
        size = {"MOZ_HEADLESS_WIDTH": str(width), "MOZ_HEADLESS_HEIGHT": str(height)}
        self.process = subprocess.Popen(words, stdout=subprocess.DEVNULL, stderr=subprocess.DEVNULL, env={**os.environ, "HOME": self.profile, **size})
        self.number, self.complaints = 0, []

    def begin(self):
        told = pathlib.Path(self.profile, "WebDriverBiDiServer.json")
        until = time.monotonic() + SLOW_START
        while not told.exists() or not told.read_text():
            if time.monotonic() > until:
                raise Failed("the browser does not answer")
            time.sleep(0.1)
        self.socket = Socket(json.loads(told.read_text())["ws_port"], "/session")
        self.version = "Firefox/" + self.call("session.new", within=SLOW_START, capabilities={})["capabilities"]["browserVersion"]
        self.context = {"context": self.call("browsingContext.getTree", within=SLOW_START)["contexts"][0]["context"]}
        self.call("session.subscribe", events=["log.entryAdded"])

    def call(self, method, within=30, **parameters):
        self.number += 1
        self.socket.send(json.dumps({"id": self.number, "method": method, "params": parameters}))
        while True:
            try:
                answer = self.socket.read(within)
            except TimeoutError:
                raise Failed("the browser does not answer") from None
            if answer.get("method") == "log.entryAdded" and answer["params"]["level"] == "error":
                self.complaints.append(answer["params"]["text"])
            if answer.get("id") == self.number:
                if answer["type"] == "error":
                    raise Failed(answer["message"])
                return answer["result"]

    def open(self, address, first=""):
        added = self.call("script.addPreloadScript", functionDeclaration=f"() => {{ {first} }}")
        self.call("browsingContext.navigate", url="about:blank", wait="complete", **self.context)
        self.call("browsingContext.navigate", url=address, wait="complete", **self.context)
        self.call("script.removePreloadScript", **added)

    def run(self, script, within=30):
        """Runs the body of an asynchronous function in the page and answers its result."""
        source = f"(async () => {{ {script} }})().then((it) => JSON.stringify(it ?? null))"
        got = self.call("script.evaluate", within=within, expression=source, target=self.context, awaitPromise=True)
        if got["type"] == "exception":
            raise Failed(got["exceptionDetails"]["text"])
        return json.loads(got["result"]["value"])

    def keys(self, values):
        self.call("input.performActions", actions=[{"type": "key", "id": "keyboard", "actions": values}], **self.context)

    def press(self, key, code=0, modifiers=0, text=None):
        values = [*HELD.get(modifiers, []), KEYS.get(key, key)]
        self.keys([{"type": "keyDown", "value": it} for it in values] + [{"type": "keyUp", "value": it} for it in reversed(values)])

    def insert(self, letters):
        self.keys([{"type": kind, "value": it} for it in letters for kind in ("keyDown", "keyUp")])

    def choose(self, field, files):
        found = self.call("browsingContext.locateNodes", locator={"type": "css", "value": field}, **self.context)["nodes"][0]
        self.call("input.setFiles", element={"sharedId": found["sharedId"]}, files=files, **self.context)

    def downloads(self, folder):
        self.call("browser.setDownloadBehavior", downloadBehavior={"type": "allowed", "destinationFolder": folder})

    def tree(self):
        raise Missing("no tree of what a screen reader is told")

    def size(self, width, height, dark=False, phone=False):
        if dark:
            raise Missing("no dark")
        self.call("browsingContext.setViewport", viewport={"width": width, "height": height}, **self.context)

    def picture(self, file):
        with open(file, "wb") as out:
            out.write(base64.b64decode(self.call("browsingContext.captureScreenshot", **self.context)["data"]))

    def close(self):
        try:
            self.call("browser.close", within=5)
            self.process.wait(timeout=10)
        except (Failed, OSError, AttributeError, subprocess.TimeoutExpired):
            self.process.kill()
        cleared(self.profile)
