"""Chromium without a window and with a fresh profile, over a pipe (the DevTools protocol). What a page's script throws is raised as Failed."""
import base64
import json
import os
import select
import subprocess
import tempfile
import time

from browser import Failed, cleared


class Chromium:
    """Messages are JSON and end with a byte 0; the browser reads them from its file 3 and writes them to its file 4."""

    NAMES = ("chromium", "chromium-browser", "google-chrome")

    def __init__(self, command, width=1280, height=800):
        self.profile = tempfile.mkdtemp(prefix="cool-web-")
        reads, self.out = os.pipe()
        self.into, writes = os.pipe()
        words = [command, "--headless=new", "--no-sandbox", "--disable-gpu", "--remote-debugging-pipe", f"--user-data-dir={self.profile}",
                 f"--window-size={width},{height}", "--no-first-run", "--disable-background-networking", "about:blank"]
        self.process = subprocess.Popen(["sh", "-c", f'exec 3<&{reads} 4>&{writes}; exec "$@"', "sh", *words], pass_fds=(reads, writes),
                                        stdout=subprocess.DEVNULL, stderr=subprocess.DEVNULL, start_new_session=True)
        os.close(reads)
        os.close(writes)
        self.held, self.number, self.session, self.complaints = b"", 0, None, []

    def begin(self):
        target = self.call("Target.createTarget", url="about:blank")["targetId"]
        self.session = self.call("Target.attachToTarget", targetId=target, flatten=True)["sessionId"]
        for it in "Page", "Runtime", "Log":
            self.call(f"{it}.enable")
        self.version = self.call("Browser.getVersion", session=None)["product"]

    def read(self, until):
        while b"\0" not in self.held:
            if not select.select([self.into], [], [], max(0, until - time.monotonic()))[0]:
                raise Failed("the browser does not answer")
            part = os.read(self.into, 1 << 20)
            if not part:
                raise Failed("the browser ended")
            self.held += part
        line, _, self.held = self.held.partition(b"\0")
        message = json.loads(line)
        self.hear(message.get("method"), message.get("params"))
        return message

    def hear(self, method, told):
        """Keeps what a script of the page threw and nobody caught, and what the browser complains of."""
        if method == "Runtime.exceptionThrown":
            thrown = told["exceptionDetails"]
            self.complaints.append(thrown.get("exception", {}).get("description", thrown["text"]))
        if method == "Log.entryAdded" and told["entry"]["level"] == "error":
            self.complaints.append(told["entry"]["text"])

    def call(self, method, session=True, within=30, **parameters):
        self.number += 1
        message = {"id": self.number, "method": method, "params": parameters}
        if session and self.session:
            message["sessionId"] = self.session
        os.write(self.out, json.dumps(message).encode() + b"\0")
        until = time.monotonic() + within
        while True:
            answer = self.read(until)
            if answer.get("id") == self.number:
                if "error" in answer:
                    raise Failed(answer["error"]["message"])
                return answer["result"]

    def open(self, address, first=""):
        """Loads the page, after the script `first` in it."""
        self.call("Page.navigate", url="about:blank")
        added = self.call("Page.addScriptToEvaluateOnNewDocument", source=first)["identifier"]
        self.call("Page.navigate", url=address)
        self.run("if (document.readyState !== 'complete') await new Promise((answer) => addEventListener('load', answer));")
        self.call("Page.removeScriptToEvaluateOnNewDocument", identifier=added)

    def run(self, script, within=30):
        """Runs the body of an asynchronous function in the page and answers its result."""
        source = f"(async () => {{ {script} }})()"
        got = self.call("Runtime.evaluate", within=within, expression=source, awaitPromise=True, returnByValue=True)
        if "exceptionDetails" in got:
            thrown = got["exceptionDetails"]
            raise Failed(thrown.get("exception", {}).get("description", thrown["text"]))
        return got["result"].get("value")

    def press(self, key, code=0, modifiers=0, text=None):
        """A real key, with Ctrl where modifiers is 2 and Shift where it is 8."""
        more = {"text": text} if text else {}
        for kind in ("keyDown", "keyUp"):
            self.call("Input.dispatchKeyEvent", type=kind, key=key, code=key, windowsVirtualKeyCode=code, modifiers=modifiers, **more)

    def insert(self, letters):
        self.call("Input.insertText", text=letters)

    def choose(self, field, files):
        """Chooses files for a field of the page."""
        root = self.call("DOM.getDocument")["root"]["nodeId"]
        node = self.call("DOM.querySelector", nodeId=root, selector=field)["nodeId"]
        self.call("DOM.setFileInputFiles", nodeId=node, files=files)

    def tree(self):
        """The tree of a screen reader: pairs of a role and a name."""
        nodes = self.call("Accessibility.getFullAXTree")["nodes"]
        return [(it["role"]["value"], it.get("name", {}).get("value")) for it in nodes if not it["ignored"] and "role" in it]

    def downloads(self, folder):
        self.call("Browser.setDownloadBehavior", session=None, behavior="allow", downloadPath=folder)

    def size(self, width, height, dark=False, phone=False):
        self.call("Emulation.setDeviceMetricsOverride", width=width, height=height, deviceScaleFactor=1, mobile=phone)
        self.call("Emulation.setEmulatedMedia", features=[{"name": "prefers-color-scheme", "value": "dark" if dark else "light"}])

    def picture(self, file):
        with open(file, "wb") as out:
            out.write(base64.b64decode(self.call("Page.captureScreenshot", format="png")["data"]))

    def close(self):
        try:
            self.call("Browser.close", session=None, within=5)
            self.process.wait(timeout=10)
        except (Failed, OSError, AttributeError, subprocess.TimeoutExpired):
            self.process.kill()
        cleared(self.profile)
