"""Plays an editor for tests of cool-lsp, and runs `cool check` for comparison."""
import json
import os
import queue
import re
import subprocess
import threading
import time
from pathlib import Path

HERE = Path(__file__).resolve().parent.parent
EXAMPLES = HERE.parent / "examples"
LATER = " (appears once the other errors are fixed)"  # ends the message of an error that the files have only after fixes
WITHIN = 60  # seconds in which the server answers, however busy the machine is
MODULES = set()  # programs in the place of which the server asks their modules (--modules)


class NotTried(Exception):
    """A program or feature that a test needs is missing."""


def expect(what, told, wanted):
    if told != wanted:
        raise AssertionError("%s: %s and not %s" % (what, told, wanted))


class Client:
    def __init__(self, root, program, *words, log=subprocess.DEVNULL, watches=False, command=(HERE / "cool-lsp",), explain="", completes=None):
        call = [*command, *(["--cool", "module" if program in MODULES else program] if program else []), *words]
        environment = {**os.environ, "COOL": "", "COOL_EXPLAIN": explain, "TMPDIR": str(root)}  # so that nothing is left of a server that is killed
        self.server = subprocess.Popen(call, env=environment, stdin=subprocess.PIPE, stdout=subprocess.PIPE, stderr=log)
        self.told, self.versions, self.numbers, self.inbox, self.came = {}, {}, 0, queue.Queue(), None
        threading.Thread(target=self.read, daemon=True).start()
        capabilities = {"workspace": {"didChangeWatchedFiles": {"dynamicRegistration": watches}}, "textDocument": {"completion": {"completionItem": completes}}}
        self.request("initialize", {"processId": os.getpid(), "rootUri": root.as_uri(), "capabilities": capabilities})
        self.notify("initialized", {})

    def read(self):
        while True:
            head = self.server.stdout.readline()
            if not head:
                return self.inbox.put(None)
            self.server.stdout.readline()
            self.inbox.put((time.perf_counter(), json.loads(self.server.stdout.read(int(head.split()[1])))))

    def write(self, data):
        self.server.stdin.write(data)
        self.server.stdin.flush()

    def send(self, message):
        body = json.dumps(message).encode()
        self.write(b"Content-Length: %d\r\n\r\n%s" % (len(body), body))

    def notify(self, method, params):
        self.send({"jsonrpc": "2.0", "method": method, "params": params})

    def request(self, method, params):
        """The whole answer to a request."""
        self.numbers += 1
        self.send({"jsonrpc": "2.0", "id": self.numbers, "method": method, "params": params})
        while True:
            message = self.take()
            if message.get("id") == self.numbers and "method" not in message:
                return message

    def take(self, seconds=WITHIN):
        """The next message; what it tells of a file stands in `told`."""
        try:
            item = self.inbox.get(timeout=seconds)
        except queue.Empty:
            raise AssertionError("the server said nothing for %s seconds" % seconds) from None
        if item is None:
            raise AssertionError("the server ended")
        self.came, message = item
        if message.get("method") == "textDocument/publishDiagnostics":
            params = message["params"]
            self.told[params["uri"]] = params.get("version"), params["diagnostics"]
        return message

    def open(self, path, text):
        """The diagnostics of a file that is opened."""
        uri = path.as_uri()
        self.versions[uri] = 1
        self.notify("textDocument/didOpen", {"textDocument": {"uri": uri, "languageId": "cool", "version": 1, "text": text}})
        return self.wait(uri)

    def change(self, path, text, wait=True):
        uri = path.as_uri()
        self.versions[uri] += 1
        document = {"uri": uri, "version": self.versions[uri]}
        self.notify("textDocument/didChange", {"textDocument": document, "contentChanges": [{"text": text}]})
        return self.wait(uri) if wait else None

    def close(self, path):
        self.notify("textDocument/didClose", {"textDocument": {"uri": path.as_uri()}})
        self.versions.pop(path.as_uri())

    def wait(self, uri):
        """The diagnostics of a file's present version."""
        while self.told.get(uri, (None,))[0] != self.versions[uri]:
            self.take()
        return self.told[uri][1]

    def until(self, what, holds):
        """Takes messages until something holds of what is told."""
        end = time.monotonic() + WITHIN
        while not holds():
            try:
                self.take(max(end - time.monotonic(), 0.01))
            except AssertionError as error:
                raise AssertionError("%s: not told (%s); told: %s" % (what, error, self.told)) from None

    def shown(self, path):
        """The diagnostics of the faults told of a file, without those that it has only after fixes."""
        return [n for n in self.told.get(path.as_uri(), (None, []))[1] if n["severity"] == 1 and not n["message"].endswith(LATER)]

    def later(self, path):
        """The diagnostics of the faults that a file has only after fixes."""
        return [n for n in self.told.get(path.as_uri(), (None, []))[1] if n["message"].endswith(LATER)]

    def faults(self, path):
        """(line, kind, words) of each fault told of a file, without those that it has only after fixes."""
        return [(n["range"]["start"]["line"] + 1, n["code"], said(n)) for n in self.shown(path)]

    def notes(self, path):
        """The other diagnostics of a file."""
        return [n["message"] for n in self.told.get(path.as_uri(), (None, []))[1] if n["severity"] > 1]

    def processes(self):
        """The processes that the server started."""
        return [int(word) for children in Path("/proc/%d/task" % self.server.pid).glob("*/children") for word in children.read_text().split()]

    def sessions(self):
        """Those of them that tell faults."""
        return [process for process in self.processes() if b"\0session\0" in call_of(process)]

    def end(self):
        """Says goodbye, and expects that the server and what it started end."""
        processes = self.processes()
        self.request("shutdown", None)
        self.notify("exit", None)
        expect("status", self.server.wait(timeout=WITHIN), 0)
        ended(processes)


def said(note):
    """The words of a fault as `check` has them: what was found, or the name, stands behind them once it is explained."""
    return re.split(": found |: expected |: \\S+ is compared with |:? `", note["message"])[0]


def call_of(process):
    """The words of a process, or nothing where it has just ended."""
    try:
        return Path("/proc/%d/cmdline" % process).read_bytes()
    except OSError:
        return b""


def ended(processes):
    """Expects that these processes are gone soon."""
    end = time.monotonic() + 10
    while any(os.path.exists("/proc/%d/exe" % process) for process in processes):
        if time.monotonic() > end:
            raise AssertionError("a process is left")
        time.sleep(0.01)


def check(program, paths):
    """The faults by path, as `check` tells them."""
    said = subprocess.run([program, "check", *paths], stderr=subprocess.PIPE).stderr.decode()
    found = {path: [] for path in paths}
    for line in said.splitlines():
        name, place, kind, words = re.fullmatch(r"(.*):(\d+): ([A-Z]\d+): (.*)", line).groups()
        found[Path(name)].append((int(place), kind, words))
    return found


def due(program, paths, room):
    """The same, and where the class Main alone is wanting what is found with one."""
    found = check(program, paths)
    if [fault[1] for faults in found.values() for fault in faults] == ["C6"]:
        stub = room / "stub"
        stub.write_text("class Main { main() : Object { 0 }; };")
        more = check(program, [*paths, stub])
        for path in paths:
            found[path] += more[path]
    return found


def fill(folder, **files):
    """Makes a folder with these files, and answers it."""
    folder.mkdir()
    for name, text in files.items():
        (folder / (name + ".cl")).write_bytes(text if isinstance(text, bytes) else text.encode())
    return folder
