"""Plays an editor for tests of cool-dap: a client of the debug adapter protocol."""
import json
import os
import queue
import shutil
import subprocess
import threading
import time

from .client import HERE, WITHIN, NotTried, expect


class DebugClient:
    def __init__(self, program, command=("node", HERE / "cool-dap"), **environment):
        pipes = dict.fromkeys(("stdin", "stdout", "stderr"), subprocess.PIPE)
        self.adapter = subprocess.Popen(command, env={**os.environ, "COOL": program, **environment}, **pipes)
        self.inbox, self.log, self.number = queue.Queue(), [], 0
        self.events, self.all, self.output, self.said = [], [], "", ""
        self.threads = [threading.Thread(target=it, daemon=True) for it in (self.read, self.read_log)]
        for it in self.threads:
            it.start()

    def read(self):
        while True:
            head = self.adapter.stdout.readline()
            if not head:
                return self.inbox.put(None)
            self.adapter.stdout.readline()
            self.inbox.put(json.loads(self.adapter.stdout.read(int(head.split()[1]))))

    def read_log(self):
        self.log.extend(self.adapter.stderr)

    def send(self, command, **arguments):
        self.number += 1
        body = json.dumps({"seq": self.number, "type": "request", "command": command, "arguments": arguments}).encode()
        self.adapter.stdin.write(b"Content-Length: %d\r\n\r\n%s" % (len(body), body))
        self.adapter.stdin.flush()
        return self.number

    def take(self):
        try:
            message = self.inbox.get(timeout=WITHIN)
        except queue.Empty:
            raise AssertionError("the adapter said nothing for %s seconds; log: %s" % (WITHIN, self.log)) from None
        if message is None:
            raise AssertionError("the adapter ended; log: %s" % self.log)
        if message["type"] == "event":
            if message["event"] == "output":
                text = message["body"]["output"]
                if message["body"]["category"] == "stdout":
                    self.output += text
                else:
                    self.said += text
            self.events.append(message)
            self.all.append(message)
        return message

    def answer(self, command, **arguments):
        """The whole answer to a request."""
        number = self.send(command, **arguments)
        while True:
            message = self.take()
            if message["type"] == "response" and message["request_seq"] == number:
                return message

    def ask(self, command, **arguments):
        """The body of an answer."""
        message = self.answer(command, **arguments)
        if not message["success"]:
            raise AssertionError("%s refused: %s; log: %s" % (command, message.get("message"), self.log))
        return message.get("body")

    def event(self, *names):
        """The body of the next event of one of these names, which is taken away, with all events before it."""
        while True:
            for i, it in enumerate(self.events):
                if it["event"] in names:
                    del self.events[: i + 1]
                    return {"event": it["event"], **it.get("body", {})}
            self.take()

    # Methods that most tests use

    def launch(self, program, lines=(), functions=(), filters=("errors",), **more):
        """Launches a file with breaks at its lines, or at (file, line), and methods, and answers the event of the first stop. A break may be a
        table of what the protocol has."""
        self.ask("initialize", adapterID="cool", linesStartAt1=True, columnsStartAt1=True)
        number = self.send("launch", program=str(program), **more)
        self.event("initialized")
        by_file = {}
        for it in lines:
            file, line = it if isinstance(it, tuple) else (program, it)
            by_file.setdefault(file, []).append(line if isinstance(line, dict) else {"line": line})
        self.set = [self.ask("setBreakpoints", source={"path": str(file)}, breakpoints=its) for file, its in by_file.items()]
        if functions:
            self.set.append(self.ask("setFunctionBreakpoints", breakpoints=[it if isinstance(it, dict) else {"name": it} for it in functions]))
        self.ask("setExceptionBreakpoints", filters=list(filters))
        self.ask("configurationDone")
        self.launched = number
        return self.event("stopped", "terminated")

    def stop(self, command, **more):
        """Moves, and answers the event of the stop, or of the end."""
        self.ask(command, threadId=1, **more)
        return self.event("stopped", "terminated")

    def where(self):
        """(method, line) of the innermost frame."""
        frame = self.ask("stackTrace", threadId=1, startFrame=0, levels=1)["stackFrames"][0]
        return frame["name"], frame["line"]

    def at(self, command, **more):
        """The place after a move, or how the run ended."""
        found = self.stop(command, **more)
        if found["event"] == "terminated":
            return "ended"
        return (*self.where(), found["reason"])

    def stack(self):
        return [(it["name"], it["line"]) for it in self.ask("stackTrace", threadId=1)["stackFrames"]]

    def variables(self, frame=1, scope="Variables"):
        """The variables of a scope of a frame, by name."""
        for it in self.ask("scopes", frameId=frame)["scopes"]:
            if it["name"] == scope:
                return {v["name"]: v["value"] for v in self.ask("variables", variablesReference=it["variablesReference"])["variables"]}
        return {}

    def value(self, name, context="hover", frame=1):
        return self.ask("evaluate", expression=name, frameId=frame, context=context)["result"]

    def end(self):
        """Says goodbye, and expects that nothing is left."""
        self.ask("disconnect")
        status = self.adapter.wait(timeout=WITHIN)
        if status != 0:
            raise AssertionError("status %s; log: %s" % (status, self.log))
        if self.log:
            raise AssertionError("log: %s" % self.log)


def soon(what, seconds=WITHIN):
    end = time.monotonic() + seconds
    while not what():
        if time.monotonic() > end:
            raise AssertionError("not soon")
        time.sleep(0.01)


def begun(room, words, text=None, name="p.cl", **more):
    """A client, and the first stop of a program in a folder of its own."""
    if not shutil.which("node"):
        raise NotTried("node is not installed")
    file = room / "a b é" / name
    file.parent.mkdir(parents=True, exist_ok=True)
    file.write_text(text)
    client = DebugClient(words.cool, TMPDIR=str(kept(room)))
    return client, client.launch(file, **more), file


def kept(room):
    (room / "tmp").mkdir(parents=True, exist_ok=True)
    return room / "tmp"


def done(client, room):
    client.end()
    expect("left in the folder for temporary files", list(kept(room).iterdir()), [])
