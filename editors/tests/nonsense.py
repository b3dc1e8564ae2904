"""Tests servers with an editor that sends invalid messages, invalid requests, and nonsense."""
import random

from .client import Client, expect

HELLO = "class Main { main() : Object { 0 }; };\n"
LARGE = b"Content-Length: 67108865\r\n\r\n" + bytes(67108865)
LINES = [
    (b"\r\n\r\n\n", []),
    (b"hello\r\n\r\n", ["a message without Content-Length was skipped"]),
    (b"Content-Length: -5\r\n\r\n", ["a message without Content-Length was skipped"]),
    (b"Content-Length: many\r\nContent-Type: x\r\n\r\n", ["a message without Content-Length was skipped"]),
    (b"Content-Length: 2\r\n\r\n{}", ["a message without a method was skipped"]),
    (b"Content-Length: 4\r\n\r\nnull", ["a message without a method was skipped"]),
    (b"content-length: 3\r\nContent-Type: x\r\n\r\n[1]", ["a message without a method was skipped"]),
    (b"Content-Length: 5\r\n\r\n{nay}", ["a message that is no JSON was skipped"]),
    (b"Content-Length: 4\r\n\r\n\xff\xfe\x00\x01", ["a message that is no JSON was skipped"]),
    (b"Content-Length: 0\r\n\r\n", ["a message that is no JSON was skipped"]),
    (b"Content-Length: 100000\r\n\r\n" + b"[" * 100000, ["a message that is no JSON was skipped"]),
    (LARGE, ["a message of 67108865 bytes was skipped"]),
    (b'Content-Length: 1\r\n\r\n{"method": "a body that is longer"}', ["a message that is no JSON was skipped"]),
]


def what_is_no_message(room, words):
    with open(room / "log", "wb") as log, open(room / "log") as written:
        client = Client(room, words.cool, log=log)
        for data, said in LINES:
            client.write(data)
            expect("answer after %r" % data[:60], client.request("none", {})["error"]["code"], -32601)
            expect(repr(data[:60]), [line.split(": ")[1] for line in written.read().splitlines()], said)
        client.end()


VALUES = [None, True, -1, 0, 1e300, 2**70, "", "x", "file:///", "file:///\0.cl", "file://[", "http://[::1", "untitled:a", "\ud800", [], {}, [None],
          {"uri": 1}, {"uri": "file:a"}, [[]], {"start": 1}, {"line": -1, "character": 2**40}, {"line": 0, "character": 5}, "class A { };", "ä𝒙\r\n(*", '"\n']
KEYS = ["textDocument", "uri", "text", "version", "contentChanges", "position", "range", "workspaceFolders", "rootUri", "capabilities", "event", "added",
        "removed", "context", "changes", "diagnostics"]
METHODS = ["initialize", "initialized", "workspace/didChangeWatchedFiles", "workspace/didChangeWorkspaceFolders", "$/cancelRequest", "x", ""]
METHODS += ["textDocument/" + name for name in ("didOpen", "didChange", "didClose", "didSave", "hover", "definition", "references")]
METHODS += ["textDocument/" + name for name in ("documentSymbol", "completion", "rename", "codeAction")]
METHODS += ["textDocument/" + name for name in ("documentHighlight", "signatureHelp", "formatting")]


def value(rnd, depth):
    kind = rnd.randrange(6)
    if depth and kind < 2:
        return {rnd.choice(KEYS): value(rnd, depth - 1) for _ in range(rnd.randrange(4))}
    if depth and kind == 2:
        return [value(rnd, depth - 1) for _ in range(rnd.randrange(3))]
    return rnd.choice(VALUES)


def document(rnd, room):
    """A document that is nearly right."""
    uri = rnd.choice([(room / "a.cl").as_uri(), (room / "b" / "é.cl").as_uri(), "file:///%ff.cl", rnd.choice(VALUES)])
    text = rnd.choice([HELLO, HELLO[: rnd.randrange(len(HELLO))], rnd.choice(VALUES)])
    place = {"line": rnd.randrange(3), "character": rnd.randrange(60)}
    named = {"uri": uri, "version": rnd.randrange(9), "text": text}
    more = {"range": {"start": place, "end": place}, "context": {"diagnostics": rnd.choice(VALUES), "includeDeclaration": True}}
    return {"textDocument": named, "contentChanges": [{"text": text}], "position": place, "newName": rnd.choice(["New", text]), **more}


def random_message(rnd, room, number):
    message = {"jsonrpc": "2.0", "method": rnd.choice(METHODS), "params": rnd.choice([document(rnd, room), value(rnd, 4)])}
    if rnd.random() < 0.3:
        message["id"] = rnd.choice(["r%d" % number, 10**6 + number])
    if rnd.random() < 0.1:
        message.pop(rnd.choice(list(message)))
    return value(rnd, 3) if rnd.random() < 0.1 else message


def random_messages(room, words):
    """The server answers each request once, and tells the faults of a file after all of them."""
    rnd, due = random.Random(words.seed), []
    (room / "a.cl").write_text(HELLO)
    client, answers = Client(room, words.cool), []
    for number in range(words.messages):
        message = random_message(rnd, room, number)
        if isinstance(message, dict) and "id" in message and "method" in message:
            due.append(message["id"])
        client.send(message)
        while not client.inbox.empty():
            answers.append(client.take())
    client.numbers = 10**9
    client.notify("workspace/didChangeWorkspaceFolders", {"event": {"added": [{"uri": room.as_uri()}]}})
    client.notify("textDocument/didOpen", {"textDocument": {"uri": (room / "z.cl").as_uri(), "version": 1234, "text": "class Z { x : Int <- true; };"}})
    while client.told.get((room / "z.cl").as_uri(), (None,))[0] != 1234 or sum("method" not in answer for answer in answers) < len(due):
        answers.append(client.take())
    expect("answers", sorted(str(answer["id"]) for answer in answers if "method" not in answer), sorted(map(str, due)))
    expect("faults", client.faults(room / "z.cl"), [(1, "E17", "initial value does not conform")])
    client.end()
    return "%d messages, %d of them requests" % (words.messages, len(due))


TESTS = [what_is_no_message, random_messages]
