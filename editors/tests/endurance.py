"""Tests servers with a program that dies, hangs, writes nonsense or is missing, and an editor that goes away: a message is reported, and no server dies."""
import os
import shutil
import signal
import subprocess
import time

from .client import HERE, MODULES, WITHIN, Client, ended, expect, NotTried, said

FAULTY = "class Main { x : Int <- true; main() : Object { 0 }; };\n"
FAULT = [(1, "E17", "initial value does not conform")]


def script(path, text):
    path.write_text("#!/bin/sh\n" + text)
    path.chmod(0o755)
    return str(path)


def told_by(room, program, *words):
    """The diagnostics of a file with this program. The server answers while the program does not, and leaves no process."""
    client = Client(room, program, *words)
    client.notify("textDocument/didOpen", {"textDocument": {"uri": (room / "a.cl").as_uri(), "languageId": "cool", "version": 1, "text": FAULTY}})
    client.versions[(room / "a.cl").as_uri()] = 1
    began = time.monotonic()
    expect("answer", client.request("none", {})["error"]["code"], -32601)
    expect("answer at once", time.monotonic() - began < 1.8, True)
    client.wait((room / "a.cl").as_uri())
    client.end()
    return client.notes(room / "a.cl")


def a_program_that_is_none(room, words):
    expect("missing", told_by(room, "/nowhere/cool"), ["not checked: /nowhere/cool does not start: no such file or directory"])
    expect("dies", told_by(room, "/bin/false"), ["not checked: cool ended with status 1"])
    expect("dies, and says why", told_by(room, script(room / "dies", "echo no memory >&2; exit 9")), ["not checked: cool ended with status 9: no memory"])
    expect("hangs", told_by(room, script(room / "hangs", "sleep 1000"), "--seconds", "2"), ["not checked: cool did not reply within 2 seconds"])
    nonsense = script(room / "nonsense", "while echo faults 1, typed; do :; done 2>/dev/null")
    expect("nonsense", told_by(room, nonsense), ["not checked: cool ended with status -9"])
    endless = told_by(room, script(room / "endless", "exec cat /dev/zero"))
    expect("endless", endless[0].startswith("not checked: cool ended with status -"), True)


def no_program_at_all(room, words):
    """A copy of the server that stands in no repository, with no `cool` on PATH."""
    server = copy_of_the_server(room)
    (room / "bin").mkdir()
    for tool in ("env", "node"):
        (room / "bin" / tool).symlink_to(shutil.which(tool))
    opened = b'{"jsonrpc":"2.0","method":"textDocument/didOpen","params":{"textDocument":{"uri":"file:///a.cl","version":1,"text":""}}}'
    pipes = {"stdin": subprocess.PIPE, "stdout": subprocess.PIPE, "stderr": subprocess.DEVNULL}
    server = subprocess.Popen([server], env={"PATH": str(room / "bin")}, **pipes)
    server.stdin.write(b"Content-Length: %d\r\n\r\n%s" % (len(opened), opened))
    server.stdin.flush()
    size = int(server.stdout.readline().split()[1])
    server.stdout.readline()
    said = server.stdout.read(size).decode()
    expect("told", "not checked: there is no program `cool`: install it by ./install" in said, True)
    server.stdin.close()
    expect("status", server.wait(timeout=WITHIN), 1)


def copy_of_the_server(room):
    """The command of a copy that stands in no repository."""
    for rooms in ("cool_lsp", "node"):
        shutil.copytree(HERE / rooms, room / "editors" / rooms)
    shutil.copytree(HERE.parent / "web" / "logic", room / "web" / "logic")
    shutil.copy(HERE / "cool-lsp", room / "editors")
    return room / "editors" / "cool-lsp"


def the_program_is_found(room, words):
    """The one of the repository where the server stands in one, or the one installed beside it; and what the repository says where it has none."""
    server = copy_of_the_server(room)

    def told(*words):
        client = Client(room, None, *words, command=(server,))
        notes = client.open(room / "a.cl", FAULTY)
        client.end()
        return [said(found) for found in notes]

    (room / "cool").symlink_to(words.cool)
    expect("installed", told(), [FAULT[0][2]])
    (room / "release").mkdir()
    script(room / "release" / "program", "echo '%s'" % words.cool)
    expect("repository", told(), [FAULT[0][2]])
    script(room / "release" / "program", "[ $COOL_BUILD = no ] && echo first line >&2; echo cool: nothing here >&2; exit 125")
    expect("none", told(), ["not checked: cool: nothing here"])
    script(room / "release" / "program", "sleep 1000")
    expect("hangs", told("--seconds", "1"), ["not checked: %s did not end within 1 seconds: call ./cool once" % (room / "release" / "program")])


def a_session_that_ends(room, words):
    """It is started again, and where it hangs it is killed."""
    if words.cool in MODULES:
        raise NotTried("a session by modules is no process")
    client = Client(room, words.cool, "--seconds", "1")
    client.open(room / "a.cl", FAULTY)
    for kind in (signal.SIGKILL, signal.SIGTERM):
        old = client.sessions()
        os.kill(old[0], kind)
        client.change(room / "a.cl", "-- %s\n" % kind + FAULTY)
        expect("told", said(client.told[(room / "a.cl").as_uri()][1][0]), FAULT[0][2])
        expect("another", client.sessions() == old, False)
    os.kill(client.sessions()[0], signal.SIGSTOP)
    client.change(room / "a.cl", FAULTY)
    expect("hangs", client.notes(room / "a.cl"), ["not checked: cool did not reply within 1 seconds"])
    client.change(room / "a.cl", FAULTY + " ")
    expect("told", (client.faults(room / "a.cl"), client.notes(room / "a.cl")), (FAULT, []))
    client.end()


def an_editor_that_goes(room, words):
    """However it goes, the server ends, and the session with it."""
    for how in ("closes the input", "kills the server"):
        client = Client(room, words.cool)
        client.open(room / "a.cl", FAULTY)
        sessions = client.processes()
        if how == "kills the server":
            client.server.kill()
        client.server.stdin.close()
        client.server.wait(timeout=WITHIN)
        ended(sessions)
    server = subprocess.Popen([HERE / "cool-lsp", "--cool", words.cool], stdin=subprocess.PIPE, stdout=subprocess.PIPE, stderr=subprocess.PIPE)
    server.stdout.close()
    server.stdin.write(b'Content-Length: 37\r\n\r\n{"id": 1, "method": "x", "params": 0}')
    server.stdin.flush()
    expect("status, where the output is closed", server.wait(timeout=WITHIN), 1)
    expect("log", server.stderr.read(), b"cool-lsp: the editor is gone: write EPIPE\n")


TESTS = [a_program_that_is_none, no_program_at_all, the_program_is_found, a_session_that_ends, an_editor_that_goes]
