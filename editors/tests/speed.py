"""Measures the processor time from a typed key to the answer of the server."""
import os
import time

from .client import Client

BYTES, KEYS, MOST = 102400, 21, 50  # of the file, keys that are typed, milliseconds of processor time that a key may take


def large():
    """Ordinary Cool of so many bytes."""
    classes, size = ["class Main { main() : Object { 0 }; };\n"], 0
    while size < BYTES:
        methods = "".join(
            f"  m{m}(a : Int, b : Int) : Int {{\n    if a < b then a + b * {m} else {{\n      total <- total + a;\n"
            "      let c : Int <- a - b in while 0 < c loop c <- c - 1 pool;\n"
            '      out_string(name.concat("\\n")); total;\n    } fi\n  };\n'
            for m in range(5)
        )
        classes.append(f'class C{len(classes)} inherits IO {{\n  total : Int <- 0;\n  name : String <- "class";\n{methods}}};\n')
        size += len(classes[-1])
    return "".join(classes)


def spent(client):
    """The processor time of the server and of its session so far, in milliseconds."""
    ticks = 0
    for process in (client.server.pid, *client.sessions()):
        with open("/proc/%d/stat" % process) as file:
            ticks += sum(map(int, file.read().rpartition(")")[2].split()[11:13]))
    return 1000 * ticks / os.sysconf("SC_CLK_TCK")


def diagnostics_after_a_key(room, words):
    """In the middle of a file, without a fault and with one of typing or of syntax: the processor time of a key, which other work does not change much, must
    be within the limit; the time on the clock, from before the message is made to the arrival of what is told, is told beside it."""
    text = large()
    front, _, back = text[: len(text) // 2].rpartition("total + a;")
    client, said = Client(room, words.cool), []
    client.open(room / "a.cl", text)
    for what, now in (("no fault", "total + %d;"), ("a fault of typing", "total + true + %d;"), ("a fault of syntax", "total + ) + %d;")):
        times, before = [], spent(client)
        for number in range(KEYS):
            began = time.perf_counter()
            client.change(room / "a.cl", front + now % number + back + text[len(text) // 2 :])
            times.append(1000 * (client.came - began))
        took = (spent(client) - before) / KEYS
        said.append("%s %.0f ms of processor, least of the clock %.0f, median %.0f" % (what, took, min(times), sorted(times)[KEYS // 2]))
        if took > MOST:
            raise AssertionError("%s: %.0f ms of processor, and not %d" % (what, took, MOST))
    client.end()
    return "; ".join(said)


TESTS = [diagnostics_after_a_key]
