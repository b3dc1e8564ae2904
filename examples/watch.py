#!/usr/bin/env python3
"""Shows the errors of Cool files whenever one of them is saved: examples/watch.py FILES.."""
import os, subprocess, sys, time

cool = os.path.join(os.path.dirname(os.path.abspath(__file__)), "..", "cool")
session = subprocess.Popen([cool, "session"], stdin=subprocess.PIPE, stdout=subprocess.PIPE)
seen = {}
while session.poll() is None:
    saved = {name: os.stat(name).st_mtime_ns for name in sys.argv[1:] if os.path.exists(name)}
    if saved != seen:
        for name in saved:
            if saved[name] != seen.get(name):
                with open(name, "rb") as file:
                    data = file.read()
                session.stdin.write(b"file %s %d\n" % (os.fsencode(name), len(data)) + data)
        session.stdin.write(b"check\n")
        session.stdin.flush()
        first = session.stdout.readline().decode()
        faults = [session.stdout.readline().decode() for _ in range(int(first.split()[1].rstrip(",")))]
        print(first + "".join(faults), end="", flush=True)
        seen = saved
    time.sleep(0.2)
