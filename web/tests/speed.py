"""The speed of the page: the minimum and the median of some calls, in milliseconds."""
import statistics
import time

KEYS, BYTES, PAUSE = 40, 102_400, 0.1
PART = """class A{0} inherits IO {{
  x : Int <- {0};
  f(a : Int, b : Int) : Int {{
    let c : Int <- a + b * x in
      if c < 10 then {{ out_string("small"); f(a + 1, b); }} else c - a fi
  }};
}};
"""

# Hears when a key goes down, and when the page has shown the faults of what it typed. Counted is what the processor makes no difference to.
LISTEN = """
    let begun;
    const showFound = showFaults, begins = session.ask;
    Object.assign(window, { times: [], sent: 0, rows: 0 });
    text.addEventListener("keydown", (event) => (begun = event.timeStamp), true);
    showFaults = (all) => (showFound(all), begun && times.push(performance.now() - begun), (begun = undefined));
    session.ask = (commands) => ((sent += commands.length), begins.call(session, commands));
    new MutationObserver((all) => all.forEach((it) => (rows += it.addedNodes.length))).observe(at("paint"), { childList: true });
"""


def told(name, times):
    print(f"{name:60}{min(times):6.0f} {statistics.median(times):6.0f}  ms", flush=True)


def program():
    parts = ["class Main { main() : Object { 1 }; };\n"]
    while sum(map(len, parts)) < BYTES:
        parts.append(PART.format(len(parts)))
    return "".join(parts)


def keys(page, name, scrap):
    """Blanks that are typed in the middle of the program, behind a scrap."""
    whole = program()
    at = whole.index("b * x", len(whole) // 2) + len("b * x")
    page.start(("p.cl", whole))
    page.run(f"text.focus(); text.setSelectionRange({at}, {at});")
    page.type(" " + scrap)
    page.wait("session.waits || session.ends === MOST_ENDS")
    for _ in range(3):
        page.press(" ", 32, text=" ")
        page.checked()
        time.sleep(5 * PAUSE)
    page.run("times.length = sent = rows = 0;")
    for _ in range(KEYS):
        page.press(" ", 32, text=" ")
        page.checked()
        time.sleep(PAUSE)
    times, sent, rows = page.run("return [times, sent, rows];")
    told(f"from a key in 100 KiB to the faults, {name}", times)
    return sent / KEYS, rows / KEYS


def speed(page):
    page.open()
    print(f"{'':60} least middle")
    told("load the module", page.run("""
        const times = [];
        for (let i = 0; i < 5; i += 1) { const begun = performance.now(); await load(COOL_MODULE); times.push(performance.now() - begun); }
        return times;
    """))
    page.run(LISTEN)
    for name, scrap in ("none", ""), ("one of typing", "+ true"), ("one of syntax", ")"), ("none, without a session", ""):
        page.run(f"session.ends = {'MOST_ENDS' if 'without' in name else 0};")
        sent, rows = keys(page, name, scrap)
        print(f"{'':4}a key sends {sent:.0f} bytes to a session, and {rows:.0f} rows are painted anew", flush=True)
    told("a step back in a run of a million instructions", page.run("""
        openProgram({ files: [{ name: "p.cl", text: "class Main { i : Int; main() : Object { while i < 60000 loop i <- i + 1 pool }; };" }] });
        choose("machine");
        const idle = async () => { while (machine.moves) await new Promise((over) => setTimeout(over, 0)); };
        await idle();
        await move(() => 1_000_000);
        const times = [];
        for (let i = 1; i <= 10; i += 1) { const begun = performance.now(); await move(() => 1_000_000 - i); times.push(performance.now() - begun); }
        return times;
    """))
    page.fresh = False
