"""Text is never markup, nothing is sent, and who cannot use a mouse or see can use the page."""
import re

from page import ROOT, same, test

EVIL = '<img src=x onerror="window.bad=1"><script>window.bad=1</script>'
WAYS = re.compile(r"innerHTML|outerHTML|insertAdjacentHTML|document\.write|\beval\(|new Function|srcdoc|fetch\(|XMLHttpRequest|sendBeacon|WebSocket")


@test("shows what a program writes as text, and no markup")
def output(page):
    page.start(("<b>é.cl", 'class Main inherits IO { main() : Object { out_string("%s\\n") }; };' % EVIL.replace('"', '\\"')), input=EVIL)
    page.click("run")
    same(page.ended(), EVIL + "\nCOOL program successfully executed\n")
    for view in "machine", "assembly", "console":
        page.click(f"tab-{view}")
        page.moved()
    page.run("at('go-on').onclick();")
    page.moved()
    page.run("text.focus(); text.select();")
    page.type(f'class Main {{ main() : Object {{ <b> }}; }}; -- {EVIL}\n')
    page.checked()
    same(page.run("return [window.bad ?? null, document.querySelectorAll('img, main script, #faults b, #names b, #output b').length];"), [None, 0])


@test("has no way from a text to markup or code in its scripts")
def sources(page):
    for script in (ROOT / "web").rglob("*.js"):
        if script.name in ("module.js", "examples.js", "help.js"):
            continue
        found = WAYS.search(script.read_text())
        same((script.name, found and found[0]), (script.name, None))


@test("cannot send: its policy refuses requests, pictures, frames and scripts from elsewhere")
def policy(page):
    page.open()
    refused = page.run("""
        const seen = [];
        document.addEventListener('securitypolicyviolation', (event) => seen.push(event.effectiveDirective));
        await fetch('https://example.invalid/').catch(() => 0);
        new Image().src = 'https://example.invalid/';
        const add = (name, properties) => document.body.append(Object.assign(document.createElement(name), properties));
        add('script', { src: 'https://example.invalid/' });
        add('iframe', { src: 'https://example.invalid/' });
        add('script', { textContent: 'window.bad = 1' });
        const source = `onmessage = () => fetch('https://example.invalid/').then(() => postMessage('sent'), () => postMessage('refused'))`;
        const worker = new Worker(URL.createObjectURL(new Blob([source])));
        const answer = new Promise((come) => (worker.onmessage = ({ data }) => come(data)));
        worker.postMessage(1);
        seen.push(await answer);
        for (let i = 0; i < 100 && seen.length < 6; i += 1) await new Promise((over) => setTimeout(over, 50));
        return [seen.sort(), window.bad ?? null];
    """)
    page.fresh = False
    page.browser.complaints.clear()
    same(refused, [["connect-src", "frame-src", "img-src", "refused", "script-src-elem", "script-src-elem"], None])


@test("names every control for screen readers")
def names(page):
    page.open()
    page.run("at('options').open = true; for (const it of VIEWS) at(it).hidden = false;")
    roles = "button", "textbox", "combobox", "spinbutton", "checkbox", "tab", "listbox"
    controls = [it for it in page.browser.tree() if it[0] in roles]
    same([role for role, name in controls if not name], [])
    same(len(controls) > 30, True)
    page.fresh = False


@test("goes by keyboard: each control is reached, and tabs by the arrow keys")
def keyboard(page):
    page.open()
    page.run("at('options').open = at('inside').open = true; choose('machine');")
    page.moved()
    page.run("at('run').focus();")
    reached = {"run"}
    for _ in range(50):
        page.press("Tab", 9)
        reached.add(page.run("tabLeaves = true; return document.activeElement.id;"))
    wanted = """run examples open save link how theme add-file rename-file text tab-machine restart go-on over into out back step count label add-break
        address""".split() + page.run("return OPTIONS.map((it) => it.id);")
    same([it for it in wanted if it not in reached], [])
    page.run("at('tab-machine').focus();")
    page.press("ArrowRight", 39)
    same(page.run("return [at('assembly').hidden, document.activeElement.id];"), [False, "tab-assembly"])


@test("is quiet: no script threw, and the browser complains of nothing")
def quiet(page):
    # A refusal of the policy above may be reported late.
    same([it for it in page.browser.complaints if "example.invalid" not in it], [])
