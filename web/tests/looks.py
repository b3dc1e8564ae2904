"""Widths, colours, and pictures of the page."""
from browser import Missing
from page import example, same, test


@test("fits the width of a phone in each view")
def phone(page):
    page.start(("average.cl", example("average.cl")))
    page.browser.size(360, 740, phone=True)
    for view in "console", "machine", "assembly", "help":
        page.click(f"tab-{view}")
        page.moved()
        same([view, page.run("return document.documentElement.scrollWidth <= innerWidth && innerWidth === 360;")], [view, True])
    page.run("at('options').open = true;")
    box = page.run("const it = at('options').lastElementChild.getBoundingClientRect(); at('options').open = false; return [it.left >= 0, it.right <= 360];")
    same(box, [True, True])
    page.browser.size(1280, 800)


@test("takes the reader on a phone to the error of a run, and from there to its line")
def phone_error(page):
    fails = "class Main inherits IO { main() : Object { out_int(1 / 0) }; };\n"
    for text, kind in (fails, "an error"), ("\n" * 60 + fails.replace("1 / 0", "summ"), "a fault"):
        page.start(("p.cl", text))
        page.browser.size(360, 740, phone=True)
        page.run("scrollTo(0, 0);")
        page.click("run")
        page.ended()
        seen = "const it = WHERE.getBoundingClientRect(); return it.top >= 0 && it.bottom <= innerHeight;"
        button = "[...at('end').querySelectorAll('button')].find((it) => it.textContent.startsWith('Show line'))"
        page.wait(button + " !== undefined")
        same([kind, page.run(seen.replace("WHERE", button))], [kind, True])
        page.run(button + ".click(); await new Promise((shown) => setTimeout(shown, 200));")
        line = text.count("\n")
        number = f"[...document.querySelectorAll('#gutter .number')].find((it) => it.textContent === '{line}')"
        same([kind, page.run("return cursorLine();"), page.run(seen.replace("WHERE", number))], [kind, line, True])
        page.browser.size(1280, 800)


@test("is dark or light as the system is, or as one chooses")
def dark(page):
    page.start(("average.cl", example("average.cl")))

    def back():
        return page.run("return getComputedStyle(document.body).backgroundColor;")
    light, seen = back(), []
    page.browser.size(1280, 800, dark=True)
    seen.append(back() != light)
    page.run("setTheme('light');")
    seen.append(back() == light)
    page.run("setTheme('');")
    page.browser.size(1280, 800)
    same(seen, [True, True])


def pictures(page, folder):
    """The views in light and dark, and on a phone."""
    folder.mkdir(parents=True, exist_ok=True)
    page.open()
    page.browser.size(1280, 800)
    page.browser.picture(folder / "first.png")
    page.start(("average.cl", example("average.cl")))
    page.click("run")
    page.ended()
    page.browser.size(1280, 800)
    page.browser.picture(folder / "output.png")
    page.run("at('options').open = false; toggleBreak(10);")
    page.click("tab-machine")
    page.moved()
    page.moved("go-on")
    page.moved("go-on")
    for name, width, height, is_dark in ("machine", 1280, 800, False), ("machine-dark", 1280, 800, True), ("machine-phone", 390, 1600, False):
        try:
            page.browser.size(width, height, dark=is_dark, phone=width < 500)
        except Missing:
            continue
        page.run("await new Promise((shown) => setTimeout(shown, 200));")
        page.browser.picture(folder / f"{name}.png")
    page.browser.size(1280, 800)
    page.run("at('inside').open = true; at('machine').scrollTo(0, 400); await new Promise((shown) => setTimeout(shown, 200));")
    page.browser.picture(folder / "machine-open.png")
    page.click("tab-assembly")
    page.wait("at('lines').textContent.length > 1000")
    page.browser.picture(folder / "assembly.png")
    page.start(("mistakes.cl", example("mistakes.cl")))
    page.wait("explanation !== undefined || explainModule === undefined")
    page.browser.picture(folder / "faults.png")
    page.click("tab-help")
    page.browser.picture(folder / "help.png")
