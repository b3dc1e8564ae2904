"""The faults of a large program, which a session finds, beside those of a `check` of the same files."""
import re

from page import example, same, test
from runs import WAITS_NOT


def without_main(*names):
    return "\n".join(re.sub(r"\bMain\b", f"Main_{name}", example(f"{name}.cl")) for name in names)


# A program of three files, of more letters than are checked anew at each key.
FILES = [("main.cl", example("life.cl") + "\n" + without_main("shapes", "cipher", "guess", "list")),
         ("é 2.cl", without_main("interpreter", "bank", "factorials", "polynomials")), ("three.cl", without_main("tree", "words", "calculator"))]

# The test's script in the page. It makes edits. After each, it compares the errors that the page shows with those of a check.
EDITS = r"""
    let seed = SEED, bySession = 0, compared = 0;
    const below = (most) => {
        seed = (Math.imul(seed, 1664525) + 1013904223) >>> 0;
        return Math.floor((seed / 4294967296) * most);
    };
    const of = (all) => all[below(all.length)];
    const SCRAPS = ["\n", "  ", "-- é 𝒙\n", "--", "(* 𝒙 *)", "(*", "*)", '"', "\\", "\0", "?", "é", "x", "X", "1", "99999999999", "true ", "{", "}",
        "(", ";", "<-", "\r\n", '"a\\\nb"', "\nclass Main { main() : Object { 0 }; };\n", "\nclass", "};", " z : Int; ", "self", "SELF_TYPE", "not "];
    const WORD = /[A-Za-z_][A-Za-z_0-9]*|[0-9]+|"[^"\n]*"|[^\sA-Za-z0-9]/g;
    const classes = (all) => all.split(/\n(?=class)/);
    // Small edits are of a word or a scrap, and large ones of classes.
    const small = (all) => {
        const i = below(all.length + 1), words = [...all.matchAll(WORD)], one = of(words), other = of(words);
        if (one === undefined || below(4) === 0) return all.slice(0, i) + of(SCRAPS) + all.slice(i);
        if (below(4) === 0) return all.slice(0, i) + all.slice(i + 1 + below(3));
        return all.slice(0, one.index) + (below(3) === 0 ? "" : other[0]) + all.slice(one.index + one[0].length);
    };
    const large = (all) => {
        const its = classes(all), [one] = its.splice(below(its.length), 1);
        if (below(3) === 0) its.splice(below(its.length + 1), 0, one, of(its) ?? "");
        return its.join("\n");
    };
    const type = (all) => ((text.value = all), text.dispatchEvent(new Event("input")));
    const settled = async () => { while (checking) await new Promise((over) => setTimeout(over, 0)); };
    const compare = async (what) => {
        await settled();
        const shown = JSON.stringify([faults, at("state").textContent]);
        const { found, end } = await foundAnew();
        const words = found.length > 0 ? (found.length === 1 ? "1 fault" : `${found.length} faults`) : end ?? "no faults";
        if (shown !== JSON.stringify([found, words])) throw new Error(`${what}: ${shown}, and not ${JSON.stringify([found, words])}, of\n${text.value}`);
        compared += found.length;
    };
    const placedBySession = session.placed;
    session.placed = function (...given) {
        const found = placedBySession.call(this, ...given);
        if (found) bySession += 1;
        return found;
    };
"""


@test("finds the faults that `check` finds, after random edits of several files")
def random_edits(page, edits=40, seed=1):
    page.start(*FILES)
    counts = page.run(EDITS.replace("SEED", str(seed)) + """
        const whole = files.map((it) => it.text), usual = session.pieces, isOfText = ({ words }) => /^[LS]/.test(words);
        for (let i = 0; i < """ + str(edits) + """; i += 1) {
            session.pieces = i < """ + str(edits) + """ / 2 ? usual : new Pieces(800, 60);
            const broken = faults.find(isOfText), mends = broken !== undefined && below(3) > 0;
            showFile(mends ? fileNamed(broken.file) : of(files));
            if (mends) type(whole[files.indexOf(shownFile)]);
            else type(below(8) === 0 ? large(text.value) : small(text.value));
            await compare(`edit ${i}`);
            for (let n = 0; n < 100 && session.runner.runs && !session.waits; n += 1) await new Promise((over) => setTimeout(over, 2));
        }
        session.pieces = usual;
        return [bySession, compared];
    """, within=600)
    page.fresh = False
    same((counts, [it > edits / 10 for it in counts]), (counts, [True, True]))
    return counts


@test("finds them after files are added, renamed and removed, and after its session ended")
def other_files(page):
    page.start(*FILES)
    page.run(EDITS.replace("SEED", "7") + """
        const ends = [
            () => 0, () => session.runner.stop(), () => session.runner.give(encode("nonsense\\n")), () => session.runner.worker.postMessage({ line: 7 }),
            () => (addFile(), document.activeElement.blur(), type("class Added { a : Nowhere; };\\n")), () => (shownFile.name = "other.cl", changedFiles()),
            () => ((window.confirm = () => true), showFile(files[1]), removeFile()), () => showFile(files[0]),
            () => openProgram({ files: files.map(({ name, text }) => ({ name, text })) }),
        ];
        for (const [i, end] of ends.entries()) {
            for (let k = 0; k < 6; k += 1) {
                type(text.value.replace("class ", "class  "));
                if (k === 2) end();
                await compare(`end ${i}, edit ${k}`);
                for (let n = 0; n < 100 && !session.waits; n += 1) await new Promise((over) => setTimeout(over, 5));
            }
            if (bySession === 0) throw new Error(`no session answered after end ${i}`);
            bySession = 0;
        }
    """, within=120)
    page.fresh = False


@test("finds them where a module cannot wait, by `check` alone")
def without_session(page):
    page.start(*FILES, first="delete WebAssembly.Suspending;" + WAITS_NOT)
    page.run(EDITS.replace("SEED", "3") + """
        for (let i = 0; i < 10; i += 1) {
            type(small(text.value));
            await compare(`edit ${i}`);
        }
        if (session.runner.worker !== undefined) throw new Error("a session was begun");
    """, within=60)


@test("shows as few rows anew as an edit changes")
def few_rows(page):
    page.start(("p.cl", "\n".join(text for _, text in FILES)))
    page.run("text.focus(); text.setSelectionRange(0, 0);")
    page.run("window.anew = 0; new MutationObserver((all) => all.forEach((it) => (anew += it.addedNodes.length))).observe(at('paint'), { childList: true });")
    page.type(" ")
    page.checked()
    same(page.run("return anew;"), 1)
