// Programs to try: a text that can be changed, and what `cool` says of it, by the module of the page.
"use strict";

let compiledRules;
const trialRunner = new Runner(() => compiledRules);
const MOST_TRIAL_TIME = 10000;

const loadedOnce = (() => {
    let promise;
    return () => (promise ??= load(COOL_MODULE).then((it) => (compiledRules = it)));
})();

// Runs `cool` with these arguments over files, { name: text }. It returns a promise of the output and the status.
async function triedOut(words, files, input = "") {
    await loadedOnce();
    const encoder = new TextEncoder(), decoders = { 1: new TextDecoder(), 2: new TextDecoder() };
    let output = "";
    const take = (all) => all.forEach((it) => (output += decoders[it.to].decode(it.bytes, { stream: true })));
    const limit = setTimeout(() => trialRunner.stop(), MOST_TRIAL_TIME);
    const bytes = new Map(files.map((it) => [it.name, encoder.encode(it.text)]));
    const came = await trialRunner.run([...words, "--", ...bytes.keys()], bytes, { input: encoder.encode(input), pieces: take });
    clearTimeout(limit);
    return { output: came.killed ? `${output}\n(stopped)` : output, status: came.status, broken: came.broken };
}

// A folded program that is run, or checked, at a press.
function trial(heading, files, words, expected) {
    const room = element("details", { className: "trial" }, element("summary", {}, heading));
    room.addEventListener("toggle", () => room.open && room.children.length === 1 && fillTrial(room, files, words, expected), { once: false });
    return room;
}

function fillTrial(room, files, words, expected) {
    const fields = files.map((it) => element("textarea", { value: it.text, spellcheck: false, rows: Math.min(14, it.text.split("\n").length),
        "aria-label": `Text of ${it.name}` }));
    const output = element("pre", { className: "said", role: "log", "aria-label": "What comes", tabIndex: 0 }, expected ?? "");
    const run = element("button", {}, words[0] === "check" ? "Check" : "Run");
    const rules = element("button", { title: "By the rules of evaluation themselves" }, "Run by the rules");
    const back = element("button", { title: "The text as it was" }, "Undo all");
    const go = async (how) => {
        output.textContent = "…";
        const came = await triedOut(how, files.map((it, i) => ({ name: it.name, text: fields[i].value })));
        output.textContent = came.broken ?? `${came.output}${came.status === 0 && how[0] === "check" ? "no faults\n" : ""}`;
    };
    run.onclick = () => go(words);
    rules.onclick = () => go(["eval"]);
    back.onclick = () => fields.forEach((it, i) => (it.value = files[i].text));
    room.append(...fields, element("div", { className: "bar" }, run, ...(words[0] === "run" ? [rules] : []), back), output);
}
