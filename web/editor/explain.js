// Asks for explanations of the errors, by the program `cool_explain` in a separate worker, after the errors arrived and the user stopped typing. A reply
// for an older text is dropped.
"use strict";

const EXPLAIN_DELAY = 200, MOST_EXPLAIN_TIME = 5000;

let explainModule;
const explainer = new Runner(() => explainModule);
// The number of the last question. A reply to an earlier question is dropped.
let explainTimer, explainTurn = 0;

async function loadExplainer() {
    if (typeof COOL_EXPLAIN_MODULE === "undefined") return;
    explainModule = await load(COOL_EXPLAIN_MODULE);
    explainSoon();
}

function dropExplanation() {
    clearTimeout(explainTimer);
    explainTurn += 1;
    explainer.stop();
    explanation = undefined;
    at("faults").querySelectorAll(".fix").forEach((it) => (it.disabled = true));
}

function explainSoon() {
    clearTimeout(explainTimer);
    if (explainModule && !explanation) explainTimer = setTimeout(explain, EXPLAIN_DELAY);
}

async function explain() {
    const turn = (explainTurn += 1);
    const { status, said } = await askedToExplain(files.map((it) => it.text));
    if (turn !== explainTurn) return;
    explanation = status === 0 || status === 1 ? fitting(said) : undefined;
    if (explanation) explainedBefore = new Map(faults.map((it, i) => [keyOf(it), explanation.faults[i]]));
    showExplained();
    for (const it of explanation?.notices ?? []) if (turn === explainTurn) await tryEdit(it, turn);
}

// Runs the program for these texts of the files. It returns a promise of the status and the output.
async function askedToExplain(texts) {
    const numbered = new Map(texts.map((it, i) => [`${i}.cl`, encode(it)])), decoder = new TextDecoder();
    let said = "";
    const pieces = (all) => all.forEach((it) => it.to === 1 && (said += decoder.decode(it.bytes, { stream: true })));
    const limit = setTimeout(() => explainer.stop(), MOST_EXPLAIN_TIME);
    const { status } = await explainer.run(["--lines", ...numbered.keys()], numbered, { pieces });
    clearTimeout(limit);
    return { status, said };
}

// Offers the edit that a notice suggests, if the edited program has no errors.
async function tryEdit(notice, turn) {
    const edit = likelyEdit(notice.words);
    if (!edit) return;
    const mend = { ...edit, from: notice.from, to: notice.to };
    const { status } = await askedToExplain(files.map((it) => (it.name === mend.from.file ? editedText(it.text, mend) : it.text)));
    if (turn !== explainTurn || status !== 0) return;
    notice.mends = [mend];
    showExplained();
}

// Parses the lines of an explanation. It returns undefined if their errors are not those that are shown.
function fitting(lines) {
    try {
        const found = explanationOf(files, lines);
        const listed = JSON.stringify(faults.map(({ file, line, words }) => [file, line, words]));
        return JSON.stringify(found.faults.map(({ from, line, words }) => [from.file, line, words])) === listed ? found : undefined;
    } catch {
        return undefined;
    }
}

whenever("changed", dropExplanation);
