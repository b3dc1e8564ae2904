// The list of errors and warnings below the editor, with the explanation of each.
"use strict";

const MOST_CHANGED = 8;
// The fewest fixes that have a button together.
const FEWEST_TOGETHER = 2;

// Splits words into text, and code for the parts between grave accents.
const spoken = (words) => words.split("`").map((part, i) => (i % 2 === 1 ? element("code", {}, part) : part));

const placeWords = ({ file, line }) => (files.length > 1 ? `${file}:${line}` : `line ${line}`);

// The text from a place to another place in the same line.
const textBetween = ({ file, line, column }, to) => (linesOf(fileNamed(file)?.text ?? "")[line - 1] ?? "").slice(column, to.column);

// The items below the place and the words of an error.
function detailsOf({ facts, values = [], other, cure, mends = [] }) {
    const items = facts.map((it) => element("div", { className: "fact" }, ...spoken(it)));
    const link = (it, words) => element("button", { className: "other", onclick: () => goTo(it.file, it.line) }, words);
    items.push(...values.map((it) => link(it, `the value comes from ${placeWords(it)}`)));
    if (other) items.push(link(other, `defined at ${placeWords(other)}, too`));
    if (cure) items.push(element("div", { className: "cure" }, "To fix it: ", ...spoken(cure)));
    return [...items, ...mends.flatMap(mendItems)];
}

// The button that makes an edit, and the lines that the edit changes.
function mendItems(mend) {
    const title = `${mendedLines(mend)}\n\nCtrl+Z takes it back`;
    const fix = { className: "fix", disabled: !explanation, title, onclick: () => putMend(mend) };
    return [element("button", fix, "Fix: ", ...spoken(mend.words)), changedLines(mend)];
}

// The number of equal lines at the beginning of two lists.
function commonLines(one, other) {
    let count = 0;
    while (count < Math.min(one.length, other.length) && one[count] === other[count]) count += 1;
    return count;
}

// The lines that an edit changes, before and after it.
function changedLines(mend) {
    const old = linesOf(fileNamed(mend.from.file)?.text ?? "").slice(mend.from.line - 1, mend.to.line), made = mendedLines(mend).split("\n");
    const front = commonLines(old, made), back = commonLines(old.slice(front).reverse(), made.slice(front).reverse());
    const rows = (lines, sign, className) =>
        lines.slice(front, lines.length - back).map((it, i) => element("span", { className }, `${mend.from.line + front + i} ${sign} ${it}\n`));
    const all = [...rows(old, "-", "gone"), ...rows(made, "+", "come")];
    const rest = all.length > MOST_CHANGED ? [`${all.length - MOST_CHANGED} more lines\n`] : [];
    return element("pre", { className: "changes" }, files.length > 1 ? `${mend.from.file}\n` : "", ...all.slice(0, MOST_CHANGED), ...rest);
}

// Makes an edit in its file, as if the user typed it.
function putMend(mend) {
    goTo(mend.from.file, mend.from.line);
    text.setSelectionRange(indexOf(mend.from), indexOf(mend.to));
    if (mend.text === "") document.execCommand("delete");
    else typed(mend.text);
}

// Makes several edits, in each file as one edit, which reaches from the first to the last of them, so that Ctrl+Z undoes all of them.
function putMends(mends) {
    for (const file of new Set(mends.map((it) => it.from.file))) {
        const own = mends.filter((it) => it.from.file === file), parts = own.map((it, i) => [i > 0 ? textFrom(own[i - 1].to, it.from) : "", it.text]);
        putMend({ from: own[0].from, to: own.at(-1).to, text: parts.flat().join("") });
    }
}

// The text between two places of a file.
function textFrom(from, to) {
    const lines = linesOf(fileNamed(from.file)?.text ?? "").slice(from.line - 1, to.line);
    lines.push(lines.pop().slice(0, to.column));
    return [lines[0].slice(from.column), ...lines.slice(1)].join("\n");
}

// The heading of the errors that come after fixes, and the button that makes all fixes.
const headItem = (words) => element("li", { className: "head" }, words);

function togetherItem(count) {
    const onclick = () => putMends(explanation.together.edits);
    const fix = { className: "fix", disabled: !explanation, title: "Ctrl+Z takes them back, file by file", onclick };
    return element("li", {}, element("button", fix, `Fix all errors that have a fix (${count})`));
}

function laterItem(place, words, file, line, i) {
    const button = element("button", { className: "later", onclick: () => goTo(file, line) }, `${place}: `, ...spoken(words));
    return element("li", {}, button, ...detailsOf(explanation.later[i]));
}

function noticeItem(place, words, file, line, i) {
    const { mends } = explanation.notices[i], button = element("button", { onclick: () => goTo(file, line) }, `${place}: `, ...spoken(words));
    return element("li", { className: "notice" }, button, ...mends.flatMap(mendItems));
}

// Shows the errors with their explanations, and the notices, in the list and in the text.
function showExplained() {
    const rows = faults.map((it, i) => [faultItem, placeWords(it), it.words, it.file, it.line, i, shownOf(explainedOf(i))]);
    const notices = (explanation?.notices ?? []).map((it, i) => [noticeItem, placeWords(it.from), it.words, it.from.file, it.from.line, i, shownOf(it)]);
    showRows(at("faults"), [...rows, ...laterRows(), ...notices], (make, ...row) => make(...row));
    if (explanation) at("faults").querySelectorAll(".fix").forEach((it) => (it.disabled = false));
    showMarks();
    paint();
    happened("explained");
}

// The rows of the errors that come after fixes, and of the button that makes all fixes, of which there are none while the text changes.
function laterRows() {
    const { later = [], together } = explanation ?? {};
    const rows = later.map((it, i) => [laterItem, placeWords(it.origin), it.words, it.origin.file, it.origin.line, i, JSON.stringify(it)]);
    const head = rows.length > 0 ? [[headItem, "After these fixes"]] : [];
    return [...head, ...rows, ...(together?.count >= FEWEST_TOGETHER ? [[togetherItem, together.count]] : [])];
}

// The part of a row that shows the explanation, as text, because rows are compared as text.
const shownOf = (known) => JSON.stringify([known ?? "", ...(known?.mends ?? []).map(mendedLines)]);

function faultItem(place, words, file, line, i) {
    const known = explainedOf(i);
    const name = known && !findingOf(known.facts) ? nameBehind(words.replace(/^[A-Z]\d+: /, ""), textBetween(known.from, known.to)) : "";
    const button = element("button", { className: "fault", onclick: () => goTo(file, line) }, `${place}: ${words}`, ...spoken(name));
    return element("li", {}, button, ...(known ? detailsOf(known) : []));
}
