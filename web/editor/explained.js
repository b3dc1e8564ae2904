// The explanations of errors: those of the current files, and earlier ones for errors in lines that were not edited since.
"use strict";

// The explanation of the current files, or undefined.
let explanation;
// The explanations of errors whose lines were not edited, until new ones arrive. The key has the error's file, words and line.
let explainedBefore = new Map();

// The last text that was split into lines, because all of its errors need the lines.
let partedText = "", partedLines = [""];

function linesOf(all) {
    if (all !== partedText) [partedText, partedLines] = [all, all.split("\n")];
    return partedLines;
}

const keyOf = ({ file, line, words }) => JSON.stringify([file, words, linesOf(fileNamed(file)?.text ?? "")[line - 1]]);

// The explanation of error `i` of the list, or undefined.
const explainedOf = (i) => explanation?.faults[i] ?? explainedBefore.get(keyOf(faults[i]));

// The text of the lines that an edit changes, after the edit.
function mendedLines({ from, to, text: put }) {
    const lines = linesOf(fileNamed(from.file)?.text ?? "");
    return (lines[from.line - 1] ?? "").slice(0, from.column) + put + (lines[to.line - 1] ?? "").slice(to.column);
}

// The text after an edit.
function editedText(all, { from, to, text: put }) {
    const starts = [0, ...Array.from(all.matchAll(/\n/g), (it) => it.index + 1)], indexIn = ({ line, column }) => starts[line - 1] + column;
    return all.slice(0, indexIn(from)) + put + all.slice(indexIn(to));
}

// Maps the lines of a file to the ranges that are marked there: [from, to, kind], in columns.
function rangesIn(file) {
    const found = new Map();
    const add = (from, to, kind) => {
        for (let line = from.line; line <= to.line; line += 1) {
            const range = [line === from.line ? from.column : 0, line === to.line ? to.column : Infinity, kind];
            found.set(line, [...(found.get(line) ?? []), range]);
        }
    };
    faults.forEach((fault, i) => {
        if (fault.file !== file) return;
        const known = explainedOf(i), line = fault.line;
        if (known === undefined) add({ line, column: 0 }, { line, column: Infinity }, "wrong");
        else add({ line, column: known.from.column }, { line: line + known.to.line - known.from.line, column: known.to.column }, "wrong");
    });
    for (const { from, to } of explanation?.notices ?? []) if (from.file === file) add(from, to, "odd");
    return found;
}

whenever("marked", ({ name }) => (marks.ranges = rangesIn(name)));
