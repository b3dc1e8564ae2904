// Combines the fixes of an explanation: the edits that fix all errors that have a fix, as edits of the given files. The offsets of edits count bytes.
"use strict";

const LETTERS_OF_FIXES = typeof module === "object" ? require("./bytes.js") : { byteLetters, textOfLetters };

// The first fixes of these errors, from the last to the first, without those that overlap another one, and each insertion once: the choice that cool_explain
// makes.
function separateFixes(faults) {
    const chosen = [];
    const isSame = (one, other) => one.start === other.start && one.text === other.text;
    const isBefore = (one, other) => one.file < other.file || (one.file === other.file && one.end <= other.start && !isSame(one, other));
    for (const { mends: [fix] } of [...faults].reverse()) if (fix && (chosen.length === 0 || isBefore(fix, chosen.at(-1)))) chosen.push(fix);
    return chosen;
}

// The fixes of all errors that have one, as edits that are made one after the other: those of all steps, and those of the errors that come last.
const fixesInTurn = ({ faults, steps }) => [...steps.flatMap((it) => it.edits), ...separateFixes((steps.at(-1) ?? { faults }).faults)];

// The files after edits that are made one after the other. A file is a string with one character for each byte.
function editedFiles(files, edits) {
    const made = [...files];
    for (const { file, start, end, text } of edits) {
        made[file] = made[file].slice(0, start) + LETTERS_OF_FIXES.byteLetters(text) + made[file].slice(end);
    }
    return made;
}

// The errors of all steps, each with the bytes at its place as `lexeme`; it is "" without the given files.
function laterFaults({ steps }, files) {
    let now = files;
    return steps.flatMap(({ edits, faults }) => {
        now = now && editedFiles(now, edits);
        return faults.map((it) => ({ ...it, lexeme: now ? now[it.file].slice(it.start, it.end) : "" }));
    });
}

// The parts between two offsets. A part is { start, end } of the given file, or { text }, added bytes with one character for each.
function partsBetween(parts, from, to) {
    const found = [];
    let at = 0;
    for (const { start, end, text } of parts) {
        const size = text?.length ?? end - start, first = Math.max(from - at, 0), last = Math.min(to - at, size);
        if (first < last) found.push(text === undefined ? { start: start + first, end: start + last } : { text: text.slice(first, last) });
        at += size;
    }
    return found;
}

// The edits of one given file, in the order of their places, that together do what these edits of the file do one after the other. Between two of them is a
// part of the file that stays.
function combinedEdits(file, edits) {
    let parts = [{ start: 0, end: Infinity }];
    for (const { start, end, text } of edits) {
        parts = [...partsBetween(parts, 0, start), { text: LETTERS_OF_FIXES.byteLetters(text) }, ...partsBetween(parts, end, Infinity)];
    }
    const found = [];
    let at = 0, added = "";
    for (const { start, end, text } of parts) {
        if (text !== undefined) added += text;
        else {
            if (start > at || added !== "") found.push({ file, start: at, end: start, text: LETTERS_OF_FIXES.textOfLetters(added) });
            [at, added] = [end, ""];
        }
    }
    return found;
}

// The fixes of all errors of an explanation that have one: their number, and edits of the given files that make all of them, by file and place.
function allFixes(explanation) {
    const edits = fixesInTurn(explanation), files = [...new Set(edits.map((it) => it.file))].sort((one, other) => one - other);
    return { count: edits.length, edits: files.flatMap((file) => combinedEdits(file, edits.filter((it) => it.file === file))) };
}

if (typeof module === "object") module.exports = { allFixes, editedFiles, fixesInTurn, laterFaults };
