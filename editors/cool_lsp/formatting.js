// Formats a file (docs/format.md), after the programs confirmed that only its layout changes: they report the same errors at the same tokens, and the same
// names with the same meanings.
"use strict";
const path = require("path");
const { textOf } = require("../node/bytes.js");
const { find, Missing } = require("../node/program.js");
const { pathIn } = require("./answers.js");
const { Refused } = require("./classes.js");
const { Inquiry } = require("./inquiry.js");
const { Texts, laidOut } = require("./layout.js");
const { Text } = require("./ranges.js");

const FAULT = /0\.cl:(\d+): ([A-Z]\d+: [^\n]*)/g;

class Formatter {
    // `named` is the program that the command line names, or undefined.
    constructor(named, seconds) {
        Object.assign(this, { named, seconds });
    }

    // A promise of the edits that lay a file out, as [start, end, bytes]. `marksOf` gives a promise of the marks of the file's program, where it has these
    // bytes, or of undefined. Refused under its name where the file is no text of Cool, or where a program finds another change.
    async formatted(file, data, marksOf, name) {
        const faults = await this.faults(name, data);
        const first = faults.find(([, words]) => "LS".includes(words[0]));
        if (first) throw new Refused(`${name}:${first[0]}: ${textOf(first[1])}: not formatted`);
        const [texts, gaps] = laidOut(data), edits = editsOf(texts, gaps);
        if (edits.length === 0) return edits;
        const changed = edited(data, edits), after = new Texts(changed);
        const refuse = (why) => {
            throw new Refused(`${name}: not formatted: ${why}`);
        };
        if (!isAlike(after.tokens, texts.tokens) || !isAlike(after.said(), texts.said())) refuse("a token or a comment would change");
        if (!isAlike(movedFaults(faults, texts, after), await this.faults(name, changed))) refuse("its errors would change");
        const marks = await marksOf(data);
        if (marks && !isAlike(movedMarks(marks, file, texts, after), await marksOf(changed))) refuse("a name would mean something else");
        return edits;
    }

    // Returns the function that answers a request to format a file.
    of(files, meanings) {
        return async (params) => {
            const file = pathIn(params), text = new Text(files.data(file));
            const found = await this.formatted(file, text.data, (data) => meanings.of(file, [[file, data]]), path.basename(file));
            return found.map(([start, end, put]) => ({ range: text.range(start, end), newText: textOf(put) }));
        };
    }

    // A promise of the faults that `check` notes of a file, as [line, words].
    async faults(name, data) {
        try {
            this.program ??= await find("cool", this.named, this.seconds);
        } catch (error) {
            throw error instanceof Missing ? new Refused(`${name}: not formatted: ${error.message}`) : error;
        }
        const inquiry = new Inquiry("cool", this.program, ["check"], this.seconds, true);
        const { status, output } = (await inquiry.answer(new Map([[name, data]]))) ?? { output: "the program did not answer" };
        if (status !== 0 && status !== 1) throw new Refused(`${name}: not formatted: ${textOf(output).trim().replaceAll("0.cl", name)}`);
        return Array.from(output.matchAll(FAULT), ([, line, words]) => [Number(line), words]);
    }
}

const isAlike = (one, other) => JSON.stringify(one) === JSON.stringify(other);

// The edits that put these gaps between the tokens.
function editsOf(texts, gaps) {
    const ends = [0, ...texts.starts.map((start, i) => start + texts.tokens[i].length)], starts = [...texts.starts, texts.data.length];
    return gaps.map((gap, i) => [ends[i], starts[i], gap]).filter(([start, end, gap]) => texts.data.slice(start, end) !== gap);
}

// A file with edits, which stand in the order of their places.
function edited(data, edits) {
    let out = "", at = 0;
    for (const [start, end, text] of edits) {
        out += data.slice(at, start) + text;
        at = end;
    }
    return out + data.slice(at);
}

// Faults with the lines that their tokens have in another layout.
function movedFaults(faults, before, after) {
    const old = new Text(before.data), later = new Text(after.data);
    const lines = new Map(before.starts.map((start, i) => [old.line(start), later.line(after.starts[i])]));
    return faults.map(([line, words]) => [lines.get(line) ?? line, words]);
}

// Marks with the places that the names of a file have in another layout of it.
function movedMarks(marks, file, before, after) {
    const places = new Map(before.starts.map((start, i) => [start, after.starts[i]]));
    const moved = (place) => place && { path: place.path, at: place.path === file ? places.get(place.at) : place.at };
    return marks.map((it) => ({ ...it, place: moved(it.place), target: moved(it.target) }));
}

module.exports = { Formatter, edited };
