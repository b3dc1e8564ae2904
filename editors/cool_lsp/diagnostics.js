// The diagnostics of each open file: the errors of its programs, warnings, and reasons why there are no diagnostics.
"use strict";
const path = require("path");
const { MOST_BYTES, MOST_FILES, toUri } = require("../node/files.js");
const { LIST, keyOf } = require("../node/programs.js");
const { findingOf, likelyEdit, nameBehind } = require("../../web/logic/fault-words.js");
const { Pieces, faultsOfFiles } = require("../../web/logic/pieces.js");
const { Text } = require("./ranges.js");
const { Ended } = require("./session.js");

const ERROR = 1, WARNING = 2, INFORMATION = 3, HINT = 4;
const UNCHECKED = "not checked: ";
// The end of the message of an error that the files have only after fixes.
const LATER = " (appears once the other errors are fixed)";
// The fewest fixes that are offered together.
const FEWEST_TOGETHER = 2;
const MAIN = "class Main { main() : Object { 0 }; };";

function note(severity, message, range, more) {
    const start = { line: 0, character: 0 };
    return { range: range ?? { start, end: start }, severity, source: "cool", message, ...more };
}

// Whether a diagnostic says that its program was not checked.
const isUnchecked = (it) => it.message.startsWith(UNCHECKED);

const isAsBefore = (one, other) => one.size === other.size && [...one].every(([key, value]) => other.has(key) && other.get(key) === value);

// The words of a fault with what was found: a list of problems shows nothing else of it.
function messageOf(words, fault, lexeme) {
    const found = fault && findingOf(fault.facts);
    if (found) return `${words}: ${found}`;
    return fault ? words + nameBehind(words, lexeme) : words;
}

// A program whose files, null where one is missing, are as they are: which of them are open, each with whether it is stored with a byte order mark;
// what keeps faults from being told, as [path, diagnostic]; and its runs: files that were checked under a key, and their faults, as
// [path, line, kind, words]. The second run is with a class Main, where that alone is wanting.
class Program {
    constructor(files, there) {
        Object.assign(this, { files, there, remarks: [], runs: [] });
        // { known: what the runs were told with, found: diagnostics by path; by path, too, with diagnostics: explained, later, together, noticed }
        this.told = undefined;
    }

    isAs(files, there) {
        return isAsBefore(this.files, files) && isAsBefore(this.there, there);
    }
}

// Diagnostics of programs, kept as long as their files stay as they are.
class Checker {
    kept = new Map(); // by its key: Program
    texts = new Map(); // by path: Text
    columns = new Map(); // by path, kind, words and the line's bytes: { path, where the fault began and ended, from the beginning of the line }

    constructor(files, programs, session, explainer, pieces = new Pieces()) {
        Object.assign(this, { files, programs, session, explainer, pieces });
    }

    // A promise of the diagnostics by path of all programs that have an open file.
    async all() {
        const programs = new Map([...this.files.open.keys()].flatMap((it) => this.programs.of(it)).map((it) => [keyOf(it), it]));
        const kept = new Map(), found = new Map([...this.files.open.keys()].map((it) => [it, []])), said = new Map();
        for (const key of [...programs.keys()].sort()) {
            const paths = programs.get(key), files = new Map(paths.map((it) => [it, this.files.data(it)]));
            const there = new Map(paths.filter((it) => this.files.open.has(it)).map((it) => [it, this.files.hasMark(it)]));
            const old = this.kept.get(key);
            kept.set(key, old?.isAs(files, there) ? old : await this.check(new Program(files, there)));
            for (const [it, notes] of this.diagnostics(kept.get(key))) addNew(found, said, it, notes);
        }
        this.kept = kept;
        const used = new Set([...programs.values()].flat());
        this.texts = new Map([...this.texts].filter(([it]) => used.has(it)));
        this.columns = new Map([...this.columns].filter(([, it]) => used.has(it.path)));
        this.explainer.want(new Map([...kept.values()].flatMap((it) => it.runs.map((run) => [run.key, run.files]))));
        this.programs.forget();
        return found;
    }

    // The explanations of a file, each with its diagnostic: its faults; those that it has only after fixes (later); for each of these and those all fixes of
    // its program (together); or its notices that have a fix (noticed).
    explained(file, what = "explained") {
        return [...this.kept.values()].flatMap((it) => it.told[what].get(file) ?? []);
    }

    // The files, by their keys, of each program that is a class table: it has no faults but those of typing.
    whole() {
        const isWhole = (it) => it.runs.length > 0 && ![...it.files.values()].includes(null) && it.runs.at(-1).faults.every(([, , kind]) => kind[0] === "E");
        return new Map([...this.kept].filter(([, it]) => isWhole(it)).map(([key, it]) => [key, it.files]));
    }

    // Whether an explanation of a file is still to come, or to be told.
    waits(file) {
        const due = [...this.kept.values()].filter((it) => it.files.has(file)).flatMap((it) => it.runs.filter((_, i) => it.told.known[i] === undefined));
        return due.some((run) => this.explainer.isUnderWay(run.key) || this.explainer.of(run.key, run.files) !== undefined);
    }

    // Faults

    // A promise of a program with what is found of it.
    async check(program) {
        const remark = (severity, message) => program.there.forEach((_, it) => program.remarks.push([it, note(severity, message)]));
        const marked = "the file is stored with a byte order mark, which the program does not take (L1): save it without";
        program.there.forEach((isMarked, it) => isMarked && program.remarks.push([it, note(WARNING, marked)]));
        for (const [it, data] of program.files) if (data === null) remark(WARNING, `${path.basename(it)} is missing: the program is checked without it`);
        const files = new Map([...program.files].filter(([, data]) => data !== null));
        const many = `${files.size} files, and ${MOST_FILES} are the most (${LIST} says which files are one)`;
        if (files.size > MOST_FILES) remark(WARNING, `${UNCHECKED}the program has ${many}`);
        else if (sizeOf(files) > MOST_BYTES) remark(WARNING, `${UNCHECKED}the program has more than ${MOST_BYTES} bytes`);
        else if (files.size > 0) {
            try {
                program.runs = await this.runs(files);
            } catch (error) {
                if (!(error instanceof Ended)) throw error;
                remark(WARNING, UNCHECKED + error.message);
            }
        }
        return program;
    }

    // A promise of the faults of files, as `check` tells them; where only the class Main is wanting, those that it would tell with one, too.
    async runs(files) {
        const first = await this.run(files), { faults } = first;
        const wantsMain = faults.length === 1 && faults[0][2] === "C6" && files.size < MOST_FILES && sizeOf(files) + MAIN.length <= MOST_BYTES;
        return wantsMain ? [first, await this.run(new Map([...files, ["", MAIN]]))] : [first];
    }

    async run(files) {
        const pieces = this.pieces.of(files), rows = await this.session.faults(new Map(pieces.map((it) => [it.key, it.data])));
        return { key: keyOf([...files.keys()]), files, faults: faultsOfFiles(rows, pieces) };
    }

    // Diagnostics

    // The diagnostics by path of a program, as far as it is explained.
    diagnostics(program) {
        const known = program.runs.map((run) => this.explainer.of(run.key, run.files));
        if (program.told && known.every((it, i) => it === program.told.known[i])) return program.told.found;
        const lists = { explained: new Map(), later: new Map(), together: new Map(), noticed: new Map() };
        const told = { known, found: new Map([...program.files.keys()].map((it) => [it, []])), ...lists };
        if (known.some(Boolean)) this.columns = new Map([...this.columns].filter(([, it]) => !program.files.has(it.path)));
        for (const [it, remark] of program.remarks) told.found.get(it).push(remark);
        program.runs.forEach((run, i) => this.add(run, known[i], told));
        addHidden(program, told.found);
        // The errors after the fix of a missing class Main are those of the second run.
        if (known.length > 0 && known.at(-1)?.fits(program.runs.at(-1).faults)) this.addLater(known.at(-1), told);
        program.told = told;
        return told.found;
    }

    // Adds the faults of a run, and the notices of open files. An explanation may be of another program than that of the session.
    add(run, explanation, { found, explained, noticed }) {
        const isFit = explanation?.fits(run.faults);
        run.faults.forEach(([file, line, kind, words], number) => {
            if (file === "") return;
            const fault = isFit ? explanation.faults[number] : undefined;
            const [range, lexeme] = this.range(file, line, kind, words, fault);
            const shown = note(ERROR, messageOf(words, fault, lexeme), range, { code: kind, ...this.related(fault) });
            found.get(file).push(shown);
            if (fault) addTo(explained, file, [fault, shown]);
        });
        for (const notice of isFit ? explanation.notices : []) {
            if (!this.files.open.has(notice.path)) continue;
            const fix = likelyEdit(notice.words), range = this.text(notice.path).range(notice.start, notice.end);
            const shown = note(fix ? WARNING : HINT, notice.words, range);
            found.get(notice.path).push(shown);
            if (fix) addTo(noticed, notice.path, [{ ...notice, ...fix, run }, shown]);
        }
    }

    // Adds the faults that the files have only after fixes, where they come from, and offers all fixes at each fault.
    addLater({ later, together }, told) {
        for (const fault of later) {
            const { path: file, at } = fault.origin;
            if (file === "") continue;
            const text = this.text(file), end = Math.min(at + fault.end - fault.start, text.endOfLine(text.line(at)));
            const shown = note(ERROR, messageOf(fault.words, fault, fault.lexeme) + LATER, text.range(at, Math.max(at, end)), { code: fault.kind });
            told.found.get(file).push(shown);
            addTo(told.later, file, [fault, shown]);
        }
        if (together.count < FEWEST_TOGETHER || together.edits.some((it) => it.path === "")) return;
        for (const all of [told.explained, told.later]) {
            for (const [file, faults] of all) faults.forEach(([, shown]) => addTo(told.together, file, [together, shown]));
        }
    }

    // The range of a fault, and what stands there: the one that is explained, else the one that the same fault had in the same line before, else the line.
    range(file, line, kind, words, fault) {
        const text = this.text(file), begin = text.begin(line);
        const key = JSON.stringify([file, kind, words, text.data.slice(begin, text.end(line))]);
        if (fault) this.columns.set(key, { path: file, start: fault.start - begin, end: fault.end - begin });
        const columns = this.columns.get(key);
        if (!columns) return [text.whole(line), ""];
        const start = begin + columns.start, end = begin + columns.end;
        return [text.range(start, end), text.data.slice(start, end)];
    }

    // Where what a fault names is defined, too, and where its value comes from.
    related(fault) {
        const place = ({ path: file, at }, message) => ({ location: { uri: this.files.uri(file), range: this.text(file).range(at, at) }, message });
        const values = (fault?.values ?? []).map((it) => place(it, "the value comes from here"));
        const all = fault?.other?.path ? [...values, place(fault.other, "defined here, too")] : values;
        return all.length > 0 ? { relatedInformation: all } : {};
    }

    text(file) {
        const data = this.files.data(file);
        if (this.texts.get(file)?.data !== data) this.texts.set(file, new Text(data));
        return this.texts.get(file);
    }
}

// Adds an item to the list of a file.
const addTo = (lists, file, item) => void lists.set(file, [...(lists.get(file) ?? []), item]);

const sizeOf = (files) => [...files.values()].reduce((sum, it) => sum + it.length, 0);

// Adds the diagnostics of a file that are not there; `said` has those that are, as text.
function addNew(found, said, file, notes) {
    if (!found.has(file)) found.set(file, []);
    if (!said.has(file)) said.set(file, new Set());
    for (const it of notes) {
        const text = JSON.stringify(it);
        if (!said.get(file).has(text)) found.get(file).push(it);
        said.get(file).add(text);
    }
}

// Adds to the open files that another one has faults, which may hide theirs.
function addHidden(program, found) {
    const hidden = [...found].find(([it, notes]) => notes.length > 0 && !program.there.has(it));
    if (!hidden) return;
    const [file, [first]] = hidden;
    const words = `checked with ${path.basename(file)}, which has errors: line ${first.range.start.line + 1}, ${first.code}: ${first.message}`;
    const place = { location: { uri: toUri(file), range: first.range }, message: first.message };
    for (const it of program.there.keys()) found.get(it).push(note(INFORMATION, words, undefined, { relatedInformation: [place] }));
}

module.exports = { Checker, ERROR, LATER, MAIN, isUnchecked };
