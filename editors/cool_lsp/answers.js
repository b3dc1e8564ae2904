// Answers requests about an error or a file, such as quick fixes and symbols, without a parser of its own.
"use strict";
const { toPath } = require("../node/files.js");
const { bare } = require("../../web/logic/lexemes.js");
const { outline } = require("../../web/logic/names.js");
const { ERROR, LATER, isUnchecked } = require("./diagnostics.js");
const { Text } = require("./ranges.js");

// The numbers of symbol kinds in the protocol.
const KINDS = { class: 5, method: 6, attribute: 8 };
const QUICKFIX = "quickfix";

// The path of the file that a request is about.
const pathIn = (params) => toPath(params.textDocument.uri);

// Answers requests about the files and the diagnostics of the last check.
class Answers {
    constructor(files, programs, checker, told, reasons) {
        Object.assign(this, { files, programs, checker, told, reasons });
    }

    // The diagnostics of a file.
    notes(file) {
        return this.told.get(this.files.uri(file))?.notes ?? [];
    }

    // Whether what is asked is about a fault whose explanation is still to come.
    waits(params) {
        const file = pathIn(params), range = params.range ?? { start: params.position, end: params.position };
        return this.checker.waits(file) && this.notes(file).some((it) => it.severity === ERROR && meets(it.range, range));
    }

    // The text about an error at a position: its explanation, the advice, and the rule that it breaks.
    async hover(params) {
        const range = { start: position(params.position), end: params.position };
        const [fault, note] = this.checker.explained(pathIn(params)).find(([, it]) => meets(it.range, range)) ?? [];
        if (!fault) return this.laterHover(pathIn(params), range);
        return { contents: { kind: "markdown", value: [told(fault), ...(await this.reasons.broken(fault))].join("\n\n") }, range: note.range };
    }

    // The text about an error that the files have only after fixes. It has no fix of its own.
    laterHover(file, range) {
        const [fault, note] = this.checker.explained(file, "later").find(([, it]) => meets(it.range, range)) ?? [];
        return fault && { contents: { kind: "markdown", value: told({ ...fault, mends: [] }, LATER) }, range: note.range };
    }

    // A promise of the edits that mend the faults of a range, and those that the editor names.
    async actions(params) {
        const { only, diagnostics } = params.context ?? {}, { range } = params, file = pathIn(params);
        position(range.start), position(range.end);
        if (!(only?.length ? only : [QUICKFIX]).some((it) => it === "" || it === QUICKFIX)) return [];
        const named = (Array.isArray(diagnostics) ? diagnostics : []).map((it) => [JSON.stringify(it.range), it.code]);
        const isDue = ([, it]) => meets(it.range, range) || named.some(([at, code]) => at === JSON.stringify(it.range) && code === it.code);
        const due = (what) => this.checker.explained(file, what).filter(isDue);
        const mends = due("explained").flatMap(([{ mends }, it]) => mends.filter(({ path }) => path).map((mend) => this.action(mend, it, mend === mends[0])));
        for (const [fix, it] of due("noticed")) if (await this.isGood(fix)) mends.push(this.action(fix, it));
        const together = due("together"), programs = [...new Set(together.map(([it]) => it))];
        return [...mends, ...programs.map((all) => this.actionOfAll(all, together.filter(([it]) => it === all).map(([, note]) => note)))];
    }

    // Whether the program with an edit is one without faults.
    async isGood({ path, start, end, text, run }) {
        const data = run.files.get(path);
        const said = await this.checker.explainer.tried(new Map([...run.files, [path, data.slice(0, start) + text + data.slice(end)]]));
        return said?.faults.length === 0;
    }

    action(edit, note, isPreferred = true) {
        return { title: edit.words, kind: QUICKFIX, diagnostics: [note], isPreferred, edit: this.changes([edit]) };
    }

    // All fixes of a program, as one action.
    actionOfAll({ count, edits }, notes) {
        return { title: `Fix all errors that have a fix (${count})`, kind: QUICKFIX, diagnostics: notes, isPreferred: false, edit: this.changes(edits) };
    }

    // Edits of files, as the editor takes them.
    changes(edits) {
        const changes = {};
        for (const { path, start, end, text } of edits) {
            const made = { range: new Text(this.files.data(path)).range(start, end), newText: text };
            (changes[this.files.uri(path)] ??= []).push(made);
        }
        return { changes };
    }

    // The classes and features of a file that parses; of another file those of the classes before its fault. Nothing where it isn't known whether the file
    // parses: if it was not checked, or if another file has a lexical error, which hides syntax errors.
    symbols(params) {
        const file = pathIn(params), notes = this.notes(file);
        const others = new Set(this.programs.of(file).flat().filter((it) => it !== file));
        if (notes.some(isUnchecked) || [...others].some((it) => this.notes(it).some((one) => kindOf(one) === "L"))) return [];
        const text = new Text(this.files.open.get(file).data);
        let classes = outline(bare(text.data)[0]);
        for (const fault of notes.filter((it) => "LS".includes(kindOf(it) || " "))) {
            const end = text.place(fault.range.start);
            classes = classes.filter((it) => it.at < it.end && it.end <= end);
        }
        return classes.map((it) => symbol(text, it));
    }
}

// An explained fault as a person reads it, with a remark behind its words.
function told({ kind, words, facts, cure, mends }, remark = "") {
    const parts = [`**${kind}: ${words}**${remark}`, facts.map((it) => `- ${it}`).join("\n"), cure ? `To fix it: ${cure}.` : ""];
    const form = mends.length > 1 ? "edits (code actions)" : "an edit (code action)";
    parts.push(mends.length > 0 ? `Tried, as ${form}: ${mends.map((it) => it.words).join("; or ")}.` : "");
    return parts.filter(Boolean).join("\n\n");
}

// The letter of a fault's kind, or nothing.
const kindOf = (note) => (note.code ?? "")[0] ?? "";

// A position, which has numbers.
function position(it) {
    if (!Number.isFinite(it.line) || !Number.isFinite(it.character)) throw new TypeError("a position needs a line and a character");
    return it;
}

const isUpTo = (one, other) => one.line < other.line || (one.line === other.line && one.character <= other.character);

// Whether a range has a place of another, or ends at it.
const meets = (range, other) => isUpTo(range.start, other.end) && isUpTo(other.start, range.end);

function symbol(text, { name, kind, start, end, at, parts }) {
    const places = { range: text.range(start, end), selectionRange: text.range(at, at + name.length) };
    return { name, kind: KINDS[kind], ...places, children: parts.map((it) => symbol(text, it)) };
}

module.exports = { Answers, QUICKFIX, pathIn, position };
