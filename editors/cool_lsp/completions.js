// Completion: the methods after a dot, and otherwise the names in scope. The program is asked with something in place of the word:
// what is being written is no class table.
"use strict";
const { matchAt } = require("../../web/logic/lexemes.js");
const { rightTrimmed } = require("../node/bytes.js");
const { pathIn } = require("./answers.js");
const { classesOf, members, resultOf } = require("./members.js");
const { Text } = require("./ranges.js");

const CONSTANT = /"$|(?<![A-Za-z0-9_])[0-9]+$/;
const BEGUN = /[A-Za-z0-9_]*$/;
const WORD = /[A-Za-z0-9_]*/y;
const DOT = /\.[ \t\n\r\f\v]*([A-Za-z0-9_]*)$/;
const RECEIVER = /[ \t\n\r\f\v]*(?:@[ \t\n\r\f\v]*[A-Z][A-Za-z0-9_]*[ \t\n\r\f\v]*)?\.[ \t\n\r\f\v]*$/;
const VARIABLES = ["attribute", "formal", "let", "case"];
// The kind of what completes a word.
const VARIABLE = 6;
// Bytes before a place in which what ends there is looked for.
const MOST_BEFORE = 2000;

// The match of a pattern that ends at an offset, and the offset where it begins.
function endingAt(pattern, data, at) {
    const from = Math.max(0, at - MOST_BEFORE), found = pattern.exec(data.slice(from, at));
    return found && { found, start: from + found.index };
}

class Completions {
    constructor(files, meanings) {
        Object.assign(this, { files, meanings });
    }

    async completion(params) {
        const file = pathIn(params), data = this.files.data(file), at = new Text(data).place(params.position);
        const dot = endingAt(DOT, data, at);
        return dot ? this.methods(file, data, at, dot) : this.variables(file, data, at);
    }

    async methods(file, data, at, { found, start }) {
        for (const rest of ["z()", "z();", "z() }"]) {
            const marks = await this.meanings.of(file, [[file, data.slice(0, start + 1) + rest + data.slice(at)]]);
            if (marks) return members(classesOf(marks), typeBefore(marks, file, data, start)).filter((it) => it.label.startsWith(found[1]));
        }
        return undefined;
    }

    // The names that have a meaning at a place, each of which is asked for as an expression there, and the methods of the class around it.
    async variables(file, data, at) {
        const begun = endingAt(BEGUN, data, at).found[0], start = at - begun.length, end = at + matchAt(WORD, data, at)[0].length;
        if (/^[A-Z]/.test(begun)) return undefined;
        let plain, rest;
        for (rest of ["", ";", ")", ");"]) { // what is not written yet
            plain = await this.meanings.of(file, [[file, `${data.slice(0, start)}0${rest}${data.slice(end)}`]]);
            if (plain?.length > 0) break;
        }
        plain ??= [];
        const own = plain.filter((it) => it.role === "class" && it.place.path === file && it.place.at < at).at(-1)?.name;
        const names = [...new Set(plain.filter((it) => VARIABLES.includes(it.role) && it.name.startsWith(begun)).map((it) => it.name))];
        const methods = begun ? members(classesOf(plain), own).filter((it) => it.label.startsWith(begun)) : [];
        const block = `{${names.map((it) => `${it};`).join("")}}`;
        const marks = names.length > 0 && (await this.meanings.of(file, [[file, data.slice(0, start) + block + rest + data.slice(end)]]));
        if (!marks) return plain.length > 0 ? methods : undefined;
        const isIn = ({ place: { path, at: it } }) => path === file && start < it && it < start + block.length;
        const found = marks.filter((it) => isIn(it) && it.type !== "?");
        return [...found.map((it) => ({ label: it.name, kind: VARIABLE, detail: it.type })), ...methods];
    }
}

// The type of what ends before a place: a constant, a name, a call, a class after `new` in parentheses.
function typeBefore(marks, file, data, dot) {
    const code = rightTrimmed(data.slice(0, dot));
    if (CONSTANT.test(code)) return code.endsWith('"') ? "String" : "Int";
    const ends = new Map([[code.length, ["variable", "type"]]]);
    if (code.endsWith(")")) ends.set(rightTrimmed(code.slice(0, -1)).length, ["type"]);
    ends.set(openingOf(code), ["call"]);
    const before = marks.filter((it) => it.place.path === file && it.place.at < dot);
    const own = before.filter((it) => it.role === "class").at(-1)?.name;
    const last = before.filter((it) => ends.get(it.end)?.includes(it.role)).at(-1);
    if (!last) return undefined;
    const type = last.role === "type" ? last.name : resultOf(last.type);
    if (type !== "SELF_TYPE") return type;
    const receiver = last.role === "call" && endingAt(RECEIVER, data, last.place.at);
    return receiver ? typeBefore(marks, file, data, receiver.start) : own;
}

// The end of what stands before the parentheses in which code ends, or -1.
function openingOf(code) {
    for (let depth = 0, start = code.length - 1; start >= 0; start -= 1) {
        depth += code[start] === ")" ? 1 : code[start] === "(" ? -1 : 0;
        if (depth <= 0) return start < code.length - 1 ? rightTrimmed(code.slice(0, start)).length : -1;
    }
    return -1;
}

module.exports = { Completions };
