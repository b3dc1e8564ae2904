// Answers requests for signature help: the signature of the call that is being written, and the argument at the cursor.
"use strict";
const { matchesOf } = require("../node/bytes.js");
const { bare, matchAt } = require("../../web/logic/lexemes.js");
const { pathIn } = require("./answers.js");
const { foundAt } = require("./meanings.js");
const { formalsOf, parameters, spaced } = require("./members.js");
const { Text } = require("./ranges.js");
const { RESERVED } = require("./renames.js");

const NAME = /[a-z][A-Za-z0-9_]*[ \t\n\r\f\v]*$/;
const WORD = /[A-Za-z0-9_]*/y;
const SIGN = /[(){},;]/g;
const DEEPER = { ")": 1, "}": 1, "(": -1, "{": -1 };
// Bytes that are looked at before the cursor.
const MOST_BEFORE = 20000;
// Texts that complete a program behind an unfinished call.
const RESTS = ["", ";", ")", ");", ") }", " }; };", "; } }; };"];

class Calls {
    constructor(files, meanings) {
        Object.assign(this, { files, meanings });
    }

    // A promise of the signature of the method whose arguments are being written, or of undefined where there is none.
    async signature(params) {
        const file = pathIn(params), data = this.files.data(file), at = new Text(data).place(params.position);
        const call = callAround(bare(data)[0], at), found = call && (await this.called(file, data, at, call));
        if (!found) return undefined;
        const { mark, formals } = found;
        const shown = parameters(mark.type, formals).map((label) => ({ label }));
        const signature = { label: mark.name + spaced(mark.type, formals), parameters: shown };
        return { signatures: [signature], activeSignature: 0, activeParameter: call.commas };
    }

    // A promise of the mark of the name of a call, and the names of the method's formals. The program is asked with what is written of the arguments, then
    // without, and with what may close them; last come the marks of the last text that had some.
    async called(file, data, at, { start, opening }) {
        const behind = data.slice(at + matchAt(WORD, data, at)[0].length);
        const texts = [data, data.slice(0, opening + 1) + behind, ...RESTS.map((it) => `${data.slice(0, opening)}()${it}${behind}`)];
        let all;
        for (const it of texts) if ((all = await this.meanings.of(file, [[file, it]]))) break;
        const [marks, mark] = foundAt(all ?? (await this.meanings.before(file)), file, start);
        return mark?.role === "call" && mark.type !== "?" ? { mark, formals: formalsOf(marks, mark) } : undefined;
    }
}

// Where the name of the call begins whose arguments a place is in, where its parenthesis opens, and how many commas stand before the place; else undefined.
function callAround(code, at) {
    const least = Math.max(0, at - MOST_BEFORE), near = code.slice(least, at);
    let depth = 0, commas = 0;
    for (const { 0: sign, index } of [...matchesOf(SIGN, near)].reverse()) {
        if (depth === 0 && (sign === "{" || sign === ";")) return undefined;
        if (depth === 0 && sign === "(") {
            const name = NAME.exec(near.slice(0, index));
            if (name && !RESERVED.has(name[0].trim())) return { start: least + name.index, opening: least + index, commas };
            commas = 0;
            continue;
        }
        if (depth === 0 && sign === ",") commas += 1;
        depth += DEEPER[sign] ?? 0;
    }
    return undefined;
}

module.exports = { Calls };
