// Completes the beginning of a keyword to a whole expression or definition (a snippet with tab stops).
"use strict";
const { matchesOf } = require("../node/bytes.js");
const { bare } = require("../../web/logic/lexemes.js");
const { DEEPER, MARK } = require("../../web/logic/names.js");
const { pathIn } = require("./answers.js");
const { Text } = require("./ranges.js");

const BEGUN = /(?<![A-Za-z0-9_.@])[a-z]+$/;
// The kind of what completes a word, and the format of its text.
const SNIPPET = 15, FORM = 2;
const CLASS = "class ${1:Name} {\n  $0\n};";
const FORMS = {
    case: "case ${1:value} of\n  ${2:x} : ${3:Object} => ${0:x};\nesac",
    if: "if ${1:test} then\n  ${2:0}\nelse\n  ${0:0}\nfi",
    let: "let ${1:x} : ${2:Int} <- ${3:0} in\n  ${0:x}",
    while: "while ${1:test} loop {\n  $0;\n} pool",
};

// Offers snippets to clients that support them.
class Snippets {
    constructor(files) {
        Object.assign(this, { files, taken: false });
    }

    // The forms whose keyword begins as the word at a place does: in a class those of expressions, outside of them a class.
    completion(params) {
        const data = this.files.data(pathIn(params)), text = new Text(data), at = text.place(params.position);
        const [code] = bare(data), begun = this.taken && BEGUN.exec(code.slice(text.begin(text.line(at)), at));
        if (!begun) return [];
        let depth = 0;
        for (const [it] of matchesOf(MARK, code, 0, at)) depth += DEEPER[it.toLowerCase()] ?? 0;
        const forms = depth > 1 ? FORMS : depth === 0 ? { class: CLASS } : {};
        const found = Object.entries(forms).filter(([word]) => word.startsWith(begun[0]));
        return found.map(([label, insertText]) => ({ label, kind: SNIPPET, insertTextFormat: FORM, insertText }));
    }
}

module.exports = { Snippets };
