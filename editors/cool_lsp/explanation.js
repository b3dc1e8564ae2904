// Reads the explanations of errors, and the warnings, that `cool_explain --lines` writes for a program.
"use strict";
const { explanationLines } = require("../../web/logic/explain-lines.js");
const { allFixes, laterFaults } = require("../../web/logic/fixes.js");

const UNREADABLE = "\ufffd";
const isReadable = (it) => !it.text.includes(UNREADABLE);

class Explanation {
    // `files` maps paths to bytes. The explanation has the faults in the order of `check`, the later ones, which come after fixes, all fixes together as
    // { count, edits }, and the notices. It throws where the lines are of no form that is known.
    constructor(files, lines) {
        const paths = [...files.keys()];
        const pathOf = (file) => {
            if (paths[file] === undefined) throw new Error(`no file ${file}`);
            return paths[file];
        };
        const located = (it) => ({ ...it, path: pathOf(it.file) });
        const told = explanationLines(lines), places = (it) => ({ values: it.values.map(located), other: it.other && located(it.other) });
        // An editor has no letters for some bytes.
        this.faults = told.faults.map((it) => ({ ...located(it), ...places(it), mends: it.mends.map(located).filter(isReadable) }));
        const isWhole = [told, ...told.steps].every((it) => [...(it.edits ?? []), ...it.faults.flatMap(({ mends }) => mends)].every(isReadable));
        this.later = laterFaults(told, isWhole ? [...files.values()] : undefined).map((it) => ({ ...it, origin: located(it.origin) }));
        const all = isWhole ? allFixes(told) : { count: 0, edits: [] };
        this.together = { count: all.count, edits: all.edits.map(located) };
        this.notices = told.notices.map(located);
    }

    // Whether these faults, as [path, line, kind, words], are the ones that are explained.
    fits(faults) {
        const isSame = (it, [path, line, kind, words]) => it.path === path && it.line === line && it.kind === kind && it.words === words;
        return faults.length === this.faults.length && this.faults.every((it, i) => isSame(it, faults[i]));
    }
}

module.exports = { Explanation };
