// Converts the explanations of `cool_explain --lines` to positions in the characters of the page.
"use strict";

class ExplanationPlaces {
    constructor(files) {
        this.names = files.map((it) => it.name);
        this.bytes = files.map((it) => encode(it.text));
        this.decoder = new TextDecoder("utf-8", { ignoreBOM: true });
    }

    // The file, line and column of an offset in bytes.
    place(file, at) {
        const before = this.decoder.decode(this.bytes[file].subarray(0, at));
        return { file: this.names[file], line: before.split("\n").length, column: before.length - before.lastIndexOf("\n") - 1 };
    }

    range({ file, start, end }) {
        return { from: this.place(file, start), to: this.place(file, end) };
    }

    edit({ words, text, ...range }) {
        return { words, ...this.range(range), text };
    }

    // An error of the files as they are.
    fault(fault) {
        const found = { line: fault.line, words: wordsOfFault(fault), ...this.range(fault), facts: fault.facts, cure: fault.cure };
        if (fault.rule) found.rule = fault.rule;
        found.values = fault.values.map((it) => this.place(it.file, it.at));
        if (fault.other) found.other = this.place(fault.other.file, fault.other.at);
        found.mends = fault.mends.map((it) => this.edit(it));
        return found;
    }

    // An error that the files have only after fixes, with the place from which it comes.
    later(fault) {
        const name = findingOf(fault.facts) ? "" : nameBehind(fault.words, fault.lexeme);
        return { words: wordsOfFault(fault) + name, origin: this.place(fault.origin.file, fault.origin.at), facts: fault.facts, cure: fault.cure };
    }
}

const wordsOfFault = ({ kind, words }) => `${kind}: ${words}`;

// Parses lines about these files to { faults, later, together, notices }, and throws if a line has no known form. A fault has { line, words, from, to, facts,
// values, mends }, where each fix of `mends` has { words, from, to, text }, and may have { rule: { name, premise }, other, cure }. An error of `later` has
// { words, origin, facts }, and may have `cure`. `together` has the number of the errors that have a fix, and the edits { from, to, text } that fix them.
function explanationOf(files, lines) {
    const found = explanationLines(lines), places = new ExplanationPlaces(files), { count, edits } = allFixes(found);
    const later = laterFaults(found, found.steps.length > 0 ? files.map((it) => byteLetters(it.text)) : []);
    return {
        faults: found.faults.map((it) => places.fault(it)),
        later: later.map((it) => places.later(it)),
        together: { count, edits: edits.map((it) => places.edit(it)) },
        notices: found.notices.map((it) => ({ words: it.words, ...places.range(it), mends: [] })),
    };
}
