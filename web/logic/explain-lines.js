// Reads the lines of `cool_explain --lines` (docs/explain.md), for the page and the language server. Positions are offsets in bytes,
// and each file is given by its number.
"use strict";

// Decodes the words and texts of a line, in which \n is a newline and \\ a backslash.
const plainWords = (words) => words.replace(/\\([n\\])/g, (_, it) => (it === "n" ? "\n" : "\\"));

// Splits a line at its first blank.
function parted(line) {
    const blank = line.indexOf(" ");
    return blank < 0 ? [line, ""] : [line.slice(0, blank), line.slice(blank + 1)];
}

// The numbers of a place.
function numbersOf(place) {
    if (!/^\d+(:\d+)*$/.test(place)) throw new Error(`no place: ${place}`);
    return place.split(":").map(Number);
}

// The list that a line belongs to: the errors of the last step, or those of the files as they are.
const faultsOf = ({ faults, steps }) => steps.at(-1)?.faults ?? faults;

function editOf(rest) {
    const [place, text] = parted(rest), [file, start, end] = numbersOf(place);
    return { file, start, end, text: plainWords(text) };
}

// The reader for each first word of a line. A reader adds the line to what was read before.
const EXPLAIN_READERS = {
    fault(found, rest) {
        const [place, all] = parted(rest), [kind, words] = parted(all), faults = faultsOf(found), { origins } = found.steps.at(-1) ?? {};
        const [file, line, start, end] = numbersOf(place);
        const origin = origins && { origin: located(origins[faults.length]) };
        faults.push({ file, line, start, end, kind: kind.replace(/:$/, ""), words: plainWords(words), facts: [], values: [], mends: [], ...origin });
    },
    rule(found, rest) {
        const [, name, premise] = /^(\w+): (.*)$/.exec(rest);
        faultsOf(found).at(-1).rule = { name, premise };
    },
    fact(found, rest) {
        faultsOf(found).at(-1).facts.push(plainWords(rest));
    },
    value(found, rest) {
        const [file, , at] = numbersOf(rest);
        faultsOf(found).at(-1).values.push({ file, at });
    },
    other(found, rest) {
        const [file, , at] = numbersOf(rest);
        faultsOf(found).at(-1).other = { file, at };
    },
    cure(found, rest) {
        faultsOf(found).at(-1).cure = plainWords(rest);
    },
    mend(found, rest) {
        found.title = plainWords(rest);
    },
    edit(found, rest) {
        faultsOf(found).at(-1).mends.push({ words: found.title, ...editOf(rest) });
    },
    apply({ steps }, rest) {
        if (steps.at(-1)?.origins.length !== 0) steps.push({ edits: [], origins: [], faults: [] });
        steps.at(-1).edits.push(editOf(rest));
    },
    origin({ steps }, rest) {
        const [file, at] = numbersOf(rest);
        steps.at(-1).origins.push({ file, at });
    },
    notice({ notices }, rest) {
        const [place, words] = parted(rest), [file, , start, end] = numbersOf(place);
        notices.push({ file, start, end, words: plainWords(words) });
    },
};

function located(origin) {
    if (!origin) throw new Error("a fault without an origin");
    return origin;
}

// Parses lines to { faults, steps, notices }, and throws if a line has no known form.
// - A fault has { file, line, start, end, kind, words, facts, values, mends }, where `values` are the places { file, at } of the expressions that give its
//   value, and `mends` its fixes { words, file, start, end, text }, the likeliest first. It may have { rule: { name, premise }, other: { file, at }, cure }.
// - A step has { edits, faults }: the edits { file, start, end, text } that are made one after the other, each in the files after those before it and after
//   all earlier steps, and the errors that come next. Their places are those in the files after the edits, but `origin`, { file, at }, is the place in
//   the given files.
// - A notice has { file, start, end, words }.
function explanationLines(lines) {
    const found = { faults: [], steps: [], notices: [] };
    for (const line of lines.split("\n").slice(0, -1)) {
        const [head, rest] = parted(line);
        if (!Object.hasOwn(EXPLAIN_READERS, head)) throw new Error(`no line of an explanation: ${line}`);
        EXPLAIN_READERS[head](found, rest);
    }
    if (found.steps.some((it) => it.faults.length === 0 || it.faults.length < it.origins.length)) throw new Error("an origin without a fault");
    return found;
}

if (typeof module === "object") module.exports = { explanationLines };
