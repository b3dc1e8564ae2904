// The options of a run: a list, from which the fields and the arguments of a command line are made.
"use strict";

// In the order of the page. The command line has `--ID`: with a number from `least` to `most`, at `first` in the beginning, or alone, where there are no
// bounds. `of` are the commands that take it, of which the machine runs `debug`; where it makes other states of the machine it `isOfMachine`. Where a run
// ends with `status`, for lack of it, the page says `more`.
const OPTIONS = [
    { id: "steps", least: 1, most: 1e15, first: 1_000_000_000, words: "Steps, at most", of: ["run", "eval", "debug"], status: 6, more: "take more steps" },
    { id: "heap", least: 4, most: 262_144, first: 32_768, words: "Heap, KiB", of: ["run", "debug"], status: 4, more: "have more heap", isOfMachine: true },
    { id: "stack", least: 4, most: 65_536, first: 8_192, words: "Stack, KiB", of: ["run", "debug"], status: 5, more: "have more stack", isOfMachine: true },
    { id: "fold", words: "Fold constants first", of: ["run"] },
];

function optionField({ id, least, most, first, words }) {
    const kind = most === undefined ? { type: "checkbox" } : { type: "number", min: least, max: most, defaultValue: first };
    return element("label", {}, element("span", {}, words), " ", element("input", { id, ...kind }));
}

// The number in a field; the nearest one within the bounds.
function numberOf(id, least, most) {
    const value = Math.trunc(Number(at(id).value));
    return Math.min(most, Math.max(least, Number.isFinite(value) ? value : least));
}

// The words by which a command has the options that it takes. `bounds` may have one that is lower, by the option's name.
function optionWords(command, bounds = {}) {
    return OPTIONS.filter((it) => it.of.includes(command)).flatMap(({ id, least, most }) => {
        if (most === undefined) return at(id).checked ? [`--${id}`] : [];
        return [`--${id}`, String(Math.min(numberOf(id, least, most), bounds[id] ?? most))];
    });
}

at("how").parentElement.after(...OPTIONS.map(optionField));
