// The rule that is under way at a stop: the progress of the parts of an expression, the values of the completed parts, and the step by premises.
"use strict";

// The most characters shown of a part.
const MOST_OF_PART = 40;
const BINARY = new Set(["+", "-", "*", "/", "<", "<=", "="]);

// The progress of the parts of an expression at an address: each is "done", "now" or "due".
const progress = (span, address) => span.parts.map((it) => (it.to <= address ? "done" : it.from <= address ? "now" : "due"));

// The progress of several parts together. Without parts it is the progress of the premise before.
const together = (states, before) => (states.length === 0 ? before : states.every((it) => it === "done") ? "done"
    : states.every((it) => it === "due") ? "due" : "now");

// The progress of each premise of a rule. Premises that compute parts are in the order of the code. A premise between them is done with the next part. If
// all parts are done, the first premise behind them is under way.
function marksOfPremises(rule, states) {
    const singles = rule.premises.filter((it) => it.asks === "one").length, left = states.slice(), marks = [];
    for (const { asks } of rule.premises) {
        const before = marks.findLast((it) => it !== undefined) ?? "done";
        marks.push(asks && together(left.splice(0, asks === "one" ? 1 : Math.max(0, states.length - singles)), before));
    }
    marks.forEach((it, i) => {
        if (it !== undefined) return;
        const next = marks.slice(i).find((x) => x !== undefined);
        const before = marks.slice(0, i).includes("now") || marks.slice(0, i).includes("due");
        marks[i] = before ? "due" : next === undefined || next === "due" ? "now" : "done";
    });
    return marks;
}

// The innermost frame in which an expression is under way, with that expression: { frame, span }. A routine of the run time belongs to the expression
// that called it.
function underWay(frames, table) {
    for (const frame of frames) {
        const span = frame.pc === undefined ? undefined : spansAt(table, frame.pc).at(-1);
        if (span) return { frame, span };
    }
    return undefined;
}

// The words of the completed parts that the machine still has: a word is pushed while later parts are computed, or is in $a0 behind the last part.
function wordsOfParts(span, frame, { state }) {
    const isInner = frame.pc === state.registers.pc, isPushed = CALLS.has(span.form) || BINARY.has(span.form);
    return span.parts.map((it, i) => {
        if (it.to > frame.pc) return undefined;
        if (isInner && it.to === frame.pc) return state.registers.a0;
        const address = frame.fp - 4 * (span.depth + i + 1);
        return isPushed && i < span.parts.length - 1 && address >= frame.below ? state.peek(address) : undefined;
    });
}

// The parts of the expression that is under way in a frame, in the order of the code: { name, progress, word }. The name is the text of the part, and the
// word is undefined if the machine no longer has it.
function partsUnderWay(frame, view) {
    const { span } = underWay([frame], view.table) ?? {};
    if (span === undefined) return [];
    const states = progress(span, frame.pc), words = wordsOfParts(span, frame, view), { trees } = view;
    return span.parts.map((it, i) => ({ name: `${i + 1}: ${trees.textOf(trees.nodeAt(it), MOST_OF_PART)}`, progress: states[i], word: words[i] }));
}

// Moves to the beginning of the next part, or to the end of the part that is under way or of the expression. It does not enter called methods.
function overPremise(from, breaks, more) {
    const { frame, span } = underWay(from.frames, from.table) ?? {};
    if (span === undefined) return over(from, breaks, more);
    const ends = new Set([...span.parts.flatMap((it) => [it.from, it.to]), span.to].filter((it) => it > frame.pc));
    return runTo(from, [], (it) => ends.has(it.pc) && it.fp === frame.fp, breaks, { ...more, addresses: [...ends] });
}
