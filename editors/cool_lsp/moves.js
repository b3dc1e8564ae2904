// Finds the position that a place of a text has in a later version of the text, in which some lines were changed.
"use strict";

const LINE = /[^\n]*\n|[^\n]+/g;
const LETTER = /[A-Za-z0-9_]/;
// Between the first and the last line that changed, which are compared with one another.
const MOST_LINES = 2000;

const total = (lines) => lines.reduce((sum, it) => sum + it.length, 0);

// How many items two sequences begin and end with alike.
function sides(one, other) {
    const most = Math.min(one.length, other.length);
    let front = 0, back = 0;
    while (front < most && one[front] === other[front]) front += 1;
    while (back < most - front && one[one.length - 1 - back] === other[other.length - 1 - back]) back += 1;
    return [front, back];
}

// The pairs of numbers of lines that two lists have in common, in their order, and as many as may be.
function pairsOf(one, other) {
    const width = other.length + 1, best = new Uint16Array((one.length + 1) * width);
    for (let i = one.length - 1; i >= 0; i -= 1) {
        for (let j = other.length - 1; j >= 0; j -= 1) {
            const at = i * width + j;
            best[at] = one[i] === other[j] ? best[at + width + 1] + 1 : Math.max(best[at + width], best[at + 1]);
        }
    }
    const pairs = [];
    for (let i = 0, j = 0; i < one.length && j < other.length; ) {
        const at = i * width + j;
        if (one[i] === other[j]) pairs.push([i++, j++]);
        else if (best[at + width] >= best[at + 1]) i += 1;
        else j += 1;
    }
    return pairs;
}

// The stretches of bytes of a text that stand in a later one, as [start, end, start there].
function stretches(old, later) {
    const lines = old.match(LINE) ?? [], others = later.match(LINE) ?? [];
    const [front, back] = sides(lines, others);
    const middle = lines.slice(front, lines.length - back), changed = others.slice(front, others.length - back);
    let at = total(lines.slice(0, front)), there = at;
    const found = [[0, at, 0]];
    const isSmall = middle.length + changed.length <= MOST_LINES;
    let i = 0, j = 0;
    for (const [m, n] of [...(isSmall ? pairsOf(middle, changed) : []), [middle.length, changed.length]]) {
        const one = middle.slice(i, m).join(""), other = changed.slice(j, n).join("");
        const [left, right] = sides(one, other);
        found.push([at, at + left, there], [at + one.length - right, at + one.length, there + other.length - right]);
        at += one.length;
        there += other.length;
        const same = middle[m]?.length ?? 0;
        found.push([at, at + same, there]);
        at += same;
        there += same;
        [i, j] = [m + 1, n + 1];
    }
    return [...found, [at, old.length, there]];
}

// Places of a text in a later one.
class Moved {
    constructor(old, later) {
        this.later = later;
        this.stretches = stretches(old, later).filter(([start, end]) => start < end);
    }

    // Where a name that stood at a place stands now, or undefined.
    place(at, name) {
        const found = this.stretches.find(([start, end]) => start <= at && at + name.length <= end);
        if (!found) return undefined;
        const begin = found[2] + at - found[0], behind = begin + name.length;
        const isLetter = (it) => it !== undefined && LETTER.test(it);
        return isLetter(this.later[behind]) || isLetter(this.later[begin - 1]) ? undefined : begin;
    }
}

module.exports = { Moved };
