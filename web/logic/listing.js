// Facts from the assembly of a program: the address of each instruction, label and word of data, and the classes in the order of their tags
// (docs/runtime.md has the conventions, docs/assembly.md the sizes).
"use strict";

const TEXT_START = 0x00400000, DATA_START = 0x10000000, HEAP_START = 0x20000000, STACK_END = 0x80000000;
// Matches the label and the statement of a line of assembly.
const LINE = /^\s*(?:([A-Za-z_.][\w.]*):\s*)?([^]*)$/;
const TWO_WORDS = /^(la|li|mul|bgt|ble|blt|bge)\b/;
// The routines that end a run with an error, and the texts that the page shows for them.
const ERRORS = {
    dispatch_abort: "dispatch to void", case_abort2: "case on void", case_abort: "no matching branch", div_abort: "division by zero",
    substr_abort: "substring out of range", overflow_abort: "arithmetic overflow", heap_limit: "heap used up", stack_limit: "stack used up",
    "Object.abort": "abort called",
};
const ROUTINE = /\.|_init$|^__start$|^equality_test$|_abort2?$|_limit$/;

// Parses the assembly of a program. It returns
//   rows      the instructions in order: { address, words, text, labels, number }, where the number counts lines of the assembly from 0
//   labels    a map from labels to addresses, also of data
//   units     the methods, initializers and routines in order: { name, from, to, formals, body: [from, to], leave }
//   classes   an array by tag: { name, methods }, where `methods` are the labels by slot
//   strings   a map from the addresses of Strings to their texts
//   rowAt     a map from addresses to indices of rows
//   errorAt   a map from addresses to the routines there that end the run with an error
function listingOf(assembly) {
    const lines = assembly.split("\n");
    const data = lines.findIndex((it) => it.trimStart() === ".data");
    const { rows, labels } = textOf(lines.slice(0, data));
    const words = dataOf(lines.slice(data + 1), labels);
    return {
        rows, labels, units: unitsOf(rows), classes: classesOf(words),
        rowAt: new Map(rows.map((it, i) => [it.address, i])),
        errorAt: new Map(Object.keys(ERRORS).map((it) => [labels.get(it), it])),
        strings: new Map([...words.strings].map(([label, it]) => [labels.get(label), it])),
    };
}

function textOf(lines) {
    const rows = [], labels = new Map();
    let address = TEXT_START, waiting = [];
    for (const [number, line] of lines.entries()) {
        const [, label, text] = LINE.exec(line);
        if (label !== undefined) labels.set(label, address), waiting.push(label);
        if (text === "" || text[0] === ".") continue;
        const words = TWO_WORDS.test(text) ? 2 : 1;
        rows.push({ address, words, text, labels: waiting, number });
        waiting = [];
        address += 4 * words;
    }
    return { rows, labels };
}

const ESCAPES = { n: "\n", t: "\t" };
const unescaped = (text) => text.replace(/\\(.)/g, (_, it) => ESCAPES[it] ?? it);

// Adds the addresses of the data's labels to `labels`. It returns the words behind each label, and the text of each String. A word is aligned to
// 4 bytes, and a label names the data after it, behind the zeros that align the data.
function dataOf(lines, labels) {
    const words = new Map(), strings = new Map();
    let address = DATA_START, last;
    for (const line of lines) {
        const [, label, text] = LINE.exec(line);
        if (label !== undefined) labels.set((last = label), address), words.set(label, []);
        if (text.startsWith(".word ")) {
            const all = text.slice(6).split(", ");
            address = (address + 3) & ~3;
            if (words.get(last)?.length === 0) labels.set(last, address);
            words.get(last)?.push(...all);
            address += 4 * all.length;
        } else if (text.startsWith(".asciiz ")) {
            const value = unescaped(text.slice(9, -1));
            strings.set(last, value);
            address += encode(value).length + 1;
        } else if (text.startsWith(".align ")) address = (address + 3) & ~3;
    }
    return { words, strings };
}

// The classes by tag. The words behind a table's label end with the -1 of the next object, which `filter` removes.
function classesOf({ words, strings }) {
    const names = (words.get("class_nameTab") ?? []).map((it) => strings.get(it));
    return names.map((name) => ({ name, methods: (words.get(`${name}_dispTab`) ?? []).filter((it) => it.includes(".")) }));
}

function unitsOf(rows) {
    const units = [];
    for (const { address, words, text, labels } of rows) {
        const name = labels.find((it) => ROUTINE.test(it));
        if (name !== undefined) units.push({ name, from: address, formals: 0 });
        const unit = units.at(-1);
        if (!unit) continue;
        unit.to = address + 4 * words;
        const popped = /^addiu \$sp, \$fp, (\d+)$/.exec(text);
        if (text === "move $fp, $sp") unit.body ??= [address + 4, address + 4];
        if (popped) unit.formals = (Number(popped[1]) - 12) / 4;
        if (text === "lw $s0, 0($fp)") unit.leave = address;
        if (text === "lw $fp, 4($fp)" && unit.body) unit.body[1] = address;
    }
    return units;
}

// The labels that the instruction at an address may call. `jal` names its callee; `jalr` calls the method in one slot of the receiver's table.
function calleesAt(listing, address) {
    const i = listing.rowAt.get(address), fixed = /^jal (.*)$/.exec(listing.rows[i].text);
    const slot = /^lw \$t0, (\d+)\(\$t0\)$/.exec(listing.rows[i - 1].text);
    const found = fixed ? [fixed[1]] : listing.classes.map((it) => it.methods[Number(slot?.[1]) / 4]);
    return [...new Set(found.filter(Boolean))];
}

// The last element whose `key` is at most the address, or undefined. The elements are sorted by this key.
function lastBefore(all, address, key) {
    let low = 0, high = all.length;
    while (low < high) {
        const middle = (low + high) >> 1;
        if (all[middle][key] <= address) low = middle + 1;
        else high = middle;
    }
    return all[low - 1];
}

function unitAt(listing, address) {
    const unit = lastBefore(listing.units, address, "from");
    return unit && address < unit.to ? unit : undefined;
}
