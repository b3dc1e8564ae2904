// Interprets the machine's memory by the conventions of docs/runtime.md: objects with the names of their classes and attributes, and the stack as frames.
// The functions take a view, { state, listing, table, numbers, textOf }. They peek at memory; State.settled calls them again after the words are read.
"use strict";

const MOST_LETTERS = 80, MOST_STRING_BYTES = 65_535, MOST_PUSHED = 100, MOST_FRAMES = 40, FRAME_BYTES = 12;

// Describes a word as { text }, with the `type` if it is an object. An Int also has its `value`. An object that is no Int, Bool or String has its address
// as `object`, and its class.
function described(word, view) {
    const { state, listing } = view;
    if (word === undefined || word === null) return { text: "" };
    if (word === 0) return { text: "void" };
    if (word >= TEXT_START && word < DATA_START) return { text: inText(word, listing) };
    const found = classAt(word, { state, listing });
    if (found === undefined) return { text: String(word | 0) };
    const type = found.name, number = state.peek(word + 12) | 0;
    if (type === "Int") return { text: `Int ${number}`, type, value: String(number) };
    if (type === "Bool") return { text: number === 1 ? "true" : "false", type };
    if (type === "String") return { text: `"${lettersAt(word, state)}"`, type };
    return { text: `${type}#${ordinalOf(word, type, view)}`, type, object: word, class: found };
}

// The number of an object within its class. The first object shown has the number 1. The number is the same in all states, because objects do not move.
function ordinalOf(object, type, { numbers }) {
    if (!numbers.has(type)) numbers.set(type, new Map());
    const shown = numbers.get(type);
    if (!shown.has(object)) shown.set(object, shown.size + 1);
    return shown.get(object);
}

function inText(address, listing) {
    const unit = unitAt(listing, address);
    if (unit === undefined) return hex(address);
    return address === unit.from ? unit.name : `${unit.name} + ${address - unit.from}`;
}

// The class of the object at an address, or undefined. An object has -1 before it, its tag at the address, and its dispatch table 8 bytes behind.
function classAt(address, { state, listing }) {
    const inData = address >= DATA_START && address < HEAP_START, inHeap = address >= HEAP_START && address < state.registers.gp;
    if (address % 4 !== 0 || (!inData && !inHeap)) return undefined;
    if (state.peek(address - 4) !== 0xffffffff) return undefined;
    const found = listing.classes[state.peek(address)];
    return found && state.peek(address + 8) === listing.labels.get(`${found.name}_dispTab`) ? found : undefined;
}

// The first bytes of the String at an address, at most `most`.
function bytesAt(address, state, most) {
    const bytes = new Uint8Array(Math.min(lengthAt(address, state), most));
    return bytes.map((_, i) => (state.peek(address + 16 + (i & ~3)) ?? 0) >>> (8 * (i % 4)));
}

const lengthAt = (address, state) => state.peek((state.peek(address + 12) ?? 0) + 12) ?? 0;
const escapedLetters = (text) => text.replace(/[\n\t]/g, (it) => (it === "\n" ? "\\n" : "\\t"));

function lettersAt(address, state) {
    const shown = escapedLetters(decode(bytesAt(address, state, MOST_LETTERS)));
    return lengthAt(address, state) > MOST_LETTERS ? `${shown}…` : shown;
}

// The attributes of the object at an address: { name, type, word }.
const attributesAt = (object, its, { state, table }) => attributesOf(its, table).map((it) => ({ ...it, word: state.peek(object + it.offset) }));

const attributesOf = (its, table) => table.attributes.get(its.name) ?? [];

// The attributes of the object at the address that a word contains. The list is empty for other words.
function partsOf(word, view) {
    const { object, class: its } = described(word, view);
    return object === undefined ? [] : attributesAt(object, its, view);
}

// An entry of the view: a name, a word and its description. If the path is open, the entry has the attributes of the object as `entries`.
function entry(name, word, path, view) {
    const { text, object, class: its } = described(word, view);
    const made = { name, word, text, path, opens: its !== undefined && attributesOf(its, view.table).length > 0 };
    if (made.opens && view.open.has(path)) made.entries = attributesAt(object, its, view).map((it, i) => entry(it.name, it.word, `${path}.${i}`, view));
    return made;
}

// A complete frame. The words at its $fp are the caller's $s0 and $fp and the return address. A routine without a frame has no fp.
function frameOf(unit, pc, fp, self, { state }) {
    return { unit, pc, fp, self, caller: state.peek(fp), next: state.peek(fp + 4), returns: state.peek(fp + 8) };
}

// The innermost frame. The first instructions of a method build its frame, up to the one that sets $fp, and its last instructions remove it.
function innermost(view) {
    const { pc, sp, fp, s0, a0, ra } = view.state.registers;
    const unit = unitAt(view.listing, pc);
    if (!unit?.body || pc > unit.body[1]) return { unit, pc, caller: s0, next: fp, returns: ra };
    if (pc < unit.body[0]) return { unit, pc, fp: pc === unit.from ? sp - FRAME_BYTES : sp, self: a0, caller: s0, next: fp, returns: ra };
    return frameOf(unit, pc, fp, pc <= unit.leave ? s0 : undefined, view);
}

// The frames from the innermost one, at most `most`: the values of frameOf with { title, place } and `below`, the address of the frame's last word on the
// stack. At an error the only frame is { title, place }. If there are more frames, the last one is { title: "…" }.
// Complete frames are added to `known`, and a repeated call takes them from there.
function stackOf(view, most, known = []) {
    const { state, listing, table } = view;
    if (state.ended) return [];
    const error = listing.errorAt.get(unitAt(listing, state.registers.pc)?.from);
    if (error) return [{ title: error, place: { file: listing.strings.get(state.registers.t8), line: state.registers.t9 } }];
    let next = known.length > 0 ? callerOf(known.at(-1), view) : { ...innermost(view), below: state.registers.sp };
    while (next.unit && next.unit.name !== "__start") {
        if (known.length >= most) return [...known.slice(0, most), { title: "…" }];
        const frame = { ...next, title: next.unit.name, place: placeAt(table, next.pc, listing) };
        if ([next.caller, next.next, next.returns].includes(undefined)) return [...known, frame];
        known.push(frame);
        next = callerOf(frame, view);
    }
    return known.slice();
}

function callerOf({ unit, fp, below, returns, next, caller }, view) {
    const its = unitAt(view.listing, returns);
    if (!its?.body) return {};
    return { ...frameOf(its, returns - 4, next, caller, view), below: fp === undefined ? below : fp + FRAME_BYTES + 4 * unit.formals };
}

// The frames, each with its words as `entries`.
const framesOf = (view) => stackOf(view, MOST_FRAMES).map((it, number) => ({ ...it, entries: entriesOf(it, number, view) }));

function entriesOf(frame, number, view) {
    const words = wordsIn(frame, view).map((it) => entry(it.name, it.word, `${number}.${it.key}`, view));
    return frame.self === undefined ? words : [entry("self", frame.self, `${number}.self`, view), ...words];
}

// The words of a frame: { name, type, word, key, isVariable }. They are the arguments, and then the words that the body pushed, down to `below`.
function wordsIn({ pc, fp, below }, { state, table, textOf }) {
    if (fp === undefined) return [];
    const formals = featureAt(table, pc)?.formals ?? [], spans = spansAt(table, pc);
    const words = formals.map((it, k) => ({ ...it, word: state.peek(fp + it.offset), key: `a${k}`, isVariable: true }));
    for (let i = 0, address = fp - 4; address >= below && i < MOST_PUSHED; i += 1, address -= 4) {
        const { name = `pushed ${i + 1}`, ...more } = pushedBy(spans, i, textOf);
        words.push({ name, ...more, word: state.peek(address), key: `p${i}` });
    }
    return words;
}

// The contents of a frame: { variables, computed, attributes }, each a list with name, word and type. The attributes are those of self.
function contentsOf(frame, view) {
    const words = frame === undefined ? [] : wordsIn(frame, view), self = frame?.self === undefined ? [] : [{ name: "self", word: frame.self }];
    const [variables, computed] = [true, false].map((is) => words.filter((it) => (it.isVariable ?? false) === is));
    return { variables: [...self, ...variables], computed, attributes: partsOf(frame?.self, view) };
}

// Returns a function from the place of an expression, { file, byte }, to the name in the text there.
function textsOf(files) {
    const bytes = new Map(files.map((it) => [it.name, encode(it.text)]));
    return ({ file, byte }) => /^\w*/.exec(decode(bytes.get(file).subarray(byte, byte + MOST_LETTERS)))[0];
}
