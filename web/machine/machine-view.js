// Shows a state of the machine: frames, registers, memory and output. Values that changed since the previous state are marked.
"use strict";

// The purpose of each register that has a fixed one.
const ROLES = { pc: "the next instruction", ...(typeof COOL_REGISTERS === "undefined" ? {} : COOL_REGISTERS) };
const MEMORY_WORDS = 32;

// The address in the field: a number, a label, or a register with or without an offset. It is undefined if the field has no such text.
function addressAsked(field, { state, listing }) {
    const [, register, offset = "0", number, label] = /^\s*(?:\$(\w+)\s*([+-]\s*\d+)?|(0x[0-9a-fA-F]{1,8})|([A-Za-z_.][\w.]*))\s*$/.exec(field) ?? [];
    const from = register !== undefined ? state.registers[register] : number !== undefined ? Number(number) : listing.labels.get(label);
    return from === undefined ? undefined : ((from + Number(offset.replace(/\s/g, ""))) & ~3) >>> 0;
}

// The contents of the view, as data.
function pictureOf(view) {
    const { state } = view;
    const from = addressAsked(at("address").value, view);
    return {
        frames: framesOf(view), watches: watchesOf(view),
        registers: REGISTERS.map((name) => ({ name, word: state.registers[name], text: describedRegister(name, view) })),
        memory: from === undefined ? [] : Array.from({ length: MEMORY_WORDS }, (_, i) => ({ address: from + 4 * i, word: state.peek(from + 4 * i) })),
    };
}

// Describes the word of a register. It returns "" for a word that is only a number, because a register may hold anything.
function describedRegister(name, view) {
    const word = view.state.registers[name];
    if (word < TEXT_START || (name !== "pc" && name !== "ra" && word < DATA_START)) return "";
    const { text } = described(word, view);
    return /^-?\d+$/.test(text) ? "" : text;
}

// Shows the frames. `showEntries` moves the focus to the new button of the object that was opened.
function showFrames(frames, before) {
    showEntries("frames", frames.flatMap(({ title, place, entries }) => {
        const link = place ? element("button", { onclick: () => goTo(place.file, place.line), title: "Show this line" }, `${place.file}:${place.line}`) : "";
        return [element("h3", {}, title, link), element("ul", {}, ...entries.map((it) => entryItem(it, before)))];
    }));
}

function showEntries(room, elements) {
    const focused = at(room).contains(document.activeElement) ? document.activeElement.dataset.path : undefined;
    at(room).replaceChildren(...elements);
    if (focused) [...at(room).querySelectorAll("button")].find((it) => it.dataset.path === focused)?.focus();
}

function showWatches(watches, before) {
    showEntries("watches", watches.map((it) => {
        const item = entryItem(it, before), label = { title: "Watch it no more", "aria-label": `Watch ${it.name} no more`, "data-watched": it.name };
        item.classList.toggle("untold", it.isWrong === true);
        item.querySelector(".name + span").after(" ", element("button", { className: "remove", ...label }, "×"));
        return item;
    }));
}

function entryItem(it, before) {
    const changed = before !== undefined && before.get(it.path) !== undefined && before.get(it.path) !== it.text + it.word;
    const value = element("span", { className: changed ? "changed" : "", title: Number.isInteger(it.word) ? hex(it.word) : "", textContent: it.text });
    const item = element("li", {}, element("span", { className: "name", textContent: it.name }), " = ", value);
    if (!it.opens) return item;
    const isOpen = it.entries !== undefined;
    const label = { "aria-expanded": String(isOpen), "aria-label": `attributes of ${it.name}` };
    const properties = { ...label, "data-path": it.path };
    item.prepend(element("button", properties, isOpen ? "▾" : "▸"));
    if (isOpen) item.append(element("ul", {}, ...it.entries.map((one) => entryItem(one, before))));
    return item;
}

// Maps the paths of entries to their contents.
function shownEntries({ frames, watches }) {
    const all = new Map();
    const add = (it) => (all.set(it.path, it.text + it.word), it.entries?.forEach(add));
    frames.forEach((it) => it.entries.forEach(add));
    watches.forEach(add);
    return all;
}

function showRegisters(registers, before) {
    at("registers").replaceChildren(...registers.map(({ name, word, text: what }) => {
        const kinds = [before && before[name] !== word && "changed", what && "wide"].filter(Boolean);
        const label = (name === "pc" ? name : `$${name}`).padEnd(6);
        const properties = { role: "listitem", className: kinds.join(" "), title: ROLES[name] ?? "" };
        return element("div", properties, element("b", { textContent: label }), hex(word).slice(2), what && `  ${what}`);
    }));
}

function showMemory(memory, before) {
    if (memory.length === 0) return void (at("memory").textContent = "There is no such address: write 0x and digits, a label, or a register as in $fp+8.");
    at("memory").replaceChildren(...memory.flatMap(({ address, word }) => {
        const changed = before?.words.get(address) !== undefined && before.words.get(address) !== word;
        const shown = word === null || word === undefined ? "cannot be read" : `${hex(word).slice(2)}  ${lettersOf(word)}  ${word | 0}`;
        return [element("b", { textContent: `${hex(address)}  ` }), element("span", { className: changed ? "changed" : "", textContent: shown }), "\n"];
    }));
}

// The bytes of a word as characters, the lowest first.
function lettersOf(word) {
    const bytes = [word & 255, (word >>> 8) & 255, (word >>> 16) & 255, word >>> 24];
    return bytes.map((it) => (it > 31 && it < 127 ? String.fromCharCode(it) : "·")).join("");
}

// Shows the source line of the machine's position again beside the machine, because a phone does not show the text at the same time.
function showSourceLine(place) {
    const i = place && fileNamed(place.file) === shownFile ? place.line - 1 : -1;
    const shown = coloured.lines[i] === undefined ? [] : [element("span", { className: "number" }, String(place.line)), paintedLine(...lineRow(i))];
    at("source-here").replaceChildren(...shown);
}

function showOutput(output) {
    at("said").hidden = output === "";
    at("so-far").textContent = output;
    at("so-far").scrollTop = at("so-far").scrollHeight;
}
