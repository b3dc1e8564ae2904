// Colours the assembly by the lines of its source, if the browser can colour ranges of a text. It also finds the code of a line, and the line of code.
"use strict";

const canColour = "highlights" in CSS;
const highlights = canColour ? Array.from({ length: TINTS }, (_, i) => newHighlight(`tint${i}`)) : [];
const litCode = canColour ? newHighlight("lit") : undefined;
// The assembly that is shown: the offset of each line, the number and source line of each instruction, and the ranges of each source line.
let shownCode;

function newHighlight(name) {
    const made = new Highlight();
    CSS.highlights.set(name, made);
    return made;
}

const nameOfLine = ({ file, line }) => `${line}:${file}`;

// Adds a range for each instruction that is shown.
function colourAssembly(all) {
    if (!canColour || at("assembly").hidden || !at("lines").firstChild) return;
    const starts = [0], most = at("lines").firstChild.length, view = viewOf(undefined);
    for (let i = all.indexOf("\n"); i >= 0 && i < most; i = all.indexOf("\n", i + 1)) starts.push(i + 1);
    const placed = view.listing.rows.map(({ address, number }) => ({ number, place: lineOfCode(address, view) }));
    const rows = placed.filter((it) => it.place && it.number + 1 < starts.length);
    shownCode = { starts, rows, ranges: new Map() };
    highlights.forEach((it) => it.clear());
    for (const { number, place } of rows) {
        const range = new StaticRange({
            startContainer: at("lines").firstChild, startOffset: starts[number], endContainer: at("lines").firstChild, endOffset: starts[number + 1] - 1,
        });
        const name = nameOfLine(place);
        highlights[place.line % TINTS].add(range);
        if (!shownCode.ranges.has(name)) shownCode.ranges.set(name, []);
        shownCode.ranges.get(name).push(range);
    }
}

function lightAssembly(place) {
    litCode?.clear();
    if (place && shownCode) shownCode.ranges.get(nameOfLine(place))?.forEach((it) => litCode.add(it));
}

const isAssemblyShown = () => !at("assembly").hidden && shownCode !== undefined;

// The source line of the instruction at a pointer.
function lineAtAssembly(event) {
    const { offsetNode, offset } = document.caretPositionFromPoint?.(event.clientX, event.clientY) ?? {};
    if (offsetNode !== at("lines").firstChild) return undefined;
    const number = shownCode.starts.findLastIndex((it) => it <= offset);
    return shownCode.rows.find((it) => it.number === number)?.place;
}

function scrollAssembly(line) {
    at("lines").scrollTop = line * parseFloat(getComputedStyle(at("lines")).lineHeight);
}

// Scrolls to the code of a line.
function showAssemblyOfLine(place) {
    const [first] = shownCode.ranges.get(nameOfLine(place)) ?? [];
    if (first) scrollAssembly(shownCode.starts.indexOf(first.startOffset) - 3);
}
