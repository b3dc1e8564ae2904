// Shows the code of a method, coloured by the source lines that it belongs to. It also links a line with its code.
"use strict";

const MOST_CODE_ROWS = 300, TINTS = 6;

// The line whose code is marked, { file, line }, and the lines that have code here, with their colours.
let light, tints = { file: undefined, lines: new Map() };

// Shows the code around an address, within its unit. Without an address it is the one of the pc.
function showCode(view, address = view.state.registers.pc) {
    const { listing, state } = view, { pc } = state.registers;
    const unit = unitAt(listing, address), code = at("code");
    const middle = listing.rowAt.get(address) ?? listing.rowAt.get(address - 4), now = listing.rowAt.get(pc) ?? listing.rowAt.get(pc - 4);
    if (unit === undefined || middle === undefined) return code.replaceChildren();
    const first = Math.max(listing.rowAt.get(unit.from), middle - MOST_CODE_ROWS / 2);
    const shown = listing.rows.slice(first, first + MOST_CODE_ROWS).filter((it) => it.address < unit.to);
    const lines = shown.map((it) => lineOfCode(it.address, view));
    tints = { file: lines.find(Boolean)?.file, lines: new Map(lines.filter(Boolean).map((it) => [it.line, `tint${it.line % TINTS}`])) };
    code.replaceChildren(...shown.flatMap((row, i) => codeRows(row, lines[i], lines[i - 1], first + i === now)));
    const current = code.querySelectorAll(".row")[middle - first];
    code.scrollTop = current.offsetTop - code.offsetTop - code.clientHeight / 3;
    lightCode();
    showMarks();
    paint();
}

// The elements of an instruction and its labels. The source line is shown if it differs from that of the instruction before.
function codeRows({ address, text: words, labels }, place, before, isHere) {
    const made = labels.flatMap((it) => [element("span", { className: "label", textContent: `${it}:` }), "\n"]);
    const kinds = kindsOf("row", isHere && "here", place && `tint${place.line % TINTS}`);
    const data = place ? { "data-file": place.file, "data-line": String(place.line), title: "Show this line" } : {};
    const row = element("span", { className: kinds, ...data, textContent: `  ${hex(address).slice(2)}  ${words}` });
    if (place && !isOneLine(place, before)) row.append(element("span", { className: "place", textContent: `   ${place.file}:${place.line}` }));
    return [...made, row, "\n"];
}

// Marks the code of the marked line.
function lightCode() {
    for (const it of at("code").querySelectorAll(".row")) {
        it.classList.toggle("lit", light !== undefined && it.dataset.file === light.file && Number(it.dataset.line) === light.line);
    }
}

const placeOfRow = (row) => (row?.dataset.line ? { file: row.dataset.file, line: Number(row.dataset.line) } : undefined);

whenever("marked", (file) => {
    marks.lit = lineIn(file, light);
    marks.tints = isMachineShown() && tints.file === file.name ? tints.lines : new Map();
});
