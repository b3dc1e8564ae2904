// The editor: a text area with invisible characters, in front of the visible lines, which are painted. Beside it are the numbers of the lines, with marks of
// errors and breakpoints.
"use strict";

const text = at("text");
let coloured = { lines: [""], states: [0] };

const lineHeight = () => parseFloat(getComputedStyle(text).lineHeight);
const cursorLine = () => text.value.slice(0, text.selectionStart).split("\n").length;

// The marks in the file that is shown. Maps from a line's number have its errors, its marked ranges ([from, to, kind]), the text about breaks that stop there
// or elsewhere, and the colour of its code. `here` is the line of the machine, and `lit` the line whose code is marked.
const marks = { faults: new Map(), ranges: new Map(), breaks: new Set(), stops: new Map(), tints: new Map(), here: undefined, lit: undefined };

function paint() {
    const height = lineHeight(), { scrollTop, scrollLeft, clientHeight } = text;
    const first = Math.floor(scrollTop / height);
    const last = Math.min(coloured.lines.length, first + Math.ceil(clientHeight / height) + 1);
    const shown = Array.from({ length: last - first }, (_, i) => first + i);
    showRows(at("paint"), shown.map(lineRow), paintedLine);
    showRows(at("gutter"), shown.map((i) => numberRow(i + 1)), paintedNumber);
    const up = first * height - scrollTop;
    at("paint").style.transform = `translate(${-scrollLeft}px, ${up}px)`;
    at("gutter").style.transform = `translateY(${up}px)`;
}

const kindsOf = (...kinds) => kinds.filter(Boolean).join(" ");

// The row of a line. It contains the ranges as text, because rows are compared as text.
function lineRow(i) {
    const kinds = kindsOf("line", marks.here === i + 1 && "here", marks.lit === i + 1 && "lit");
    return [kinds, coloured.states[i], coloured.lines[i], JSON.stringify(marks.ranges.get(i + 1) ?? [])];
}

function paintedLine(kinds, state, line, ranges) {
    const parts = markedParts(colouredLine(line, state).parts, line, JSON.parse(ranges));
    return element("div", { className: kinds }, ...parts.map(([kind, part]) => (kind ? element("span", { className: kind }, part) : part)));
}

// The parts of a line, split also at the ends of ranges, each with the kind of its range. A range has at least one character. At the end of the line a blank
// shows it. A range without an end goes to the end of the line.
function markedParts(parts, line, ranges) {
    if (ranges.length === 0) return parts;
    const indent = line.length - line.trimStart().length;
    const all = ranges.map(([from, to, kind]) => [Math.max(from, Math.min(indent, to ?? indent)), Math.max(from + 1, to ?? line.length), kind]);
    const edges = all.flatMap(([from, to]) => [from, to]);
    const found = [];
    let at = 0;
    for (const [kind, part] of parts) {
        const end = at + part.length;
        const cuts = [at, ...new Set(edges.filter((it) => it > at && it < end).sort((a, b) => a - b)), end];
        for (let i = 1; i < cuts.length; i += 1) {
            const range = all.find(([from, to]) => from <= cuts[i - 1] && cuts[i] <= to);
            found.push([kindsOf(kind, range?.[2]), line.slice(cuts[i - 1], cuts[i])]);
        }
        at = end;
    }
    const behind = all.find(([from]) => from >= line.length);
    return behind ? [...found, [behind[2], " "]] : found;
}

function numberRow(line) {
    const stop = marks.stops.get(line);
    const own = [marks.faults.has(line) && "bad", marks.breaks.has(line) && "break", stop && !marks.breaks.has(line) && "stop", marks.here === line && "here"];
    return [kindsOf("number", ...own, marks.tints.get(line)), line, marks.faults.get(line) ?? stop ?? ""];
}

const paintedNumber = (kinds, line, words) => element("div", { className: kinds, textContent: line, title: words });

// Reads the text of the text area and paints it.
function repaint() {
    coloured = colouredLines(text.value, coloured);
    at("gutter-room").style.width = `${Math.max(3, String(coloured.lines.length).length) + 3}ch`;
    paint();
}

function showText(value, from = 0, to = from, top = 0) {
    text.value = value;
    repaint();
    text.setSelectionRange(from, to);
    text.scrollTop = top;
    paint();
}

// The offset in the text area of a line and a column.
function indexOf({ line, column }) {
    return coloured.lines.slice(0, line - 1).reduce((sum, it) => sum + it.length + 1, 0) + column;
}

function scrollToLine(line) {
    const height = lineHeight();
    const from = (line - 1) * height;
    if (from < text.scrollTop || from > text.scrollTop + text.clientHeight - 2 * height) text.scrollTop = Math.max(0, from - text.clientHeight / 3);
    paint();
}

function selectLine(line) {
    const start = indexOf({ line, column: 0 });
    text.focus();
    text.setSelectionRange(start, start + (coloured.lines[line - 1] ?? "").length);
    scrollToLine(line);
}

// Inserts text through the browser, so that the user can undo it.
function typed(what) {
    document.execCommand("insertText", false, what);
}

// The Tab key indents by two blanks, and Shift+Tab removes them. After Escape the Tab key leaves the editor, so that keyboard users can leave it.
let tabLeaves = false;

function editorKey(event) {
    if (event.ctrlKey || event.altKey || event.metaKey || event.isComposing) return;
    if (event.key === "Escape") return void (tabLeaves = true);
    if (event.key === "Tab" && !tabLeaves) event.preventDefault(), event.shiftKey ? unindent() : typed("  ");
    else if (event.key === "Enter") event.preventDefault(), typed("\n" + indentHere());
    if (event.key !== "Shift") tabLeaves = false;
}

function indentHere() {
    const before = text.value.slice(0, text.selectionStart);
    const line = before.slice(before.lastIndexOf("\n") + 1);
    return /^[ \t]*/.exec(line)[0] + (/[{(]\s*$/.test(line) ? "  " : "");
}

function unindent() {
    const start = text.value.lastIndexOf("\n", text.selectionStart - 1) + 1;
    const blanks = /^ {0,2}/.exec(text.value.slice(start))[0].length;
    if (blanks === 0) return;
    const { selectionStart: from, selectionEnd: to } = text;
    text.setSelectionRange(start, start + blanks);
    document.execCommand("delete");
    text.setSelectionRange(Math.max(start, from - blanks), Math.max(start, to - blanks));
}

text.addEventListener("scroll", paint);
text.addEventListener("keydown", editorKey);
new ResizeObserver(paint).observe(text);
