// The view "Help": sections of the documents, from help.js. Above them are the rows for the errors of the current program.
"use strict";

const HELP = typeof COOL_HELP === "undefined" ? [] : COOL_HELP;

const isTable = (part) => Array.isArray(part[0]);
// A text of help.js: each second piece is code.
const helpText = (pieces) => pieces.map((it, i) => (i % 2 === 0 ? it : element("code", {}, it)));
const helpRow = (cells, kind) => element("tr", {}, ...cells.map((it) => element(kind, {}, ...helpText(it))));
const helpTable = (head, rows) => element("table", {}, element("thead", {}, ...head), element("tbody", {}, ...rows.map((it) => helpRow(it, "td"))));

function helpPart(part) {
    return isTable(part) ? helpTable([helpRow(part[0], "th")], part.slice(1)) : element("p", {}, ...helpText(part));
}

// Maps kinds of errors, as in `E1: unknown name`, to their rows.
const ROWS_OF_FAULTS = new Map(HELP.flatMap(({ parts }) => parts.filter(isTable).flat()).map((row) => [row[0][1], row])
    .filter(([kind]) => /^[A-Z]\d+: /.test(kind ?? "")));

function showHelp() {
    const rows = [...new Set(faults.map((it) => it.words))].map((it) => ROWS_OF_FAULTS.get(it)).filter(Boolean);
    at("help-faults").replaceChildren(...(rows.length > 0 ? [element("h2", {}, "In this program"), helpTable([], rows)] : []));
}

for (const { heading, parts } of HELP) {
    const section = element("div", {}, element("h2", {}, heading), ...parts.map(helpPart));
    at("help-contents").append(element("button", { onclick: () => section.scrollIntoView() }, heading));
    at("help-sections").append(section);
}
