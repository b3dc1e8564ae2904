// Shows rules as elements of the page: premises, conclusion, and the text of the definition. All of it enters the page as text.
"use strict";

const PIECES = { v: "i", p: "code", s: "sub", n: "span", "": "span" };
const piece = ([kind, text]) => (kind === "" ? text : element(PIECES[kind], {}, text));
const pieces = (all) => all.map(piece);
const plainText = (all) => all.map(([, text]) => text).join("");

// The name of a fault, which leads to where it is told.
const faultMark = (kind) => element("a", { className: "fault", href: `#${kind}`, title: `What comes where this does not hold` }, kind);

function premise({ pieces: all, faults = [] }) {
    const marks = faults.length > 0 ? [element("sup", {}, ...faults.flatMap((it, i) => (i > 0 ? [" ", faultMark(it)] : [faultMark(it)])))] : [];
    return element("span", { className: "premise" }, ...pieces(all), ...marks);
}

function inference(rule) {
    const above = rule.premises.length > 0 ? [element("div", { className: "premises" }, ...rule.premises.map(premise))] : [];
    const below = element("div", { className: "conclusion" }, ...pieces(rule.conclusion));
    const spoken = `${rule.premises.map((it) => plainText(it.pieces)).join("; ")}${above.length > 0 ? ": therefore " : ""}${plainText(rule.conclusion)}`;
    return element("div", { className: "inference", role: "group", "aria-label": spoken }, ...above, below);
}

const writtenAt = ({ file, line }) => `${file}:${line}`;

// How the definition says it, with the place where it stands.
function definedAt(it) {
    const place = element("a", { href: `../${it.file}`, className: "place" }, writtenAt(it));
    if (!it.source) return element("div", { className: "defined" }, place);
    return element("details", { className: "defined" }, element("summary", {}, it.name ? `[${it.name}]` : "definition"), place,
        element("pre", { tabIndex: 0 }, it.source));
}

const ruleFigure = (rule) => element("figure", { className: rule.error ? "rule error" : "rule" }, inference(rule), definedAt(rule));
