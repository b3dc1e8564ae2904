// The cards that the page shows for each kind of entry of rules.js: forms of expressions, faults, methods, tables, and forms of the grammar.
"use strict";

const mainFile = (text) => [{ name: "p.cl", text }];

// A fault: its words, when it comes, and the smallest text that has it.
const toldFaults = new Set();

function faultCard(fault) {
    const first = !toldFaults.has(fault.kind);
    toldFaults.add(fault.kind);
    const small = fault.files ? [trial("the smallest text with it", fault.files, ["check"], fault.says)]
        : [element("span", { className: "quiet" }, `its text is too long for this page: ${fault.case}`)];
    const head = element("div", {}, element("b", {}, fault.kind), `: ${fault.words}. `, element("span", { className: "quiet" },
        fault.mend.replaceAll("`", "")));
    return element("li", first ? { id: fault.kind } : {}, head, ...small);
}

const faultList = (faults) => (faults?.length > 0 ? [element("h4", {}, "What breaks it"), element("ul", { className: "faults" }, ...faults.map(faultCard))]
    : []);

// Rules whose conclusion is an error are folded where others stand before them.
function ruleList(rules) {
    const plain = rules.filter((it) => !it.error), errors = rules.filter((it) => it.error);
    const folded = element("details", { className: "errors" }, element("summary", {}, errors.length === 1 ? "and an error" : `and ${errors.length} errors`),
        ...errors.map(ruleFigure));
    return [...plain.map(ruleFigure), ...(errors.length === 0 ? [] : plain.length > 0 ? [folded] : errors.map(ruleFigure))];
}

const CARDS = {
    rule: (it) => element("article", { className: "card" }, ruleFigure(it)),

    form: (it) =>
        element("article", { className: "card", id: `form-${it.heading.toLowerCase().replaceAll(" ", "-")}` },
            element("h3", {}, it.heading, element("span", { className: "quiet" }, ` ${it.section}`)),
            element("div", { className: "sides" },
                element("div", {}, element("h4", {}, "Its type"), element("p", {}, ...coded(it.types)), ...ruleList(it.typing)),
                element("div", {}, element("h4", {}, "What it does"), element("p", {}, ...coded(it.does)), ...ruleList(it.running)),
            ),
            trial("an example to run", mainFile(it.program), ["run"], it.prints ?? ""),
            ...faultList(it.faults),
        ),

    fault: (it) => element("article", { className: "card" }, element("p", {}, it.words), ...it.rules.map(ruleFigure),
        element("ul", { className: "faults" }, faultCard(it.fault))),

    method: (it) =>
        element("article", { className: "card", id: `method-${it.name}` },
            element("h3", {}, element("code", {}, `${it.name}(${it.formals.join(", ")}) : ${it.result}`),
                element("span", { className: "quiet" }, ` of ${it.owner}`)),
            element("p", {}, it.words), ...ruleList(it.running), trial("an example to run", mainFile(it.program), ["run"], it.prints ?? "")),

    table: (it) =>
        element("article", { className: "card" }, element("h3", {}, it.heading),
            element("table", {}, ...it.rows.map((row) => element("tr", {}, ...row.map((cell) => element("td", {}, ...pieces(cell)))))), definedAt(it)),

    word: (it) => element("article", { className: "production" }, element("span", { className: "inference head" },
        element("span", {}, ...pieces(it.pieces))), element("div", {}, it.words), definedAt(it)),

    production: (it) =>
        element("article", { className: "production" }, element("span", { className: "head" }, it.name), element("div", {},
            ...it.alternatives.map((all) => element("div", { className: "alternative" }, ...(all.length === 0 ? ["(nothing)"]
                : all.flatMap((x, i) => (i > 0 ? [" ", symbolOf(x)] : [symbolOf(x)])))))),
            definedAt(it)),
};

// Words with what stands between ` as program text.
const coded = (words) => words.split("`").map((part, i) => (i % 2 === 1 ? element("code", {}, part) : part));

// In the grammar what is a form of its own is a name.
const symbolOf = ([kind, text]) => (kind === "n" ? element("span", { className: "form" }, text) : piece([kind, text]));

function section({ id, number, heading, words, entries, faults }) {
    return element("section", { id }, element("h2", {}, element("span", { className: "quiet" }, `${number} `), heading), element("p", {}, words),
        ...entries.map((it) => CARDS[it.kind](it)), ...faultList(faults));
}
