// Parses the table of code from the output of `cool_editor --code` (docs/editor.md): the code of each expression, the names in scope there, and where their
// values are stored. It computes the places at which a run stops by lines.
"use strict";

// The forms that compute their parts first. After the last part only the operation itself remains.
const OPERATIONS = new Set(["assign", "call", "static", "isvoid", "+", "-", "*", "/", "~", "<", "<=", "=", "not"]);
const CALLS = new Set(["call", "static"]);

// Takes the rows, the files { name, text } in the order of the command, and the listing. It returns
//   attributes  a map from the names of classes to the attributes of their objects, in the order of their words: { name, offset, type }
//   features    the methods and initial values in the order of their code: { kind, from, to, name, formals, spans, stops, lines }. The kind is "method" or
//               "initial", the name is that in the assembly, the formals are in the order of the text, and `lines` maps each line to its stop.
//   stops       the places at which a run stops by lines, of all features
//   stopAt      a map from addresses to the stop there
// A span is an expression: { from, to, form, file, line, byte, depth, latest, entered, feature, parent, parts, begins }. `entered` says whether its latest
// name is not in scope in its parent, and `begins` is its leftmost place. A stop is { address, file, line, span, feature }.
function tableOf(rows, files, listing) {
    const attributes = new Map(), features = [];
    let owner;
    for (const row of rows.split("\n")) {
        const [kind, ...words] = row.split(" ");
        if (kind === "class") attributes.set(words[0], (owner = []));
        else if (kind === "attribute") owner.unshift(variableOf(words));
        else if (kind === "initial" || kind === "method") features.push({ kind, from: Number(words[0]), to: Number(words[1]), formals: [], spans: [] });
        else if (kind === "formal") features.at(-1).formals.unshift(variableOf(words));
        else if (kind === "code") addSpan(features.at(-1), words, files);
    }
    for (const it of features) {
        it.name = unitAt(listing, it.from).name;
        findStops(it);
    }
    const stops = features.flatMap((it) => it.stops);
    return { attributes, features, stops, stopAt: new Map(stops.map((it) => [it.address, it])) };
}

// A variable: its name, the offset of its word from a register, and its type.
function variableOf([name, place, type]) {
    const [, offset, base] = /^(-?\d+)\(\$(\w+)\)$/.exec(place);
    return { name, offset: Number(offset), base, type };
}

function addSpan(feature, [from, to, form, place, depth, names, ...latest], files) {
    const [file, line, byte] = place.split(":").map(Number);
    let parent = feature.spans.at(-1);
    while (parent && Number(from) >= parent.to) parent = parent.parent;
    const span = {
        from: Number(from), to: Number(to), form, file: files[file].name, line, byte, depth: Number(depth), names: Number(names),
        latest: latest.length > 0 ? variableOf(latest) : undefined, feature, parent, parts: [],
    };
    span.entered = parent !== undefined && span.names > parent.names;
    parent?.parts.push(span);
    feature.spans.push(span);
}

// Sets where each expression begins: at its leftmost part, and a block at its first expression.
function findBeginnings(spans) {
    for (const it of spans.slice().reverse()) {
        const own = it.form === "block" ? it.parts[0].begins : it;
        it.begins = it.parts.reduce((first, part) => (part.begins.byte < first.byte ? part.begins : first), own);
    }
}

// Finds the stops of a feature. The stop of a line is the beginning of the outermost expression that begins on it. If an expression of another line begins
// at the same address, the stop is the first operation of the line. If the line has no operation, `lines` has the stop of that other line for it.
function findStops(feature) {
    const { spans } = feature, found = new Map(), lines = new Set(), others = new Map();
    findBeginnings(spans);
    const add = (span, address, line) => (lines.add(line), found.set(address, { address, file: span.file, line, span, feature }));
    for (const it of spans) {
        const { line } = it.begins;
        if (it.parent?.begins.line === line) continue;
        if (found.has(it.from)) others.set(line, others.get(line) ?? found.get(it.from));
        else add(it, it.from, line);
    }
    for (const it of spans.slice().sort((one, other) => one.to - other.to)) {
        const behind = it.parts.at(-1)?.to;
        if (OPERATIONS.has(it.form) && !found.has(behind) && !lines.has(it.line)) add(it, behind, it.line);
    }
    feature.stops = [...found.values()].sort((one, other) => one.address - other.address);
    feature.lines = new Map([...others, ...feature.stops.map((it) => [it.line, it])]);
}

// The method or initial value whose code contains an address.
function featureAt(table, address) {
    const feature = lastBefore(table.features, address, "from");
    return feature && address < feature.to ? feature : undefined;
}

// The expressions whose code contains an address, the outermost first.
function spansAt(table, address) {
    const found = [];
    const holds = (it) => it.from <= address && address < it.to;
    for (let it = featureAt(table, address)?.spans[0]; it; it = it.parts.find(holds)) if (holds(it)) found.push(it);
    return found;
}

// The place, { file, line }, of the code at an address: the stop there, else the innermost expression. Before the first expression of a feature, and in an
// initializer, it is the first stop. Behind the last expression of a method it is the last stop.
function placeAt(table, address, listing) {
    const own = table.stopAt.get(address) ?? spansAt(table, address).at(-1);
    if (own) return own;
    const feature = featureAt(table, address);
    if (feature) return address < feature.spans[0].from ? feature.stops[0] : feature.stops.at(-1);
    const unit = unitAt(listing, address);
    return table.features.find((it) => it.name === unit?.name && it.from > address)?.stops[0];
}

// The line of the expression that an instruction belongs to. Before and behind the expressions it is the line of the method.
function lineOfCode(address, { table, listing, outline }) {
    const span = table.stopAt.get(address) ?? spansAt(table, address).at(-1);
    return span ?? outline.get(unitAt(listing, address)?.name);
}

// The variables of `let` and `case` in scope at an address, the latest last.
const variablesAt = (spans) => spans.filter((it) => it.entered).map((it) => it.latest);

// The name of the word that was pushed at a depth: { name, type, isVariable }. `spans` are the expressions around an address. `textAt` returns the name in
// the text at the place of an expression.
function pushedBy(spans, depth, textAt) {
    const variable = variablesAt(spans).find((it) => it.offset === -4 * (depth + 1));
    if (variable) return { ...variable, isVariable: true };
    const span = spans.findLast((it) => it.depth <= depth);
    if (span === undefined) return {};
    if (CALLS.has(span.form)) return { name: `argument ${depth - span.depth + 1} of ${textAt(span)}` };
    if (span.form === "let") return { ...span.parts.at(-1).latest, isVariable: true };
    return { name: span.form === "case" ? "value of case" : `left of ${span.form}` };
}

// Whether each run comes by at most one of two expressions, because they are in different branches.
function areExclusive(one, other) {
    const above = new Map();
    for (let it = one; it; it = it.parent) above.set(it.parent, it);
    for (let it = other; it?.parent; it = it.parent) {
        const beside = above.get(it.parent);
        if (beside) return beside !== it && /^(?:if|case)$/.test(it.parent.form) && it.parent.parts[0] !== beside && it.parent.parts[0] !== it;
    }
    return false;
}

// Whether work remains behind an expression before the next stop or the end of the method.
function leavesWork(span, table) {
    const { parent } = span;
    if (parent === undefined) return span.feature.kind === "initial";
    const isLast = parent.parts.at(-1) === span, next = parent.parts[parent.parts.indexOf(span) + 1];
    if (parent.form === "block" && !isLast) return !table.stopAt.has(next.from);
    if (parent.form === "while" && isLast) return !table.stopAt.has(parent.from);
    const goesOn = parent.form === "block" || (parent.form === "let" && isLast) || (/^(?:if|case)$/.test(parent.form) && parent.parts[0] !== span);
    return !goesOn || leavesWork(parent, table);
}
