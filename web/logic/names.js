// Finds the classes and features that a file defines, and the types that it names, by its words, without a parser.
//
// All functions take the file with blanks in place of its comments and strings (`bare`), so that offsets stay. In a file that parses, each word `class`
// begins a class, and each type identifier names a class. A feature begins behind the brace that opens its class, or behind a `;` that is in no other
// brace and in no `case`.
"use strict";

const BASIC_CLASSES = new Set(["Object", "IO", "Int", "Bool", "String", "SELF_TYPE"]);
const KEYWORDS = new Set("class else fi if in inherits isvoid let loop pool then while case esac new of not".split(" "));
const CLASS_NAMED = /(?<![A-Za-z0-9_])[cC][lL][aA][sS][sS][ \t\n\r\f\v]+([A-Z][A-Za-z0-9_]*)/g;
const CLASS_HERE = new RegExp(CLASS_NAMED.source, "y");
const TYPE_NAME = /(?<![A-Za-z0-9_])[A-Z][A-Za-z0-9_]*/g;
const OPENS_FORMALS = /[ \t\n\r\f\v]*\(/y;
const FEATURE_MARK = /[{};]|[A-Za-z][A-Za-z0-9_]*/g;
const DEEPER = { "{": 1, case: 1, "}": -1, esac: -1 };

// The match of a sticky pattern at an offset, or null.
const stuckAt = (pattern, code, at) => ((pattern.lastIndex = at), pattern.exec(code));

const isKeyword = (word) => KEYWORDS.has(word.toLowerCase());

function gathered(pairs) {
    const found = new Map();
    for (const [name, start, end] of pairs) found.has(name) ? found.get(name).push([start, end]) : found.set(name, [[start, end]]);
    return found;
}

// A map from the names of the defined classes to the places of these names, [start, end].
function defined(code) {
    return gathered(Array.from(code.matchAll(CLASS_NAMED), (it) => [it[1], it.index + it[0].length - it[1].length, it.index + it[0].length]));
}

// A map from type identifiers to their places, without the basic classes.
function named(code) {
    const types = [...code.matchAll(TYPE_NAME)].filter((it) => !BASIC_CLASSES.has(it[0]) && !isKeyword(it[0]));
    return gathered(types.map((it) => [it[0], it.index, it.index + it[0].length]));
}

// The classes of a file that parses, with their features: { kind, name, start, end, at, parts }. `start` and `end` are the offsets of the whole, and `at` of
// the name. The kind is "class", "method" or "attribute".
function outline(code) {
    const classes = [];
    let depth = 0, isFirst = false;
    for (const match of code.matchAll(FEATURE_MARK)) {
        const word = match[0], at = match.index, end = at + word.length, lower = word.toLowerCase();
        const last = classes.at(-1);
        if (depth === 0 && lower === "class") {
            const name = stuckAt(CLASS_HERE, code, at);
            if (!name) return classes;
            classes.push({ kind: "class", name: name[1], start: at, end: at, at: at + name[0].length - name[1].length, parts: [] });
        } else if (isFirst && /^[A-Za-z]/.test(word) && last) {
            const kind = stuckAt(OPENS_FORMALS, code, end) ? "method" : "attribute";
            last.parts.push({ kind, name: word, start: at, end, at, parts: [] });
        } else if (word === ";" && depth === 1 && last?.parts.length > 0) last.parts.at(-1).end = end;
        depth += DEEPER[lower] ?? 0;
        isFirst = depth === 1 && (word === "{" || word === ";");
        if (depth === 0 && word === "}" && last) last.end = end;
    }
    return classes;
}

if (typeof module === "object") {
    module.exports = { BASIC: BASIC_CLASSES, DEEPER, KEYWORDS, MARK: FEATURE_MARK, TYPE: TYPE_NAME, defined, isKeyword, named, outline };
}
