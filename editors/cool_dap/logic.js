// Loads the scripts of web/logic, which read debug information, assembly and memory, and step a program, as the page does. They are loaded as one script,
// as in the page, each time with a `debug` of their own.
"use strict";
const fs = require("fs");
const path = require("path");
const vm = require("vm");

const SCRIPTS = [
    "bytes.js", "lexemes.js", "names.js", "outline.js", "listing.js", "table.js", "moves.js", "objects.js", "stops.js", "backwards.js", "reads.js",
    "evaluator.js", "trees.js", "under-way.js",
];
const NAMES = `(given) => ((debug = given), {
    DATA_START, ERRORS, FORMS_TAKEN, MoveFailed, NO_BREAKS, Reads, State, Trees, attributesOf, backOver, backTo, breakOfLine, contentsOf, described,
    expressionOf, goOn, hex, into, listingOf, out, outlineOf, over, partsOf, partsUnderWay, placeAt, readersOf, stackOf, tableOf, textsOf, toFirstLine, truthOf
    })`;
const FOLDER = path.join(__dirname, "..", "..", "web", "logic");

function logicWith(debug) {
    const context = vm.createContext({ TextEncoder, TextDecoder });
    for (const it of SCRIPTS) vm.runInContext(fs.readFileSync(path.join(FOLDER, it), "utf8"), context, { filename: path.join(FOLDER, it) });
    return vm.runInContext(NAMES, context)(debug);
}

module.exports = { logicWith };
