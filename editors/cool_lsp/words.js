// Reads the command line of `cool-lsp`.
"use strict";
const path = require("path");
const { programsOf, quoted } = require("../node/programs.js");
const { serve } = require("./server.js");

const USUAL_SECONDS = 10, LEAST_SECONDS = 0.1, MOST_SECONDS = 3600;
const OPTIONS = ["--cool", "--seconds", "--files"];

// The values of the options, or undefined if an argument is not valid.
function optionsOf(words) {
    const found = { "--seconds": USUAL_SECONDS };
    for (let i = 0; i < words.length; i += 2) {
        if (!OPTIONS.includes(words[i]) || words[i + 1] === undefined) return undefined;
        found[words[i]] = words[i + 1];
    }
    const seconds = Number(found["--seconds"]);
    return Number.isNaN(seconds) ? undefined : { ...found, "--seconds": Math.min(Math.max(seconds, LEAST_SECONDS), MOST_SECONDS) };
}

function tellFiles(file) {
    for (const program of programsOf(file)) console.log(program.map((it) => quoted(path.relative("", it))).join(" "));
}

// Executes the command line. Returns the status, or undefined while the server runs.
function main(words, usage, pieces) {
    if (words.length === 1 && words[0] === "--help") return process.stdout.write(usage), 0;
    const found = optionsOf(words);
    if (!found) return process.stderr.write(usage), 2;
    if (found["--files"]) return tellFiles(found["--files"]), 0;
    serve(found["--cool"], found["--seconds"], process.stdin, process.stdout, pieces);
    return undefined;
}

module.exports = { main };
