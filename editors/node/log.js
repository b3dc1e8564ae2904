// Writes the log of a server: lines on standard error, which editors keep, each with the name of the running script.
"use strict";
const fs = require("fs");
const path = require("path");

function log(words) {
    try {
        fs.writeSync(2, `${path.basename(process.argv[1] ?? "cool")}: ${String(words).trim().replace(/\s+/g, " ")}\n`);
    } catch {
        // nobody reads it
    }
}

module.exports = { log };
