// The command that formats files, `cool-format`.
"use strict";
const fs = require("fs");
const util = require("util");
const { MOST_BYTES } = require("../node/files.js");
const { Refused } = require("./classes.js");
const { MAIN } = require("./diagnostics.js");
const { Formatter, edited } = require("./formatting.js");
const { Marks } = require("./marks.js");

// That a program may take.
const SECONDS = 60;
const INPUT = 0, OUTPUT = 1, WAIT_MILLISECONDS = 5;

// Calls again where a stream that does not wait has no bytes, or no room for them, yet.
function waiting(call) {
    for (;;) {
        try {
            return call();
        } catch (error) {
            if (error.code !== "EAGAIN") throw error;
            Atomics.wait(new Int32Array(new SharedArrayBuffer(4)), 0, 0, WAIT_MILLISECONDS);
        }
    }
}

// The bytes of a file, or of standard input without a name; of a larger one than a program may have one more than that.
function read(name) {
    const file = name === undefined ? INPUT : fs.openSync(name), buffer = Buffer.alloc(MOST_BYTES + 1);
    try {
        let length = 0;
        for (let part; length < buffer.length; length += part) {
            part = waiting(() => fs.readSync(file, buffer, length, buffer.length - length, null));
            if (part === 0) break;
        }
        return buffer.toString("latin1", 0, length);
    } finally {
        if (name !== undefined) fs.closeSync(file);
    }
}

// Writes a file in its place, whole or not at all.
function put(name, data) {
    const place = fs.realpathSync(name), made = `${place}.${process.pid}.new`;
    try {
        fs.writeFileSync(made, data, { encoding: "latin1", flag: "wx" });
        fs.chmodSync(made, fs.statSync(place).mode);
        fs.renameSync(made, place);
    } finally {
        fs.rmSync(made, { force: true });
    }
}

function write(data) {
    const bytes = Buffer.from(data, "latin1");
    for (let at = 0; at < bytes.length; ) at += waiting(() => fs.writeSync(OUTPUT, bytes, at));
}

// A promise of the formatted file.
async function laidOut(named, data) {
    const marks = new Marks(process.env.COOL, SECONDS), name = named ?? "standard input";
    const marksOf = async (it) => (await marks.of(new Map([[name, it]]))) ?? marks.of(new Map([[name, it], ["", MAIN]]));
    return edited(data, await new Formatter(undefined, SECONDS).formatted(name, data, marksOf, name));
}

// Formats or checks one file. A promise of whether it needed no change, or was changed.
async function formatOne(name, option) {
    const data = read(name), laid = await laidOut(name, data);
    if (option === "--check" && laid !== data) return write(Buffer.from(`${name}\n`).toString("latin1")), false;
    if (option === "--write" && laid !== data) put(name, laid);
    if (option === undefined) write(laid);
    return true;
}

// The option and the names of the arguments, or undefined if they are not valid.
function optionsOf(words) {
    const option = ["--write", "--check"].includes(words[0]) ? words[0] : undefined, rest = option ? words.slice(1) : words;
    if (rest[0] !== "--" && rest.some((it) => it.startsWith("-"))) return undefined;
    const names = rest[0] === "--" ? rest.slice(1) : rest;
    return (option && names.length === 0) || (!option && names.length > 1) ? undefined : { option, names };
}

const noteOf = (error) => util.getSystemErrorMap().get(error.errno)?.[1] ?? error.message;

// Executes the command line. A promise of the status.
async function main(words, usage) {
    if (words.length === 1 && words[0] === "--help") return process.stdout.write(usage), 0;
    const found = optionsOf(words);
    if (!found) return process.stderr.write(usage), 2;
    let isGood = true;
    for (const name of found.names.length > 0 ? found.names : [undefined]) {
        try {
            isGood = (await formatOne(name, found.option)) && isGood;
        } catch (error) {
            if (!(error instanceof Refused) && error.code === undefined) throw error;
            process.stderr.write(`cool-format: ${error instanceof Refused ? error.message : `${name ?? "standard output"}: ${noteOf(error)}`}\n`);
            isGood = false;
        }
    }
    return isGood ? 0 : 1;
}

module.exports = { laidOut, main };
