// A program as a command of node, 18 or newer, over its module: it passes files, standard streams and status through. `release/make` puts it behind
// the module and program.js into release/cool.cjs and release/cool_editor.cjs, each one file that needs nothing else.
//
// It runs in a thread, whose stack lets it recurse as deep as on Linux.
"use strict";
const fs = require("fs");
const { isMainThread, Worker } = require("worker_threads");

const STACK_MB = 64, WAIT_MS = 5, RETURN = 13;
// The commands that are long enough to make the machine's loops ready before.
const LONG = ["run", "exec"];

// Calls again where a stream that does not wait has no bytes, or no room for them, yet.
function waiting(call) {
    for (;;) {
        try {
            return call();
        } catch (error) {
            if (error.code !== "EAGAIN") throw error;
            Atomics.wait(new Int32Array(new SharedArrayBuffer(4)), 0, 0, WAIT_MS);
        }
    }
}

function file(name) {
    try {
        return fs.readFileSync(name);
    } catch (error) {
        return error.code === "ENOENT" ? undefined : "folder";
    }
}

// On Windows the end of a pipe is told as an error.
function someInput(most) {
    const buffer = Buffer.alloc(most);
    try {
        return buffer.subarray(0, waiting(() => fs.readSync(0, buffer, 0, most, null)));
    } catch (error) {
        if (error.code === "EOF") return buffer.subarray(0, 0);
        throw error;
    }
}

// A line that is typed ends with two bytes on Windows, and with the second of them elsewhere.
const hasReturns = process.platform === "win32" && require("tty").isatty(0);

function input(most) {
    for (;;) {
        const bytes = someInput(most);
        const kept = hasReturns ? bytes.filter((it) => it !== RETURN) : bytes;
        if (kept.length > 0 || bytes.length === 0) return kept;
    }
}

function write(to, bytes) {
    try {
        for (let at = 0; at < bytes.length; ) at += waiting(() => fs.writeSync(to, bytes, at));
    } catch {
        return false;
    }
}

async function main(words) {
    const { run, warm, why } = coolProgram();
    try {
        const module = new WebAssembly.Module(require("zlib").gunzipSync(Buffer.from(COOL_MODULE, "base64")));
        if (LONG.includes(words[0])) await warm(module);
        process.exit(await run(module, { words, file, input, write }));
    } catch (error) {
        console.error(`cool: ${why(error)}`);
        process.exit(125);
    }
}

if (isMainThread) {
    const thread = new Worker(__filename, { argv: process.argv.slice(2), resourceLimits: { stackSizeMb: STACK_MB } });
    thread.on("exit", (status) => (process.exitCode = status)).on("error", (error) => {
        console.error(`cool: ${error.message}`);
        process.exitCode = 125;
    });
} else main(process.argv.slice(2));
