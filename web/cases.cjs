#!/usr/bin/env node
// Runs cases of conformance/ with the page's module, each in an instance of its own, and compares output, messages and status byte by byte, like
// `conformance/run`: node web/cases.cjs [NAME..]
//
// They run in a thread with a large stack, so they can recurse as deep as on Linux; so does a browser that lets WebAssembly wait (`lowering/deepen.py`). It
// changes nothing. The status is 0 if all passed, else 1.
"use strict";
const fs = require("fs");
const path = require("path");
const { isMainThread, parentPort, workerData, Worker } = require("worker_threads");

const STACK_MB = 32, MOST_SECONDS = 300;
const root = path.join(__dirname, "../conformance/cases");

const kind = (file) => fs.statSync(file, { throwIfNoEntry: false });
const bytesOf = (file) => (kind(file)?.isFile() ? fs.readFileSync(file) : Buffer.alloc(0));

// The result of a case: { status, stdout, stderr }.
async function ran(run, module, folder) {
    const written = { 1: [], 2: [] };
    let left = bytesOf(`${folder}/input`);
    const status = await run(module, {
        words: bytesOf(`${folder}/words`).toString().split("\n").slice(0, -1),
        file(name) {
            const it = kind(path.resolve(folder, name));
            return it === undefined ? undefined : it.isDirectory() ? "folder" : fs.readFileSync(path.resolve(folder, name));
        },
        input(most) {
            if (kind(`${folder}/input`)?.isDirectory()) throw new Error("a folder cannot be read");
            const part = left.subarray(0, most);
            left = left.subarray(part.length);
            return part;
        },
        write: (to, bytes) => void written[to].push(bytes),
    });
    return { status: Buffer.from(`${status}\n`), stdout: Buffer.concat(written[1]), stderr: Buffer.concat(written[2]) };
}

// In a thread: answers each name of a case with what was wrong, or nothing if it passed.
async function serve() {
    const { run, warm, why } = require("./program/program.js");
    await warm(workerData);
    parentPort.on("message", async (name) => {
        const folder = path.join(root, name);
        try {
            const came = await ran(run, workerData, folder);
            parentPort.postMessage(["stdout", "stderr", "status"].filter((it) => !came[it].equals(bytesOf(`${folder}/${it}`))).join(", "));
        } catch (error) {
            parentPort.postMessage(why(error));
        }
    });
}

// A thread that runs cases, one at a time; one that hangs ends with its thread.
class Thread {
    constructor(module) {
        this.how = { workerData: module, resourceLimits: { stackSizeMb: STACK_MB } };
    }

    begin() {
        this.worker = new Worker(__filename, this.how);
        this.worker.on("message", (wrong) => this.answer(wrong)).on("error", (error) => this.end(`${error}`));
    }

    wrong(name) {
        if (!this.worker) this.begin();
        const timer = setTimeout(() => this.end(`did not end within ${MOST_SECONDS} seconds`), MOST_SECONDS * 1000);
        return new Promise((answer) => {
            this.answer = (wrong) => {
                clearTimeout(timer);
                answer(wrong);
            };
            this.worker.postMessage(name);
        });
    }

    end(why) {
        this.worker?.terminate();
        this.worker = undefined;
        this.answer?.(why);
    }
}

async function main(names) {
    const thread = new Thread(await require("./loaded.cjs")());
    let failed = 0;
    for (const name of names) {
        const wrong = await thread.wrong(name);
        if (wrong) console.log(`FAIL ${name}: ${wrong}`);
        failed += wrong ? 1 : 0;
    }
    thread.end();
    console.log(`${names.length - failed} passed, ${failed} failed`);
    process.exitCode = failed > 0 ? 1 : 0;
}

if (isMainThread) main(process.argv.length > 2 ? process.argv.slice(2) : fs.readdirSync(root).sort());
else serve();
