// Runs a WebAssembly module of the page in a worker: it posts the output in order, and then the exit status.
"use strict";
const fs = require("fs");
const path = require("path");
const { parentPort, receiveMessageOnPort, workerData } = require("worker_threads");
const { run, why, Stopped } = require(path.join(__dirname, "..", "..", "web", "program", "program.js"));

function fileIn(cwd, name) {
    try {
        const file = path.resolve(cwd, name);
        return fs.statSync(file).isDirectory() ? "folder" : fs.readFileSync(file);
    } catch (error) {
        return error.code === "ENOENT" ? undefined : "folder";
    }
}

// The input waits for what is given: flags are whether the run is to end, and how often there was news.
function inputFrom(port, flags) {
    let left = Buffer.alloc(0);
    return (most) => {
        while (left?.length === 0) {
            const news = Atomics.load(flags, 1), found = receiveMessageOnPort(port);
            if (Atomics.load(flags, 0)) throw new Stopped();
            if (found) left = found.message;
            else Atomics.wait(flags, 1, news);
        }
        if (left === null) return new Uint8Array(0);
        const part = left.subarray(0, most);
        left = left.subarray(part.length);
        return part;
    };
}

async function once({ words, cwd, flags, port }) {
    const write = (to, bytes) => {
        if (Atomics.load(flags, 0)) throw new Stopped();
        parentPort.postMessage({ to, bytes });
    };
    try {
        return await run(workerData.module, { words, file: (name) => fileIn(cwd, name), input: inputFrom(port, flags), write });
    } catch (error) {
        if (!(error instanceof Stopped)) parentPort.postMessage({ to: 2, bytes: Buffer.from(`cool: ${why(error)}\n`) });
        return undefined;
    }
}

parentPort.on("message", async (job) => parentPort.postMessage({ status: await once(job) }));
