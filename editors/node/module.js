// Runs the WebAssembly modules of the page in workers as if they were processes, on systems for which there is no program `cool`.
"use strict";
const { EventEmitter } = require("events");
const fs = require("fs");
const path = require("path");
const vm = require("vm");
const { MessageChannel, Worker } = require("worker_threads");

const WEB = path.join(__dirname, "..", "..", "web");
// The script that contains the module of each program, and the name of the module in the script.
const SCRIPTS = {
    cool: [path.join(WEB, "module.js"), "COOL_MODULE"],
    cool_editor: [path.join(WEB, "editor-module.js"), "COOL_EDITOR_MODULE"],
    cool_explain: [path.join(WEB, "explain-module.js"), "COOL_EXPLAIN_MODULE"],
};
// The stack of a worker, and how long one may go on that was told to end.
const STACK = 64, MOST_MILLISECONDS = 30;
// A command that reads input over time. Its run continues as long as its client does.
const CONVERSATION = "session";

// The compiled modules by the names of the programs.
const compiled = new Map();
// By the names of programs, and of conversations: the worker, and the end of its last run.
const rooms = new Map();

function compile(name) {
    const { load } = require(path.join(WEB, "program", "program.js")), [script, constant] = SCRIPTS[name];
    if (!compiled.has(name)) compiled.set(name, load(vm.runInNewContext(`${fs.readFileSync(script)}; ${constant}`)));
    return compiled.get(name);
}

function newWorker(module) {
    const made = new Worker(path.join(__dirname, "module-worker.js"), { workerData: { module }, resourceLimits: { stackSizeMb: STACK } });
    made.unref();
    return made;
}

// A run, with the face of a child process. Of a program one goes at a time, and a conversation beside them.
class ModuleRun extends EventEmitter {
    constructor(words, { cwd }, name) {
        super();
        const key = words[0] === CONVERSATION ? `${name} ${CONVERSATION}` : name;
        if (!rooms.has(key)) rooms.set(key, {});
        Object.assign(this, { name, room: rooms.get(key) });
        const { port1, port2 } = new MessageChannel();
        this.flags = new Int32Array(new SharedArrayBuffer(8));
        const output = () => Object.assign(new EventEmitter(), { pause() {}, resume() {}, destroy() {} });
        this.stdout = output();
        this.stderr = output();
        const give = (bytes) => (port1.postMessage(bytes), Atomics.add(this.flags, 1, 1), Atomics.notify(this.flags, 1));
        this.stdin = { on() {}, write: (it) => give(Buffer.from(it)), end: () => give(null) };
        this.close = (status) => {
            if (this.isClosed) return;
            this.isClosed = true;
            port1.close();
            for (const it of [this.stdout, this.stderr]) it.emit("close");
            this.emit("close", status);
        };
        this.begin({ words, cwd, flags: this.flags, port: port2 }, [port2]).catch((error) => this.emit("error", error));
    }

    async begin(job, transfer) {
        const module = await compile(this.name), before = this.room.last;
        this.room.last = new Promise((done) => this.once("close", done));
        await before;
        const mine = (this.room.worker ??= newWorker(module));
        mine.on("message", (this.hear = ({ to, bytes, status }) => {
            if (to === 1) this.stdout.emit("data", Buffer.from(bytes));
            else if (to === 2) this.stderr.emit("data", Buffer.from(bytes));
            else this.end(mine, status);
        }));
        this.worker = mine;
        if (this.killed) this.end(mine);
        else mine.postMessage(job, transfer);
    }

    end(mine, status) {
        mine.off("message", this.hear);
        this.close(status);
    }

    // The run ends at its next write, or with its worker.
    kill() {
        this.killed = true;
        Atomics.store(this.flags, 0, 1);
        Atomics.add(this.flags, 1, 1);
        Atomics.notify(this.flags, 1);
        setTimeout(() => {
            if (this.isClosed || !this.worker) return;
            if (this.room.worker === this.worker) this.room.worker = undefined;
            this.worker.terminate();
            this.end(this.worker);
        }, MOST_MILLISECONDS);
        return true;
    }
}

module.exports = { SCRIPTS, spawnModule: (words, how, name) => new ModuleRun(words, how, name) };
