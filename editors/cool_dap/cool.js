// Finds and runs the programs `cool` and `cool_editor`, which prints the debug information of a program.
"use strict";
const { spawn } = require("child_process");
const fs = require("fs");
const { spawnModule } = require("../node/module.js");
const { Missing, find, findBeside } = require("../node/program.js");
const { LaunchFailed } = require("./program.js");

const USUAL_STEPS = 1_000_000_000;
// The note of a line of a script that the program does not have, with its number.
const REFUSED = /:(\d+): B\d: /;
// How long one may take to be found.
const MOST_SECONDS = 10;

// A promise of the programs by their names, as the language server finds them: `cool`, and the `cool_editor` that goes with it. Without the latter a program
// runs all the same.
async function programsFor(named) {
    try {
        const cool = await find("cool", named, MOST_SECONDS);
        return { cool, cool_editor: await findBeside("cool_editor", cool, MOST_SECONDS).catch(() => "cool_editor") };
    } catch (error) {
        throw error instanceof Missing ? new LaunchFailed(error.message) : error;
    }
}

class Cool {
    // `input` has `bytes` and `ended`: what the program is given to read, and whether nothing comes behind it. `sink` takes what is told of output, and
    // has it wait where the client does not keep up: { isFull, drained }.
    constructor(programs, program, input, { steps = USUAL_STEPS, heap, stack }, sink) {
        Object.assign(this, { programs, command: programs.cool, program, input, steps, sink });
        this.room = [...(heap ? ["--heap", String(heap)] : []), ...(stack ? ["--stack", String(stack)] : [])];
        this.running = new Set();
    }

    // A process, and whether it fails to start. `comes` is called with its output, and how much came before.
    start(words, comes, fail, name = "cool") {
        const how = { cwd: this.program.sources, stdio: "pipe" }, command = this.programs[name];
        const child = command === "module" ? spawnModule(words, how, name) : spawn(command, words, how);
        let length = 0;
        this.running.add(child);
        child.on("close", () => this.running.delete(child));
        child.on("error", (error) => fail(new LaunchFailed(`${command} does not start: ${error.message}`)));
        child.stdin.on("error", () => {});
        child.stdout.on("data", (bytes) => {
            comes(bytes, length);
            length += bytes.length;
            if (this.sink.isFull()) child.stdout.pause(), this.sink.drained(() => child.stdout.resume());
        });
        if (this.input.bytes.length > 0) child.stdin.write(this.input.bytes);
        if (this.input.ended) child.stdin.end();
        return child;
    }

    // Ends all runs.
    stop() {
        for (const it of this.running) it.stopped = it.kill("SIGKILL");
    }

    // A run of the program of a name to its end: a promise of { status, stopped, notes }.
    run(words, comes, name) {
        return new Promise((answer, fail) => {
            const child = (this.last = this.start(words, comes, fail, name)), notes = [];
            child.stderr.on("data", (bytes) => notes.push(bytes));
            child.on("close", (status) => {
                this.last = undefined;
                answer({ status, stopped: child.stopped, notes: Buffer.concat(notes).toString() });
            });
        });
    }

    // Gives a run to its end more to read, or the end of it.
    pass(text) {
        if (text === undefined) this.last?.stdin.end();
        else this.last?.stdin.write(text);
    }

    // The assembly, the table of code, and the trees.
    asm() {
        return this.read(["asm", "--", ...this.program.names]);
    }

    code() {
        return this.read(["--code", ...this.program.names], "cool_editor");
    }

    trees() {
        return this.read(["--trees", ...this.program.names], "cool_editor");
    }

    async read(words, name) {
        const output = [];
        const came = await this.run(words, (bytes) => output.push(bytes), name);
        return { ...came, output: Buffer.concat(output).toString() };
    }

    whole(comes) {
        return this.run(["run", "--steps", String(this.steps), ...this.room, "--", ...this.program.names], comes);
    }

    // A run by a script, up to its last line, or to the note of which `seen` says so: a promise of { notes, status, stopped }. Without a line `run` it
    // ends where the script does. `comes` is called with no output but what came before that.
    debug(lines, wanted, { seen = () => false, budget } = {}, comes = () => {}) {
        const isOpen = lines.some((it) => it.startsWith("run"));
        const most = Math.min(this.steps, budget ?? (isOpen ? Infinity : Math.max(1, stepsOf(lines))));
        const script = this.program.script(lines);
        return new Promise((answer, fail) => {
            const notes = [];
            let rest = "", done = false;
            // A note that was written before these bytes is there to be read by now, and has been read a turn later.
            const afterNotes = (bytes, before) => setImmediate(() => setImmediate(() => !done && comes(bytes, before)));
            const child = this.start(["debug", "--steps", String(most), ...this.room, "--", script, ...this.program.names], isOpen ? afterNotes : comes, fail);
            const end = (status) => {
                fs.rm(script, () => {});
                answer({ notes, status, stopped: child.stopped });
            };
            const note = (line) => {
                if (done || notes.length === wanted) return;
                const [, refused] = REFUSED.exec(line) ?? [];
                if (refused) return fail(new LaunchFailed(`${this.command} is older than cool-dap: its debug has no line ${lines[refused - 1]}`));
                notes.push(line);
                done = seen(line) === true || (isOpen && notes.length === wanted);
                if (!done) return;
                child.kill("SIGKILL");
                end();
            };
            child.stderr.on("data", (bytes) => {
                const parts = (rest + bytes.toString("latin1")).split("\n");
                rest = parts.pop();
                parts.forEach(note);
            });
            child.on("close", (status) => done || end(status));
        });
    }
}

const stepsOf = (lines) => lines.reduce((sum, it) => sum + (it.startsWith("step ") ? Number(it.slice(5)) : 0), 0);

module.exports = { Cool, programsFor };
