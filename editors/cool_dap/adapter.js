// The debug adapter keeps the session of one client (an editor): it launches and steps a program, and sends events.
"use strict";
const fs = require("fs");
const { Breakpoints } = require("./breakpoints.js");
const { programsFor } = require("./cool.js");
const { Debuggee } = require("./debuggee.js");
const { Frames, NotTold } = require("./frames.js");
const { Input } = require("./input.js");
const { Messages, written } = require("../node/messages.js");
const { Program, LaunchFailed } = require("./program.js");
const { REQUESTS, Refused, THREAD } = require("./requests.js");

// These may come while others are being answered.
const AT_ONCE = new Set(["pause", "terminate", "disconnect"]);

class Adapter {
    // `write` sends bytes to the client, `sink` tells whether it keeps up (cool.js), and `end` ends the adapter.
    constructor(write, sink, end) {
        Object.assign(this, { write, sink, end, sent: 0, breakpoints: new Breakpoints(), filters: new Set(["errors"]), queue: Promise.resolve(), runs: false });
    }

    send(message) {
        this.write(written({ seq: (this.sent += 1), ...message }));
    }

    event(event, body) {
        this.send({ type: "event", event, body });
    }

    output(category, text, more) {
        if (text !== "") this.event("output", { category, output: text, ...more });
    }

    take(request) {
        if (request?.type !== "request" || typeof request.command !== "string") return;
        if (AT_ONCE.has(request.command) || (request.command === "evaluate" && this.runs)) this.answer(request);
        else this.queue = this.queue.then(() => this.answer(request));
    }

    // Answers a request; what it begins goes on behind the answer.
    async answer({ seq, command, arguments: given }) {
        const response = { type: "response", request_seq: seq, command };
        try {
            if (!Object.hasOwn(REQUESTS, command)) throw new Refused(`no request ${command}`);
            const { after, ...body } = (await REQUESTS[command].call(this, given ?? {})) ?? {};
            this.send({ ...response, success: true, body });
            await after?.();
        } catch (error) {
            const isRefusal = error instanceof Refused || error instanceof LaunchFailed;
            const message = isRefusal ? error.message : `${command}: wrong parameters: ${error.message}`;
            const told = { id: isRefusal ? 1 : 2, format: message.replace(/[{}]/g, "'"), showUser: command === "launch" };
            this.send({ ...response, success: false, message, body: { error: told } });
        }
    }

    // The program, of which is told only where it stands: a refusal elsewhere.
    standing() {
        if (!this.debuggee?.state || this.runs || this.isDown) throw new Refused(this.runs ? "the program runs" : "no program is stopped");
        return this.debuggee;
    }

    async launch(settings) {
        this.settings = settings;
        const programs = await programsFor(settings.cool), { inputFile, input: text = "", inputEnds = false } = settings;
        const input = inputFile ? new Input(inputOf(inputFile, settings.cwd), true) : new Input(text, inputEnds);
        const client = {
            output: (text) => this.output("stdout", text), say: (text, isWrong) => this.output(isWrong ? "stderr" : "console", text),
            askForLine: () => this.output("console", "The program reads a line: type it here, or ^D for the end of the input.\n"),
        };
        this.debuggee = new Debuggee(programs, new Program(settings), input, settings, client, this.sink);
        this.frames = new Frames(this.debuggee);
        const faults = settings.noDebug ? undefined : await this.debuggee.prepare().catch((error) => (this.debuggee.end(), Promise.reject(error)));
        if (faults === undefined) return;
        for (const line of faults.split("\n").slice(0, -1)) this.output("stderr", `${line}\n`, this.placeIn(line));
        this.debuggee.end();
        throw new LaunchFailed(`The program has faults: ${faults.split("\n")[0]}`);
    }

    placeIn(line) {
        const [, name, number] = /^(.*):(\d+): [A-Z]\d+: /.exec(line) ?? [], path = this.debuggee.program.pathOf(name);
        return path ? { source: { name, path }, line: Number(number) } : {};
    }

    begin() {
        this.hasBegun = true;
        return this.act(async () => {
            const { debuggee } = this;
            if (this.settings.noDebug) return this.ended();
            await debuggee.stand(0);
            if (this.settings.stopOnEntry) return this.arrived(await debuggee.forward(debuggee.logic.toFirstLine), "entry");
            return this.arrived(await debuggee.forward(debuggee.logic.goOn, this.breakpoints));
        });
    }

    // Runs what moves the program. A move that is stopped since the session ends is left; one that fails, or is stopped, leaves the program where it was.
    async act(move) {
        const { debuggee } = this;
        this.runs = true;
        this.frames.forget();
        const failed = (error, leaves) => {
            if (this.debuggee !== debuggee || this.isDown) return undefined;
            if (error.message !== "stopped") this.output("stderr", `cool-dap: ${error.message}\n`);
            if (leaves && error instanceof debuggee.logic.MoveFailed && debuggee.state) return this.stopped({ steps: debuggee.state.steps }, "pause");
            if (error.name !== "Error") process.stderr.write(`cool-dap: ${error.stack}\n`);
            return this.finish(125);
        };
        this.moving = move().catch((error) => failed(error, true)).catch((error) => failed(error, false));
    }

    forward(go, reason = "step") {
        return this.act(async () => this.arrived(await this.debuggee.forward(go, this.breakpoints), reason));
    }

    backward(find) {
        return this.act(async () => {
            const { debuggee } = this, found = await debuggee.backward(find, this.breakpoints);
            if (found) return this.stopped(found, found.broken ? this.reasonOf(found) : "step");
            const first = await debuggee.entry();
            return this.stopped({ steps: Math.min(first.steps, debuggee.state.steps) }, "entry");
        });
    }

    // Moves by one instruction.
    onByOne() {
        return this.act(async () => this.arrived(await this.debuggee.forwardBy(1), "step"));
    }

    backByOne() {
        return this.act(() => this.stopped({ steps: Math.max(0, this.debuggee.state.steps - 1) }, "step"));
    }

    // Tells a stop, or goes on to the end where it is none that was asked for.
    async arrived(found, reason) {
        const why = this.debuggee.logic.ERRORS[found.error] ?? (found.limit ? "step limit" : undefined);
        if (found.ended && this.filters.has("end")) return this.stopped({ steps: found.steps - 1 }, "exception", "end of the program");
        if (found.ended || (why && (!this.filters.has("errors") || found.steps === this.debuggee.state.steps))) return this.ended();
        if (!why) return this.stopped(found, found.paused ? "pause" : found.broken ? this.reasonOf(found) : reason);
        return this.stopped(found, "exception", why);
    }

    reasonOf(found) {
        return this.breakpoints.hitBy(found)[0]?.kind ?? "breakpoint";
    }

    async stopped(found, reason, text) {
        await this.debuggee.stand(found.steps);
        if (this.debuggee.state.ended) return this.ended();
        this.why = text;
        this.runs = false;
        const ids = found.broken ? { hitBreakpointIds: this.breakpoints.hitBy(found).map((it) => it.told.id) } : {};
        this.event("stopped", { reason, threadId: THREAD, allThreadsStopped: true, ...(text ? { text, description: text } : {}), ...ids });
    }

    async ended() {
        const { status, notes } = await this.debuggee.whole();
        this.output("stderr", notes.split("\n").filter((it) => it !== "").map((it) => `${it}\n`).join(""));
        this.finish(status);
    }

    finish(exitCode) {
        if (this.isDown) return;
        this.runs = false;
        this.isDown = true;
        this.debuggee?.end();
        if (exitCode !== undefined) this.event("exited", { exitCode });
        this.event("terminated", {});
    }

    // A line that is typed is input while the program waits for one, and behind "<" at any time; else it is a name.
    typed(line) {
        this.debuggee.give(line);
        return { result: "", variablesReference: 0 };
    }

    async evaluate({ expression, frameId = 1, context }) {
        if (!this.debuggee) throw new Refused("no program runs");
        const reads = this.debuggee.input.waits || (this.settings.noDebug && this.runs);
        if (reads && context !== "hover" && context !== "watch") return this.typed(expression);
        if (context === "repl" && /^\s*</.test(expression)) return this.typed(expression.replace(/^\s*< ?/, ""));
        this.standing();
        try {
            const { value, name: _, ...more } = await this.frames.evaluate(expression, frameId);
            return { result: value, ...more };
        } catch (error) {
            throw error instanceof NotTold ? new Refused(error.message) : error;
        }
    }

    // Answers what is told of the breaks that are asked for, which `set` sets where there is a program.
    setBreaks(asked, set) {
        if (!this.debuggee?.table) return { breakpoints: asked.map(() => ({ verified: false })) };
        const breakpoints = set(this.debuggee);
        if (this.runs) this.debuggee.changeBreaks();
        return { breakpoints };
    }

    setBreakpoints({ source, breakpoints, lines = [] }) {
        const asked = breakpoints ?? lines.map((line) => ({ line }));
        return this.setBreaks(asked, (debuggee) => this.breakpoints.setLines(source.path, asked, debuggee));
    }

    setFunctionBreakpoints({ breakpoints }) {
        return this.setBreaks(breakpoints, (debuggee) => this.breakpoints.setFunctions(breakpoints, debuggee));
    }

    breakpointLocations({ source, line, endLine = line }) {
        const { debuggee } = this, name = debuggee?.program.nameOf(source.path);
        const lines = (debuggee?.table?.stops ?? []).filter((it) => it.file === name && it.line >= line && it.line <= endLine).map((it) => it.line);
        return { breakpoints: [...new Set(lines)].sort((a, b) => a - b).map((it) => ({ line: it })) };
    }

    // The files as they are now, with the same breaks.
    async restart(settings) {
        this.isDown = true;
        this.debuggee.end();
        await this.moving;
        await this.launch(settings?.program || settings?.files ? settings : this.settings);
        this.isDown = false;
        this.breakpoints.renew(this.debuggee);
    }

    close() {
        this.isDown = true;
        this.debuggee?.end();
    }
}

function inputOf(file, cwd = process.cwd()) {
    try {
        return fs.readFileSync(require("path").resolve(cwd, file));
    } catch (error) {
        throw new LaunchFailed(`${file}: ${error.message}`);
    }
}

// Serves a client up to `disconnect`, or to the end of what it sends.
function serve(source, sink) {
    const end = () => sink.write("", () => process.exit(0));
    const pressure = { isFull: () => sink.writableNeedDrain, drained: (then) => sink.once("drain", then) };
    const adapter = new Adapter((bytes) => sink.write(bytes), pressure, end);
    const messages = new Messages((it) => adapter.take(it));
    const gone = () => (adapter.close(), process.exit(0));
    source.on("data", (bytes) => messages.add(bytes));
    source.on("end", gone);
    sink.on("error", gone);
    for (const signal of ["SIGTERM", "SIGINT", "SIGHUP"]) process.on(signal, gone);
}

module.exports = { serve };
