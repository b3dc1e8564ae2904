// Runs the process that finds errors, `cool session` (docs/session.md): it is started at the first request, and again after it ended.
"use strict";
const { textOf } = require("../node/bytes.js");
const { log } = require("../node/log.js");
const { delay, kill, start, statusOf, whyNot } = require("../node/processes.js");
const { find, Missing } = require("../node/program.js");
const { HeldFiles } = require("../../web/logic/pieces.js");

// Bytes of a line of a reply, of which each is far shorter.
const MOST_LINE = 1 << 16;
const HEAD = /^faults (\d{1,7}), typed \d+$/;
const ROW = /^([^:]*):(\d{1,9}): ([A-Z]\d+): ([^\n]*)$/;
// How long a process may take to end that has nothing more to read, and its notes to come.
const MOST_END = 500, MOST_NOTES = 1000;

// The session ended, or could not be started; the words say how.
class Ended extends Error {}

// The lines that a process writes.
class Lines {
    constructor(source) {
        this.rest = "";
        this.isOver = false;
        source.on("data", (bytes) => ((this.rest += bytes.toString("latin1")), this.rest.length > MOST_LINE && source.pause(), this.came?.()));
        source.on("close", () => ((this.isOver = true), this.came?.()));
        this.source = source;
    }

    // A promise of the next line; of undefined where none comes, or a too long one.
    async next() {
        for (;;) {
            const end = this.rest.indexOf("\n");
            if (end > MOST_LINE || (end < 0 && this.rest.length > MOST_LINE)) return undefined;
            if (end >= 0) {
                const line = this.rest.slice(0, end);
                this.rest = this.rest.slice(end + 1);
                return line;
            }
            if (this.isOver) return undefined;
            this.source.resume();
            await new Promise((answer) => (this.came = answer));
        }
    }
}

class Session {
    constructor(named, seconds) {
        // Whether the process was killed since it did not reply; whether none is wanted any more.
        Object.assign(this, { named, seconds, late: false, closed: false, held: new HeldFiles((bytes) => bytes.length) });
    }

    // A promise of the faults of files, a map of bytes by key, in their order: [key, line, kind, words]. A session that ended is started again once.
    async faults(files) {
        try {
            return await this.ask(files);
        } catch (error) {
            if (!(error instanceof Ended) || this.late || this.closed || this.held.keys.size === 0) throw error;
            return this.ask(files);
        }
    }

    async ask(files) {
        if (!this.child) await this.start();
        const request = this.held.edits(files), child = this.child;
        const timer = setTimeout(() => ((this.late = true), kill(child)), 1000 * this.seconds);
        try {
            child.stdin.write(Buffer.from(`${request}check\n`, "latin1"));
            const count = Number(HEAD.exec(await this.lines.next())[1]), rows = [];
            for (let i = 0; i < count; i += 1) rows.push(ROW.exec(await this.lines.next()).slice(1));
            const { keys } = this.held;
            if (rows.some(([name]) => !keys.has(name))) throw new TypeError("an error in an unknown file");
            return rows.map(([name, line, kind, words]) => [keys.get(name), Number(line), kind, textOf(words)]);
        } catch (error) {
            if (!(error instanceof TypeError)) throw error; // else it ended, or what it said is no reply
            throw new Ended(await this.end());
        } finally {
            clearTimeout(timer);
        }
    }

    async start() {
        let command;
        try {
            command = await find("cool", this.named, this.seconds);
        } catch (error) {
            throw error instanceof Missing ? new Ended(error.message) : error;
        }
        if (this.closed) throw new Ended("the editor ended");
        const child = start(command, ["session"], "cool");
        Object.assign(this, { child, held: new HeldFiles((bytes) => bytes.length), late: false, said: "", lines: new Lines(child.stdout) });
        this.ending = new Promise((answer) => {
            child.on("exit", (status, signal) => answer(statusOf(status, signal)));
            child.on("close", (status, signal) => answer(statusOf(status, signal)));
            child.on("error", (error) => ((this.broken = whyNot(command, error)), answer(undefined)));
        });
        child.stdin.on("error", () => {}); // what was not written yet is lost
        this.listen(child.stderr);
        // Whether it started is known a turn later.
        await Promise.race([new Promise((answer) => child.once("spawn", answer)), this.ending, delay(command === "module" ? 0 : 1000 * this.seconds)]);
        if (child.pid === undefined && command !== "module") {
            this.child = undefined;
            throw new Ended(this.broken);
        }
    }

    // Logs what the process says on standard error, and keeps the last line.
    listen(source) {
        let rest = "";
        this.heard = new Promise((answer) => source.on("close", answer));
        source.on("data", (bytes) => {
            const lines = (rest + bytes.toString("latin1")).split("\n");
            rest = lines.pop().slice(-MOST_LINE);
            lines.forEach((it) => log((this.said = textOf(it).trim())));
        });
    }

    // Ends the process; a promise of how it ended.
    async end() {
        const { child, lines, ending, heard } = this;
        this.child = undefined;
        child.stdin.end();
        await Promise.race([ending, delay(MOST_END)]);
        kill(child);
        const status = await ending;
        lines.source.destroy();
        await Promise.race([heard, delay(MOST_NOTES)]);
        if (this.late) return `cool did not reply within ${this.seconds} seconds`;
        return `cool ended with status ${status}${this.said ? `: ${this.said}` : ""}`;
    }

    // Ends for good.
    close() {
        this.closed = true;
        if (this.child) kill(this.child);
    }
}

module.exports = { Ended, Session };
