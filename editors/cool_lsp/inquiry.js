// Calls a program once with the files of the editor, including unsaved changes: it writes them to a private folder, where numbers are their names.
"use strict";
const fs = require("fs");
const os = require("os");
const path = require("path");
const { kill, start } = require("../node/processes.js");

// Bytes that an answer may have; each is far shorter.
const MOST_OUTPUT = 64 << 20;

// The folders that are there now, which go when the server does.
const rooms = new Set();

function removeRooms() {
    for (const room of rooms) fs.rmSync(room, { recursive: true, force: true });
}

// A call that can be stopped.
class Inquiry {
    // With `notes` the output has these, too.
    constructor(name, command, words, seconds, notes = false) {
        Object.assign(this, { name, command, words, seconds, notes, stopped: false });
    }

    // A promise of { status, output } of the program over files, a map of bytes by path; of undefined where it was stopped, did not end in time, or could
    // not be called.
    async answer(files) {
        if ([...files.values()].includes(null)) return undefined;
        let room;
        try {
            rooms.add((room = fs.mkdtempSync(path.join(os.tmpdir(), "cool-lsp-"))));
            const names = Array.from(files.values(), (_, number) => `${number}.cl`);
            [...files.values()].forEach((data, number) => fs.writeFileSync(path.join(room, names[number]), data, "latin1"));
            return await this.call(names, room);
        } catch (error) {
            if (error.code === undefined) throw error;
            return undefined;
        } finally {
            if (room) fs.rmSync(room, { recursive: true, force: true }), rooms.delete(room);
        }
    }

    call(names, room) {
        return new Promise((answer) => {
            const child = (this.child = start(this.command, [...this.words, ...names], this.name, room)), output = [];
            let length = 0;
            const timer = setTimeout(() => this.stop(), 1000 * this.seconds);
            const keep = (bytes) => {
                output.push(bytes);
                if ((length += bytes.length) > MOST_OUTPUT) this.stop();
            };
            const end = (status) => {
                clearTimeout(timer);
                this.child = undefined;
                answer(this.stopped || status === undefined ? undefined : { status, output: Buffer.concat(output).toString("latin1") });
            };
            child.stdout.on("data", keep);
            child.stderr.on("data", (bytes) => this.notes && keep(bytes));
            child.stdin.on("error", () => {});
            child.stdin.end();
            child.on("error", () => end(undefined));
            child.on("close", (status) => end(status ?? undefined));
            if (this.stopped) this.stop(); // before there was a process
        });
    }

    // Ends the call.
    stop() {
        this.stopped = true;
        if (this.child) kill(this.child);
    }
}

module.exports = { Inquiry, removeRooms };
