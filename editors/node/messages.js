// Converts messages of the language server and debug adapter protocols from bytes to values and back. It skips invalid messages, with a line in the log.
"use strict";
const { log } = require("./log.js");

const MOST_LINE = 4096, MOST_BODY = 64 << 20;
// At any place of a line, so that a header is found again behind a body whose length was wrong.
const LENGTH = /content-length:[ \t]*(\d{1,18})[ \t]*\r?\n$/i;
const NEWLINE = 10;

// Takes bytes as they come, and calls `take` with each value.
class Messages {
    constructor(take) {
        Object.assign(this, { take, pieces: [], have: 0, lines: 0 });
        // The values of the header: the length of the body, and whether the body is skipped.
        this.length = this.due = undefined;
        this.skips = false;
    }

    add(bytes) {
        this.pieces.push(bytes);
        this.have += bytes.length;
        for (;;) if (!(this.due === undefined ? this.takeLine() : this.takeBody())) return;
    }

    // The bytes so far, as one.
    joined() {
        if (this.pieces.length !== 1) this.pieces = [Buffer.concat(this.pieces)];
        return this.pieces[0];
    }

    // So many of them, which are no longer there.
    cut(length) {
        const all = this.joined();
        this.pieces = [all.subarray(length)];
        this.have -= length;
        return all.subarray(0, length);
    }

    // Whether there was a line of a header, or a part of one that is too long.
    takeLine() {
        const end = this.joined().indexOf(NEWLINE);
        if (end < 0 && this.have < MOST_LINE) return false;
        const line = this.cut(Math.min(end < 0 ? MOST_LINE : end + 1, MOST_LINE)).toString("latin1");
        if (line !== "\r\n" && line !== "\n") {
            const found = LENGTH.exec(line);
            if (found) this.length = Number(found[1]);
            this.lines += 1;
        } else if (this.lines > 0) this.headEnds();
        return true;
    }

    headEnds() {
        if (this.length === undefined) log("a message without Content-Length was skipped");
        this.skips = this.length > MOST_BODY;
        if (this.skips) log(`a message of ${this.length} bytes was skipped`);
        this.due = this.length;
        this.length = undefined;
        this.lines = 0;
    }

    // Whether a body was there, or a part of one that is skipped.
    takeBody() {
        if (this.skips) {
            const part = Math.min(this.due, this.have);
            this.cut(part);
            this.due = this.due > part ? this.due - part : undefined;
            return part > 0;
        }
        if (this.have < this.due) return false;
        const body = this.cut(this.due);
        this.due = undefined;
        this.takeText(body);
        return true;
    }

    takeText(body) {
        let value;
        try {
            value = JSON.parse(new TextDecoder("utf-8", { fatal: true }).decode(body));
        } catch (error) {
            return log(`a message that is no JSON was skipped: ${error.message}`);
        }
        this.take(value);
    }
}

function written(value) {
    const body = Buffer.from(JSON.stringify(value));
    return Buffer.concat([Buffer.from(`Content-Length: ${body.length}\r\n\r\n`), body]);
}

module.exports = { Messages, written };
