// Keeps the input of the debugged program, which is given line by line.
"use strict";

class Input {
    constructor(text = "", ended = false) {
        this.bytes = Buffer.from(text);
        this.ended = ended;
    }

    // The number of lines that were given; a last one without a newline counts once nothing comes behind it.
    get lines() {
        let count = 0;
        for (const it of this.bytes) if (it === 10) count += 1;
        return count + (this.ended && this.bytes.length > 0 && this.bytes.at(-1) !== 10 ? 1 : 0);
    }

    // Whether the line of the read with this number, from 0, is yet to come.
    lacks(number) {
        return !this.ended && number >= this.lines;
    }

    give(line) {
        this.bytes = Buffer.concat([this.bytes, Buffer.from(`${line}\n`)]);
        this.arrived?.();
    }

    end() {
        this.ended = true;
        this.arrived?.();
    }

    // A promise that is kept when more was given, or the wait is over.
    more() {
        return new Promise((arrived) => (this.arrived = arrived)).then(() => (this.arrived = undefined));
    }

    get waits() {
        return this.arrived !== undefined;
    }

    leave() {
        this.arrived?.();
    }
}

module.exports = { Input };
