// Converts bytes to the lines and columns of an editor, which are those of UTF-16.
"use strict";
const { bytesOf, isPlain, leftTrimmed, rightTrimmed, textOf } = require("../node/bytes.js");

// Bytes, and where their lines begin. A byte that is no UTF-8 has a column of its own.
class Text {
    constructor(data) {
        this.data = data;
        this.starts = [0];
        for (let at = data.indexOf("\n"); at >= 0; at = data.indexOf("\n", at + 1)) this.starts.push(at + 1);
        this.plain = isPlain(data);
    }

    // The line of a place, from 1.
    line(at) {
        let from = 0, to = this.starts.length;
        while (from < to) {
            const middle = (from + to) >> 1;
            if (this.starts[middle] <= at) from = middle + 1;
            else to = middle;
        }
        return from;
    }

    // The place at which a line begins, or the last one, where there are fewer.
    begin(line) {
        return this.starts[Math.min(line, this.starts.length) - 1];
    }

    // The place behind a line, its newline included.
    end(line) {
        return this.starts[line] ?? this.data.length;
    }

    // The place behind a line, its end of line not included.
    endOfLine(line) {
        return this.begin(line) + this.data.slice(this.begin(line), this.end(line)).replace(/\r?\n$/, "").length;
    }

    position(at) {
        const line = this.line(at), before = this.data.slice(this.starts[line - 1], at);
        return { line: line - 1, character: this.plain ? before.length : textOf(before).length };
    }

    // The place of a position, or the nearest one.
    place({ line, character }) {
        if (!Number.isFinite(line) || !Number.isFinite(character)) throw new TypeError("a position needs a line and a character");
        if (!(line >= 0 && line < this.starts.length)) return line > 0 ? this.data.length : 0;
        const row = textOf(this.data.slice(this.starts[line], this.end(line + 1))).replace(/[\r\n]+$/, "");
        const before = row.slice(0, Math.max(character, 0));
        return this.starts[line] + bytesOf(/[\ud800-\udbff]$/.test(before) ? before.slice(0, -1) : before).length;
    }

    range(start, end) {
        return { start: this.position(start), end: this.position(end) };
    }

    // The range of a line, white space around it left out.
    whole(line) {
        const start = this.begin(line), kept = rightTrimmed(this.data.slice(start, this.end(line)));
        return this.range(start + kept.length - leftTrimmed(kept).length, start + kept.length);
    }
}

module.exports = { Text };
