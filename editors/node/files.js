// Gives the current contents of files: those of the editor for open files, and the stored ones for all others.
"use strict";
const fs = require("fs");
const path = require("path");
const { fileURLToPath, pathToFileURL } = require("url");
const { bytesOf } = require("./bytes.js");

// The limits of a session: docs/limits.md.
const MOST_FILES = 64, MOST_BYTES = 1048576;
const BYTE_ORDER_MARK = "\xef\xbb\xbf";

// The path of a URI, or what no path is like where it names no file.
function toPath(uri) {
    try {
        const found = path.normalize(fileURLToPath(uri));
        if (/^file:/i.test(uri) && path.isAbsolute(found) && !found.includes("\0")) return found;
    } catch {
        // it names none
    }
    if (typeof uri !== "string") throw new TypeError("a URI is a text");
    return `uri ${uri}`;
}

const toUri = (file) => pathToFileURL(file).href;
const isPath = (file) => path.isAbsolute(file);

class Document {
    constructor(uri, version, text) {
        Object.assign(this, { uri, version, data: bytesOf(text) });
    }
}

// Reads files, and keeps each result up to the next call of `look`.
class Files {
    open = new Map(); // by path: Document
    stored = new Map(); // by path: { stamp, data }
    seen = new Map(); // by path: bytes or null
    folders = new Map(); // by folder: the paths of the Cool files in it

    // Begins anew, with these documents open.
    look(documents) {
        const kept = (file) => this.seen.has(file) || this.open.has(file);
        this.stored = new Map([...this.stored].filter(([file]) => kept(file)));
        this.open = new Map(documents);
        this.seen = new Map();
        this.folders = new Map();
    }

    // The bytes of a file, or null where it can't be read. One that is too large for a session is too many zeros.
    data(file) {
        if (this.open.has(file)) return this.open.get(file).data;
        if (!this.seen.has(file)) this.seen.set(file, this.readable(file));
        return this.seen.get(file);
    }

    // The URI of a file, by which the editor knows it.
    uri(file) {
        return this.open.get(file)?.uri ?? toUri(file);
    }

    // Whether an open file is stored with a byte order mark, which editors do not show, and `check` does not take.
    hasMark(file) {
        return isPath(file) && !this.open.get(file).data.startsWith(BYTE_ORDER_MARK) && (this.readable(file) ?? "").startsWith(BYTE_ORDER_MARK);
    }

    readable(file) {
        try {
            return this.read(file);
        } catch {
            return null;
        }
    }

    // The bytes of a stored file, or null where it is a folder or a device.
    read(file) {
        const status = fs.statSync(file, { bigint: true });
        if (!status.isFile()) return null;
        if (status.size > MOST_BYTES) return "\0".repeat(MOST_BYTES + 1);
        const stamp = [status.mtimeNs, status.ctimeNs, status.size, status.ino].join();
        if (this.stored.get(file)?.stamp !== stamp) this.stored.set(file, { stamp, data: fs.readFileSync(file, "latin1") });
        return this.stored.get(file).data;
    }

    // The Cool files in the folder of a file, stored ones and open ones, and the file itself.
    beside(file) {
        const folder = path.dirname(file);
        if (!this.folders.has(folder)) {
            const names = namesIn(folder).filter((it) => it.endsWith(".cl") && !it.startsWith("."));
            const open = [...this.open.keys()].filter((it) => path.dirname(it) === folder);
            this.folders.set(folder, new Set([...names.map((it) => path.join(folder, it)), ...open]));
        }
        return new Set([...this.folders.get(folder), file]);
    }
}

function namesIn(folder) {
    try {
        return fs.readdirSync(folder);
    } catch {
        return [];
    }
}

module.exports = { Document, Files, MOST_BYTES, MOST_FILES, isPath, toPath, toUri };
