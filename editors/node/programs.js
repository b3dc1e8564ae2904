// Finds the files that form one program, by the rule in README.md of the folder above. A program is a list of paths in the order in which they are checked.
"use strict";
const path = require("path");
const { textOf } = require("./bytes.js");
const { Files, isPath } = require("./files.js");
const { bare } = require("../../web/logic/lexemes.js");
const { defined, named } = require("../../web/logic/names.js");

const LIST = "cool.files";

// The name of a program among others; they are in the order of their names.
const keyOf = (program) => program.join("\0");

// The classes that a file defines and the types that it names, whatever faults it has.
class Names {
    constructor(data, old) {
        const [code, closed] = bare(data);
        this.data = data;
        this.defined = new Set(defined(code).keys());
        this.named = new Set(named(code).keys());
        if (closed || !old) return;
        // The text behind an unclosed comment is not scanned.
        old.defined.forEach((it) => this.defined.add(it));
        old.named.forEach((it) => this.named.add(it));
    }
}

class Programs {
    constructor(files, roots = []) {
        Object.assign(this, { files, roots, known: new Map() });
    }

    names(file) {
        const data = this.files.data(file) ?? "", known = this.known.get(file);
        if (known?.data !== data) this.known.set(file, new Names(data, known));
        return this.known.get(file);
    }

    // Drops what is known of files that were not looked at since the last call of `look`.
    forget() {
        this.known = new Map([...this.known].filter(([file]) => this.files.seen.has(file) || this.files.open.has(file)));
    }

    // The programs that a file belongs to.
    of(file) {
        if (!isPath(file)) return [[file]];
        const list = this.listOf(file);
        if (list) {
            const found = this.listed(list).filter((it) => it.includes(file));
            return found.length > 0 ? found : [[file]];
        }
        const here = [...this.files.beside(file)].sort();
        let mains = here.filter((it) => (this.files.data(it) ?? "").includes("Main"));
        if (mains.length > 1) mains = mains.filter((it) => this.names(it).defined.has("Main")); // else there is no need to look closer
        if (mains.length < 2) return [here];
        const parts = here.filter((it) => !mains.includes(it));
        const found = new Map(mains.map((it) => this.needed(it, parts)).map((it) => [keyOf(it), it]));
        const programs = [...found.keys()].sort().map((it) => found.get(it)).filter((it) => it.includes(file));
        return programs.length > 0 ? programs : [this.needed(file, parts)];
    }

    // A file and those of the parts that define what it, or one of these, names and does not define.
    needed(file, parts) {
        const have = new Set(), all = (what) => new Set([...have].flatMap((it) => [...this.names(it)[what]]));
        for (let more = [file]; more.length > 0; ) {
            more.forEach((it) => have.add(it));
            const there = all("defined"), wanted = [...all("named")].filter((it) => !there.has(it));
            more = parts.filter((it) => !have.has(it) && wanted.some((name) => this.names(it).defined.has(name)));
        }
        return [...have].sort();
    }

    // The list that decides about a file, or undefined: that of its folder, or of the nearest folder above it within the workspace.
    listOf(file) {
        let folder = path.dirname(file);
        const isIn = (root) => (folder + path.sep).startsWith(root.endsWith(path.sep) ? root : root + path.sep);
        const root = this.roots.filter(isIn).reduce((one, other) => (other.length > (one?.length ?? -1) ? other : one), undefined) ?? folder;
        while (this.files.data(path.join(folder, LIST)) === null) {
            if (folder === root || folder === path.dirname(folder)) return undefined;
            folder = path.dirname(folder);
        }
        return path.join(folder, LIST);
    }

    // The programs of a list, a line each; words as in a shell, from the folder of the list on.
    listed(list) {
        const lines = textOf(this.files.data(list)).split(/\r\n|[\n\r\f\v]/);
        return lines.map(wordsOf).filter((it) => it.length > 0).map((it) => [...new Set(it.map((word) => path.resolve(path.dirname(list), word)))]);
    }
}

// The words of a line as a shell has them, without its comment; by blanks alone where a quote is not closed.
function wordsOf(line) {
    const words = [];
    const part = /[ \t]+|#.*|((?:'[^']*'|"(?:[^"\\]|\\.)*"|\\.|[^\s'"\\#])(?:'[^']*'|"(?:[^"\\]|\\.)*"|\\.|[^\s'"\\])*)|(.)/gy;
    for (const match of line.matchAll(part)) {
        if (match[2] !== undefined) return line.split(/[ \t]+/).filter(Boolean);
        if (match[1] !== undefined) words.push(unquoted(match[1]));
    }
    return words;
}

function unquoted(word) {
    const parts = /'([^']*)'|"((?:[^"\\]|\\.)*)"|\\(.)/g;
    return word.replace(parts, (_, plain, quoted, one) => plain ?? quoted?.replace(/\\(["\\])/g, "$1") ?? one);
}

// A word as a shell takes it.
const quoted = (word) => (/^[\w@%+=:,./-]+$/.test(word) ? word : `'${word.replace(/'/g, `'"'"'`)}'`);

// The programs of a stored file, by the lists of all folders above.
const programsOf = (file) => new Programs(new Files(), [path.parse(path.resolve(file)).root]).of(path.resolve(file));

module.exports = { LIST, Programs, keyOf, programsOf, quoted };
