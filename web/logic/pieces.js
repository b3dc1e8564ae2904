// Splits large files into pieces, so that only the edited piece is sent to the session, and has the session hold pieces.
//
// The session treats each piece as a file, and finds the same faults as in the whole file. A piece begins with a class at the beginning of a line. The text
// before it is balanced: its braces, `case` and `esac` are closed, no comment or string is open, and it ends with `};`. Therefore the pieces have the tokens
// of the file, and the limit of 8,000 tokens in a run (L8) is exceeded in a piece if and only if it is exceeded in the file. If all pieces before one parse,
// they also parse together. Therefore the first fault of syntax or of lexemes in the file is that of the first piece that has one. The result of later
// phases depends only on the classes and their order.
//
// A file is given as text, or as a string with one character for each of its bytes.
"use strict";

const WORDS_OF_PIECES = typeof module === "object" ? { ...require("./lexemes.js"), ...require("./names.js") } : { bare, hidden, DEEPER, MARK: FEATURE_MARK };
// The limits of a session.
const MOST_HELD_FILES = 64, MOST_HELD_BYTES = 1 << 20;
const MOST_TRIES = 3;
// The most characters after the last `{` or `;` of depth 1, because their tokens belong to a run that continues in the next piece.
const MOST_BEHIND = 4000;
const B = String.raw`[ \t\n\r\f\v]`, TYPE_FORM = "[A-Z][A-Za-z0-9_]*", INHERITS_FORM = "[iI][nN][hH][eE][rR][iI][tT][sS]";
const PIECE_CLASS = new RegExp(String.raw`\n(?=[cC][lL][aA][sS][sS]${B}+${TYPE_FORM}(?:${B}+${INHERITS_FORM}${B}+${TYPE_FORM})?${B}*\{)`, "g");
const PIECE_END = new RegExp(String.raw`\}${B}*;${B}*$`);

// The number of lines that end before an offset.
const linesBefore = (data, place) => data.slice(0, place).split("\n").length - 1;

// Whether a new file can begin behind this text, which ends with a newline.
function isBalanced(data) {
    const { bare, hidden, DEEPER, MARK } = WORDS_OF_PIECES, [code, closed] = bare(data);
    if (!closed || !PIECE_END.test(code) || hidden(data).some(([, end]) => end === data.length)) return false;
    let depth = 0, run = 0;
    for (const match of code.matchAll(MARK)) {
        depth += DEEPER[match[0].toLowerCase()] ?? 0;
        if (depth < 0) return false;
        if (depth === 1 && (match[0] === "{" || match[0] === ";")) run = match.index + 1;
    }
    return depth === 0 && code.length - run <= MOST_BEHIND;
}

class Pieces {
    // Takes the least number of characters of a piece, and the most pieces of a file.
    constructor(least = 8192, most = 16) {
        Object.assign(this, { least, most });
        this.known = new Map(); // by a piece: whether it is balanced
    }

    // Splits files, a map from names to texts, into pieces: [{ key, path, before, data }], with the name of the file and the number of lines before the piece.
    of(files) {
        const used = new Map(), found = [];
        for (const [path, data] of files) {
            const starts = this.cuts(data, used);
            starts.forEach((start, number) => {
                found.push({ key: `${number}:${path}`, path, before: linesBefore(data, start), data: data.slice(start, starts[number + 1]) });
            });
        }
        this.known = used;
        if (found.length < MOST_HELD_FILES) return found;
        return Array.from(files, ([path, data]) => ({ key: `0:${path}`, path, before: 0, data }));
    }

    // The offsets at which the pieces of a file begin. The function records each text that it checked in `used`.
    cuts(data, used) {
        const starts = [0], least = Math.max(this.least, Math.floor(data.length / this.most));
        if (data.length <= 2 * least) return starts;
        const edges = new RegExp(PIECE_CLASS);
        edges.lastIndex = least;
        let tries = 0;
        for (const match of data.matchAll(edges)) {
            const end = match.index + 1, piece = data.slice(starts.at(-1), end);
            if (piece.length < least) continue;
            const isGood = this.known.get(piece) ?? isBalanced(piece);
            used.set(piece, isGood);
            if (isGood) starts.push(end), (tries = 0);
            else if (tries === MOST_TRIES) break;
            else tries += 1;
        }
        return starts;
    }
}

// Converts the faults of pieces, [key, line, kind, words] in the order of the session, to those of their files, [path, line, kind, words].
// For lexemes and syntax only the first fault of a file is kept.
function faultsOfFiles(rows, pieces) {
    const byKey = new Map(pieces.map((it) => [it.key, it])), found = [];
    let last;
    for (const [key, line, kind, words] of rows) {
        const { path, before } = byKey.get(key);
        if ("LS".includes(kind[0]) && path === last) continue;
        last = path;
        found.push([path, before + line, kind, words]);
    }
    return found;
}

// The files that a session holds (docs/session.md). `bytesIn` returns the number of bytes of a text.
class HeldFiles {
    constructor(bytesIn) {
        Object.assign(this, { bytesIn, number: 0 });
        this.held = new Map(); // from a key to { name, data }: the name and the text in the session, in the session's order
    }

    // The commands after which the session holds these files, in this order. `files` maps keys to texts.
    edits(files) {
        const lines = [], keys = [...files.keys()], size = (data) => (data === undefined ? 0 : this.bytesIn(data));
        let stay = [...this.held.keys()].filter((it) => files.has(it));
        const most = keys.reduce((sum, it) => sum + Math.max(size(this.held.get(it)?.data), size(files.get(it))), 0);
        if (stay.some((it, i) => it !== keys[i]) || most > MOST_HELD_BYTES) stay = []; // another order, or too much on the way
        for (const [key, { name }] of [...this.held]) {
            if (stay.includes(key)) continue;
            lines.push(`drop ${name}\n`);
            this.held.delete(key);
        }
        for (const [key, data] of files) {
            const held = this.held.get(key);
            if (held?.data === data) continue;
            const name = held?.name ?? `${(this.number += 1)}.cl`;
            lines.push(`file ${name} ${size(data)}\n`, data);
            this.held.set(key, { name, data });
        }
        return lines.join("");
    }

    // A map from the names in the session to keys.
    get keys() {
        return new Map([...this.held].map(([key, { name }]) => [name, key]));
    }
}

if (typeof module === "object") module.exports = { HeldFiles, Pieces, faultsOfFiles };
