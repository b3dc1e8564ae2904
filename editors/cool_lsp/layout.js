// Formats the text of a file: it computes the indentation of lines and the blanks between tokens by the rules of docs/format.md. Tokens, comments
// and line ends stay where they are; only the blanks between tokens are made anew, so the tokens are the same whatever the rules say.
"use strict";
const { newlines, rightTrimmed, trimmed } = require("../node/bytes.js");
const { bare, hidden, matchAt } = require("../../web/logic/lexemes.js");
const { KEYWORDS } = require("../../web/logic/names.js");

// Blanks: of what stands in something, and of the variables of a `let` over several lines; before a line at most, however deep it stands.
const STEP = 2, BINDINGS = 4, MOST = 100;
const WORD = /[A-Za-z0-9_]+|<-|<=|=>|[^ \n\f\r\t\v]/g;
const OPENS = { "{": "}", "(": ")", if: "fi", while: "pool", case: "esac", let: "in" };
const CLOSES = new Set(["}", ")", "fi", "pool", "esac"]);
// The words that begin another part, and the word that closes the whole.
const PARTS = { then: "fi", else: "fi", loop: "pool", of: "esac", in: "in" };
const NEXT = new Set([";", ","]);
const BRACKETS = new Set(["{", "("]);
// The part of a `let` behind `in`. It continues up to the end of the expression around it.
const BODY = "body";

const endOf = (table, word) => (Object.hasOwn(table, word) ? table[word] : undefined);

// The text between two tokens: comments, each with the newlines and blanks before it, and the number of newlines before the next token.
class Gap {
    constructor(data, comments) {
        let at = 0;
        this.comments = comments.map(([start, end]) => {
            const lines = newlines(data, at, start), blanks = data.slice(Math.max(at, data.lastIndexOf("\n", start - 1) + 1), start);
            const text = data.slice(start, end);
            at = end;
            return { lines, blanks: start > 0 ? blanks : "", text: text.startsWith("--") ? rightTrimmed(text) : text };
        });
        this.lines = newlines(data, at);
    }

    // Whether the token behind it is the first of its line.
    beginsLine() {
        return this.lines > 0 || this.comments.at(-1)?.lines > 0;
    }
}

// A file as its tokens with their places, and the gaps before, between and behind them.
class Texts {
    constructor(data) {
        Object.assign(this, { data, tokens: [], starts: [], gaps: [], end: 0, comments: [] });
        let at = 0;
        for (const [start, end] of [...hidden(data), [data.length, data.length]]) {
            for (let it; (it = matchAt(WORD, data, at)) && it.index < start; at = this.end) this.add(it.index, Math.min(it.index + it[0].length, start));
            at = end ?? data.length;
            if (data[start] === '"') this.add(start, at);
            else if (start < data.length) this.comments.push([start, at]);
        }
        this.close(data.length);
    }

    // The contents of comments: their lines without the blanks around them, and the number of the token behind each.
    said() {
        return this.gaps.flatMap((gap, number) => gap.comments.map((it) => [number, it.text.split("\n").map(trimmed)]));
    }

    close(at) {
        this.gaps.push(new Gap(this.data.slice(this.end, at), this.comments.map(([start, end]) => [start - this.end, end - this.end])));
        this.comments = [];
    }

    add(start, end) {
        this.close(start);
        this.tokens.push(this.data.slice(start, end));
        this.starts.push(start);
        this.end = end;
    }
}

// Something that is open: what closes it, the indentation of that, and of what stands in it. `begun` is the indentation of the statement in it that goes on,
// or undefined; and `behind` tells that nothing stands yet behind a word that begins a part.
class Level {
    constructor(end, base, inner, behind = false) {
        Object.assign(this, { end, base, inner, behind, begun: undefined });
    }

    // The indentation of a line that begins here.
    at() {
        return this.begun === undefined ? this.inner : this.inner + STEP;
    }

    // Begins the part behind a word: in a chain as `if a then 1 else`, and below it `if b then 2 else`, it stands as the whole does.
    goOn(word, isChain) {
        this.begun = undefined;
        this.behind = true;
        this.inner = this.base + (isChain ? 0 : STEP);
        if (word === "in") this.end = BODY;
    }
}

const lowerOf = (word) => (/^[A-Za-z]/.test(word) ? word.toLowerCase() : word);

// The indentation of each line, token by token.
class Layout {
    constructor(texts) {
        this.words = texts.tokens.map(lowerOf);
        this.first = texts.gaps.map((gap, number) => number === 0 || gap.beginsLine());
        this.levels = [new Level(undefined, 0, 0)];
        this.here = 0;
    }

    get last() {
        return this.levels.at(-1);
    }

    // The indentation of each token that is the first of its line, and of a comment on a line before it.
    indents() {
        return this.words.map((word, number) => {
            this.leave(word);
            const level = this.last;
            let indent = level.at(), comment = indent;
            if (this.isPart(word)) [indent, comment] = [level.base, level.inner];
            else if (CLOSES.has(word) && this.first[number]) [indent, comment] = [this.closed(number), level.inner];
            else if (word === "let" && level.end === BODY && level.begun === undefined) indent = comment = level.base;
            if (this.first[number]) this.here = indent;
            this.enter(number, word);
            return [Math.min(indent, MOST), Math.min(comment, MOST)];
        });
    }

    isPart(word) {
        const end = endOf(PARTS, word);
        return end !== undefined && end === this.last.end;
    }

    // Ends each `let` whose body ends before a word.
    leave(word) {
        const isEnd = NEXT.has(word) || CLOSES.has(word) || endOf(PARTS, word) !== undefined;
        while (isEnd && this.last.end === BODY) this.levels.pop();
    }

    // The indentation of what the last one of the closing words closes that stand here in a row.
    closed(number) {
        let depth = 0;
        const levelAt = (it) => this.levels[this.levels.length - 1 - it];
        while (CLOSES.has(this.words[number])) {
            while (levelAt(depth)?.end === BODY) depth += 1;
            depth += 1;
            number += 1;
            if (depth >= this.levels.length || number === this.words.length || this.first[number]) break;
        }
        return this.levels[this.levels.length - Math.min(depth, this.levels.length)].base;
    }

    // Whether an `else` ends its line, and neither it nor the `fi` behind it begins one.
    isChain(number) {
        if (this.first[number] || !this.first[Math.min(number + 1, this.first.length - 1)]) return false;
        for (let depth = 1; depth > 0 && number + 1 < this.words.length; ) {
            number += 1;
            depth += this.words[number] === "if" ? 1 : this.words[number] === "fi" ? -1 : 0;
        }
        return !this.first[number];
    }

    enter(number, word) {
        const level = this.last, isFirst = this.first[number];
        if (this.isPart(word)) level.goOn(word, word === "else" && this.isChain(number));
        else if (CLOSES.has(word)) this.levels.length > 1 && this.levels.pop();
        else if (NEXT.has(word)) [level.begun, level.behind] = [undefined, false];
        else {
            level.begun ??= level.behind && !isFirst ? level.base : this.here;
            const end = endOf(OPENS, word);
            if (end === undefined) return;
            const base = isFirst ? this.here : level.begun;
            this.levels.push(new Level(end, base, base + (word === "let" ? BINDINGS : STEP), !BRACKETS.has(word)));
        }
    }
}

// Whether a blank stands between two tokens of a line.
function isApart(before, after) {
    if (";,.)@".includes(after) || "(.@~".includes(before)) return false;
    return after !== "(" || !/^[A-Za-z]/.test(before) || KEYWORDS.has(before.toLowerCase());
}

const leadingBlanks = (line) => /^ */.exec(line)[0].length;

// A comment on lines of its own, whose lines go with the first one as far as there are blanks in front of them.
function moved({ blanks, text }, indent) {
    const more = indent - blanks.length;
    if (blanks.includes("\t") || more === 0) return text;
    const [first, ...lines] = text.split("\n");
    const put = (line) => (trimmed(line) === "" ? "" : " ".repeat(Math.max(leadingBlanks(line) + more, 0))) + line.slice(leadingBlanks(line));
    return [first, ...lines.map(put)].join("\n");
}

// The text of a gap between two tokens. A token is undefined at the beginning or the end of the file.
function filled(gap, before, after, [indent, commentIndent], end) {
    let out = "", isNew = before === undefined;
    gap.comments.forEach((it, number) => {
        if (isNew || it.lines > 0) {
            const due = gap.lines === 0 && number + 1 === gap.comments.length ? indent : commentIndent;
            out += (isNew ? "" : end.repeat(Math.min(it.lines, 2))) + " ".repeat(due) + moved(it, due);
        } else out += (it.blanks || (before === "(" ? "" : " ")) + it.text;
        before = "*)";
        isNew = false;
    });
    if (after === undefined) return out + (isNew ? "" : end);
    if (gap.lines > 0 && !isNew) return out + end.repeat(Math.min(gap.lines, 2)) + " ".repeat(indent);
    return out + (!isNew && isApart(before, after) ? " " : "");
}

// The file as Texts, and what is to stand in each of its gaps.
function laidOut(data) {
    const texts = new Texts(data), indents = [...new Layout(texts).indents(), [0, 0]];
    const first = bare(data)[0].indexOf("\n"), end = first > 0 && data[first - 1] === "\r" ? "\r\n" : "\n";
    return [texts, texts.gaps.map((gap, i) => filled(gap, texts.tokens[i - 1], texts.tokens[i], indents[i], end))];
}

module.exports = { Texts, laidOut };
