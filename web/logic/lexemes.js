// The positions of comments and strings in a file, to distinguish names from text that only looks like one (docs/language.md). A file is given as text, or
// as a string with one character for each of its bytes.
"use strict";

const STRING_FORM = String.raw`"(?:[^"\\\n\0]|\\[^\0])*`;
// Matches strings and the beginnings of comments, in which text only looks like tokens. It includes `<-`, because `<--` does not begin a comment.
const HIDING = new RegExp(String.raw`<-|--[^\n]*|${STRING_FORM}"?|\(\*`, "g");
const CLOSED_STRING = new RegExp(`^${STRING_FORM}"$`);
const COMMENT_BRACKET = /\(\*|\*\)/g;
const LEXEME = new RegExp(String.raw`${STRING_FORM}"|\w+|[^]`, "y");
// Matches a character that begins no token, and a `*)` without an open comment.
const NO_TOKEN = /\*\)|(?<![A-Za-z0-9_])_|[^A-Za-z0-9_{}();:,.@~*/+\-<= \n\f\r\t\v]/;

// Returns the first match of a sticky or global pattern at or after an offset.
function matchAt(pattern, data, at) {
    pattern.lastIndex = at;
    return pattern.exec(data);
}

// The offset behind the block comment that begins at an offset, or undefined if the comment is not closed.
function commentEnd(data, at) {
    for (let depth = 1, end = at + 2; ; ) {
        const bracket = matchAt(COMMENT_BRACKET, data, end);
        if (!bracket) return undefined;
        depth += bracket[0] === "(*" ? 1 : -1;
        end = bracket.index + 2;
        if (depth === 0) return end;
    }
}

// The comments and strings of a file, as [start, end]. If a comment is not closed, it is the last one, and its end is undefined.
function hidden(data) {
    const found = [];
    for (let at = 0; at !== undefined; ) {
        const match = matchAt(HIDING, data, at);
        if (!match) return found;
        const start = match.index;
        at = start + match[0].length;
        if (match[0] === "(*") at = commentEnd(data, start);
        if (match[0] !== "<-") found.push([start, at]);
    }
    return found;
}

// Returns the file with blanks in place of its comments and strings, so that all offsets stay, and whether each comment is closed.
function bare(data) {
    const pieces = [];
    let at = 0;
    for (const [start, end] of hidden(data)) {
        pieces.push(data.slice(at, start), " ".repeat((end ?? data.length) - start));
        at = end;
    }
    return at === undefined ? [pieces.join(""), false] : [pieces.join("") + data.slice(at), true];
}

// The offset behind the word, string or sign of one character that begins at an offset.
const lexemeEnd = (data, at) => at + matchAt(LEXEME, data, at)[0].length;

// Whether a file has a lexical error that may hide names. Errors about the length of tokens are not checked.
function hasFault(data) {
    const [code, closed] = bare(data);
    const strings = hidden(data).filter(([start]) => data[start] === '"');
    return !closed || NO_TOKEN.test(code) || !strings.every(([start, end]) => CLOSED_STRING.test(data.slice(start, end)));
}

if (typeof module === "object") module.exports = { bare, hasFault, hidden, lexemeEnd, matchAt };
