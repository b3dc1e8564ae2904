// Represents the bytes of files as strings with one character for each byte, so that positions are those of the programs, and regular expressions apply.
"use strict";

const BLANKS = " \t\n\r\f\v";

// The bytes of a text, and the text of bytes, in which what is no UTF-8 is U+FFFD.
const bytesOf = (text) => Buffer.from(text, "utf8").toString("latin1");
const textOf = (bytes) => Buffer.from(bytes, "latin1").toString("utf8");

// Whether all bytes are ASCII.
const isPlain = (bytes) => /^[\0-\x7f]*$/.test(bytes);

// Without the blanks of ASCII at the beginning, the end, or both.
function rightTrimmed(bytes) {
    let end = bytes.length;
    while (end > 0 && BLANKS.includes(bytes[end - 1])) end -= 1;
    return bytes.slice(0, end);
}

function leftTrimmed(bytes) {
    let start = 0;
    while (start < bytes.length && BLANKS.includes(bytes[start])) start += 1;
    return bytes.slice(start);
}

const trimmed = (bytes) => leftTrimmed(rightTrimmed(bytes));

// How many newlines stand from a place up to another.
function newlines(bytes, from = 0, to = bytes.length) {
    let count = 0;
    for (let at = bytes.indexOf("\n", from); at >= 0 && at < to; at = bytes.indexOf("\n", at + 1)) count += 1;
    return count;
}

// All matches of a global pattern from a place on, up to a place at which the bytes are taken to end.
function matchesOf(pattern, bytes, from = 0, to = bytes.length) {
    const copy = new RegExp(pattern);
    copy.lastIndex = from;
    return (to < bytes.length ? bytes.slice(0, to) : bytes).matchAll(copy);
}

module.exports = { bytesOf, textOf, isPlain, trimmed, leftTrimmed, rightTrimmed, newlines, matchesOf };
