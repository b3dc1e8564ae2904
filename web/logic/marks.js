// Parses the names of a program from the output of `cool_editor` (docs/editor.md).
"use strict";

const MARK_LINE = /(\d+):(\d+):(\d+) (\w+) (\S+) (\S+) (?:(\d+):\d+:(\d+)|[-?])\n/g;

// Parses rows to { file, byte, role, name, type, target }, in their order. `files` are the names of the files in the order of the command. The target is
// the place of the definition, { file, byte }, or undefined if no file has it. The type is "?" if it is unknown.
function marksOf(rows, files) {
    return Array.from(rows.matchAll(MARK_LINE), ([, file, , byte, role, name, type, other, there]) => {
        const target = other === undefined ? undefined : { file: files[other], byte: Number(there) };
        return { file: files[file], byte: Number(byte), role, name, type, target };
    });
}

if (typeof module === "object") module.exports = { marksOf };
