// The lines of the methods in the program's text, which are not in the table of code. They are only for display. They are correct for a program without
// compile-time errors; for other programs some methods may be missing.
"use strict";

// Returns a map from the labels of methods, X.f, to { file, line, last }: the file, and the first and the last line of the method.
function outlineOf(all) {
    const methods = new Map();
    for (const { name: file, text: value } of all) {
        let at = 0, line = 1;
        // The line of an offset. The offset must not be before that of the previous call.
        const lineOf = (place) => {
            for (; (at = value.indexOf("\n", at)) >= 0 && at < place; at += 1) line += 1;
            if (at < 0) at = value.length;
            return line;
        };
        for (const { name: owner, parts } of outline(bare(value)[0])) {
            for (const it of parts) if (it.kind === "method") methods.set(`${owner}.${it.name}`, { file, line: lineOf(it.start), last: lineOf(it.end - 1) });
        }
    }
    return methods;
}

// The label of the method whose lines include this line of a file, or undefined.
function methodAt(outline, file, line) {
    for (const [label, it] of outline) if (it.file === file && it.line <= line && line <= it.last) return label;
}
