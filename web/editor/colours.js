// Colours the text of the editor, for display only: `cool` decides what is a program. The colours of a line depend on the state in which it begins: the depth
// of the open comments (0 outside of them), or IN_STRING if the line before ends with `\` in a string.
"use strict";

const IN_STRING = -1;
const KEYWORD = /^(class|inherits|if|then|else|fi|while|loop|pool|let|in|case|of|esac|new|isvoid|not)$/i;
// Matches true and false, which begin with a small letter. True is the name of a class.
const TRUTH = /^(t[rR][uU][eE]|f[aA][lL][sS][eE])$/;

// Returns { parts: [[kind, text]..], state }, where the state is that of the next line.
function colouredLine(line, state) {
    const parts = [];
    let at = 0;
    const take = (kind, to) => {
        if (to > at) parts.push([kind, line.slice(at, to)]);
        at = to;
    };
    const comment = (from) => {
        const edge = /\(\*|\*\)/g;
        edge.lastIndex = from;
        for (let it; state > 0 && (it = edge.exec(line)) !== null; ) {
            state += it[0] === "(*" ? 1 : -1;
            if (state === 0) return take("comment", edge.lastIndex);
        }
        take("comment", line.length);
    };
    const string = (from) => {
        const end = /(?:\\.|[^"\\])*(?:"|(\\?)$)/y;
        end.lastIndex = from;
        const it = end.exec(line);
        take("string", it === null ? line.length : end.lastIndex);
        state = it?.[1] === "\\" ? IN_STRING : 0;
    };
    if (state > 0) comment(0);
    else if (state === IN_STRING) string(0);
    const word = /--|\(\*|"|[A-Za-z][A-Za-z0-9_]*|\d+|[^A-Za-z0-9"(-]+|[(-]/y;
    while (at < line.length) {
        word.lastIndex = at;
        const found = word.exec(line)[0];
        if (found === "--") take("comment", line.length);
        else if (found === "(*") (state = 1), comment(at + 2);
        else if (found === '"') string(at + 1);
        else take(kindOf(found), at + found.length);
    }
    return { parts, state };
}

function kindOf(word) {
    if (KEYWORD.test(word) || TRUTH.test(word)) return "keyword";
    if (/^[A-Z]/.test(word)) return "type";
    return /^\d/.test(word) ? "number" : "";
}

// The lines of the text and the state in which each begins. The function copies from `old` the unchanged lines at the beginning and at the end.
function colouredLines(text, old = { lines: [], states: [] }) {
    const lines = text.split("\n");
    const states = [0];
    let i = 0;
    while (i < lines.length && lines[i] === old.lines[i]) {
        i += 1;
        if (i < lines.length) states[i] = old.states[i] ?? colouredLine(lines[i - 1], states[i - 1]).state;
    }
    const shift = old.lines.length - lines.length;
    let same = lines.length;
    while (same > i && lines[same - 1] === old.lines[same - 1 + shift]) same -= 1;
    for (; i < lines.length - 1; i += 1) {
        if (i >= same && states[i] === old.states[i + shift]) {
            for (; i < lines.length - 1; i += 1) states[i + 1] = old.states[i + 1 + shift];
            break;
        }
        states[i + 1] = colouredLine(lines[i], states[i]).state;
    }
    return { lines, states };
}
