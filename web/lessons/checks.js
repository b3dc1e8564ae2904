// Checks of an answer by the program itself: runs with inputs, messages of `check`, and a limit of instructions.
"use strict";

const LAST_LINE = "COOL program successfully executed\n";

// The text, with blanks in place of comments and strings.
const bareText = (all) => all.replace(/--.*|\(\*[\s\S]*?\*\)|"(?:\\[\s\S]|[^"\\])*"/g, (it) => " ".repeat(it.length));

const shownInput = (input) => (input === "" ? "" : ` over the input ${JSON.stringify(input.trimEnd())}`);
const withoutLast = (output) => (output.endsWith(LAST_LINE) ? output.slice(0, -LAST_LINE.length) : output);

// Each answers what is wrong, or undefined. `run(words, input, text)` runs a text, and answers { output, status }.
const CHECKS = {
    async output({ input, output }, { run, text }) {
        const came = await run(["run"], input, text);
        if (came.status === 1) return `The program has errors:\n${came.output}`;
        if (came.status !== 0) return `The run${shownInput(input)} ended with status ${came.status}:\n${came.output}`;
        const said = withoutLast(came.output);
        return said === output ? undefined : `The run${shownInput(input)} writes\n${said}\nbut should write\n${output}`;
    },

    async fault({ fault }, { run, text }) {
        const came = await run(["check"], "", text);
        const kinds = came.output.split("\n").map((it) => /^.*?:\d+: ([A-Z]\d+): /.exec(it)?.[1]).filter(Boolean);
        if (kinds.length === 0) return `The program has no error, but should have ${fault}.`;
        return kinds.every((it) => it === fault) ? undefined : `The program has ${kinds.join(", ")}, but should have only ${fault}:\n${came.output}`;
    },

    async without({ without }, { text }) {
        const found = without.filter((it) => new RegExp(`\\b${it}\\b`, "i").test(bareText(text)));
        return found.length === 0 ? undefined : `The program must do without ${found.join(", ")}.`;
    },

    async instructions({ instructions }, { run, text, task }) {
        const input = task.checks.find((it) => it.input !== undefined)?.input ?? "";
        const came = await run(["run", "--steps", String(instructions)], input, text);
        return came.status === 6 ? `The run takes more than ${instructions.toLocaleString("en")} instructions${shownInput(input)}.` : undefined;
    },

    async shown(check, { run, text, task }) {
        const came = await run(["run"], "", task.shown);
        return withoutLast(came.output).trim() === text.trim() ? undefined : "The program writes something else.";
    },

    async rule({ rule }, { text }) {
        return text.trim().replace(/^\[|\]$/g, "").toLowerCase() === rule.toLowerCase() ? undefined : "Another rule applies.";
    },
};

// A promise of the problem with a solution of a task: a text, or undefined.
async function judged(task, text, run) {
    for (const it of task.checks) {
        const kind = Object.keys(CHECKS).find((name) => name in it);
        const wrong = await CHECKS[kind](it, { run, text, task });
        if (wrong !== undefined) return wrong;
    }
}

if (typeof module === "object") module.exports = { judged };
