// Runs the program: shows output as it comes, and asks for input.
"use strict";

// Lines are bounded, too: to lay out many short ones takes a browser so long that it hears no key meanwhile.
const MOST_SHOWN = 200_000, MOST_LINES = 5_000, SHOW_DELAY = 30;
// A part of what is shown has no more than these when another one is added to it.
const FULL_PART = 20_000, FULL_LINES = 500;

const program = new Runner();
let shownLetters = 0, shownLines = 0;
// The input that was typed for the last run.
let typedLines = "";

// Output is shown in parts. The pause after each is as long as the layout of the last one took. Only the last part of a long text is shown.
let waiting = [], waitingLetters = 0, waitingLines = 0, showing, pause = SHOW_DELAY;

const newlinesOf = (text) => text.split("\n").length - 1;
const endOf = (text) => text.split("\n").slice(-MOST_LINES - 1).join("\n").slice(-MOST_SHOWN);
const isFull = (letters, lines) => letters >= MOST_SHOWN || lines >= MOST_LINES;

function append(all, kind) {
    const part = endOf(all), lines = newlinesOf(part);
    waiting.push({ part, kind, lines });
    waitingLetters += part.length;
    waitingLines += lines;
    while (waiting.length > 1 && isFull(waitingLetters - waiting[0].part.length, waitingLines - waiting[0].lines)) {
        const gone = waiting.shift();
        waitingLetters -= gone.part.length;
        waitingLines -= gone.lines;
    }
    showing ??= setTimeout(showWaiting, pause);
}

function showWaiting() {
    const begun = performance.now();
    clearTimeout(showing);
    const out = at("output");
    const atEnd = out.scrollTop + out.clientHeight >= out.scrollHeight - 30;
    waiting.forEach((it) => showPart(out, it));
    shownLetters += waitingLetters;
    shownLines += waitingLines;
    while (isFull(shownLetters, shownLines) && out.childNodes.length > 1) dropPart(out.firstChild);
    if (atEnd) out.scrollTop = out.scrollHeight;
    forgetWaiting();
    pause = Math.max(SHOW_DELAY, performance.now() - begun);
}

function showPart(out, { part, kind, lines }) {
    const last = out.lastChild;
    if (last?.className === kind && last.textContent.length < FULL_PART && last.lines < FULL_LINES) {
        last.append(part);
        last.lines += lines;
    } else out.append(element("span", { className: kind, lines }, part));
}

function dropPart(first) {
    shownLetters -= first.textContent.length;
    shownLines -= first.lines;
    first.remove();
}

function forgetWaiting() {
    clearTimeout(showing);
    [waiting, waitingLetters, waitingLines, showing] = [[], 0, 0, undefined];
}

function wantsLine(wants) {
    for (const it of ["line", "send", "close"]) at(it).disabled = !wants;
    at("line").placeholder = wants ? "a line for the program" : "input, when it is asked for";
    if (wants) at("line").focus();
}

function busy(is) {
    at("stop").disabled = !is;
    at("run").disabled = is;
}

function clearConsole() {
    forgetWaiting();
    at("output").replaceChildren();
    at("end").replaceChildren();
    shownLetters = shownLines = 0;
}

async function run() {
    choose("console");
    at("views").scrollIntoView({ block: "nearest" });
    clearConsole();
    at("output").dataset.begun = "";
    typedLines = "";
    busy(true);
    tell("running…");
    const decoders = { 1: new TextDecoder(), 2: new TextDecoder() };
    const pieces = (all) => all.forEach(({ to, bytes }) => append(decoders[to].decode(bytes, { stream: true }), to === 2 ? "note" : "said"));
    const wantsInput = () => (showWaiting(), wantsLine(true), tell("waiting for input"));
    const how = at("how").value;
    const words = [how, ...optionWords(how), "--", ...fileNames()];
    const came = await program.run(words, sources(), { pieces, wantsInput, asks: true, input: encode(at("input").value) });
    showWaiting();
    wantsLine(false);
    busy(false);
    showEnd(came);
}

function showEnd(came) {
    if (came.killed) return tell("stopped");
    const time = `${(came.time / 1000).toFixed(2)} s`;
    tell(came.status === undefined ? endWords(came) : `${endWords(came)}, status ${came.status}, ${time}`, came.status !== 0);
    const lacked = OPTIONS.find((it) => it.status !== undefined && it.status === came.status);
    if (lacked && at("how").value === "run") at("end").append(`It may ${lacked.more}: see Options.`);
    const fault = placeOfEnd(came.status, at("output").textContent.trimEnd().split("\n"));
    if (!fault) return;
    at("end").append(element("button", { onclick: () => goTo(fault.file, fault.line) }, `Show line ${fault.line} of ${fault.file}`), " ");
    if (came.status === 3) happened("failed");
    at("end").scrollIntoView({ block: "nearest" });
}

// The place of the error that ended a run, or of the first fault that let it not begin.
function placeOfEnd(status, lines) {
    return { 1: placed(lines[0]), 3: placed(lines.at(-1)) }[status];
}

// Gives the run a line, or null for the end of the input.
function give(line) {
    if (line !== null) append(line, "typed"), (typedLines += line);
    at("keep-typed").disabled = typedLines === "";
    wantsLine(false);
    tell("running…");
    program.give(line === null ? null : encode(line));
}

whenever("opened", () => (program.stop(), clearConsole(), delete at("output").dataset.begun));
at("run").onclick = run;
at("stop").onclick = () => program.stop();
at("ask").onsubmit = (event) => {
    event.preventDefault();
    const line = at("line").value;
    at("line").value = "";
    give(`${line}\n`);
};
at("close").onclick = () => give(null);
at("keep-typed").onclick = () => {
    at("input").value += typedLines;
    typedLines = "";
    at("keep-typed").disabled = true;
    changedFiles();
};
