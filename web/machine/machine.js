// The debugger of the page: it shows a state, and moves to another one.
"use strict";

let here;

// Forgets all that was computed from the files before the change.
function forgetMachine() {
    debugged.stop();
    Object.assign(machine, { prepared: undefined, listing: undefined, state: undefined, frames: undefined, entries: undefined, earlier: [] });
    at("where").textContent = CHANGED;
    for (const it of ["source-here", "code", "watches"]) at(it).replaceChildren();
    shownCode = undefined;
    forgetReads();
    forgetLength();
    if (shownFile) showLight(undefined), markHere(undefined);
}

// Marks the line at which the machine is.
function markHere(place) {
    here = place;
    showMarks();
    paint();
}

// Marks the line at which the machine is, and scrolls to it.
function showHere(place) {
    const file = place && fileNamed(place.file);
    if (file && file !== shownFile) showFile(file);
    markHere(place);
    if (file) scrollToLine(place.line);
}

// Moves to the result of `find`: a number of instructions, { steps } with the reason why the run stopped there, or "again" for the same state.
// With `returns` in the result, the move is not added to the earlier states.
async function move(find) {
    if (machine.moves) return;
    machine.moves = true;
    machine.interrupted = undefined;
    at("halt").disabled = false;
    try {
        await prepare();
        if (machine.state === undefined) machine.state = await State.after(0);
        const found = await find(machine.state);
        if (machine.state === undefined) throw new MoveFailed(CHANGED);
        if (found === "again") return await show(machine.state, machine.before, machine.why);
        const to = typeof found === "number" ? { steps: found } : found;
        if (to.steps !== machine.state.steps && !to.returns && machine.frames) machine.earlier.push(machine.state.steps);
        await showAfter(to.steps, to);
    } catch (error) {
        if (!(error instanceof MoveFailed)) throw error;
        at("where").textContent = machine.listing === undefined && error.message === "stopped" ? CHANGED : error.message;
    } finally {
        machine.moves = false;
        at("halt").disabled = true;
        setTimeout(() => happened("moved"));
    }
}

async function showAfter(steps, why = {}) {
    const state = await State.after(steps, machine.state);
    await show(state, { state: machine.state, entries: machine.entries }, why);
}

// Shows a state, marks the differences from `before`, and says why the run stopped there.
async function show(state, before, why) {
    const listing = machine.listing;
    const picture = await state.settled(() => pictureOf(viewOf(state)));
    if (listing !== machine.listing) return;
    Object.assign(machine, { state, before, why, frames: picture.frames, entries: shownEntries(picture) });
    showFrames(picture.frames, before.entries);
    showWatches(picture.watches, before.entries);
    showRegisters(picture.registers, before.state?.registers);
    showMemory(picture.memory, before.state);
    showOutput(state.output);
    showSteps(state);
    showRead();
    at("where").textContent = whereWords(state, why);
    at("where").classList.toggle("bad", why.error !== undefined);
    at("previous").disabled = machine.earlier.length === 0;
    if (!state.ended) showPlace(state);
}

// Shows the code and the line of a state. At the end of a run the last ones stay.
function showPlace(state) {
    showCode(viewOf(state));
    showHere(placeShown());
    showSourceLine(placeShown());
}

// Shows the state again, after an object was opened or another address was chosen.
function showAgain() {
    if (machine.state) move(() => "again");
}

function whereWords(state, { error, limit, reads, untold }) {
    const count = `after ${state.steps.toLocaleString("en")} instructions`;
    if (state.ended) return `The run has ended ${count}.`;
    if (limit) return `The step limit is reached ${count}.`;
    const place = placeShown();
    const line = place ? `line ${place.line} of ${place.file}` : "no line of the source";
    if (error) return `Ends by an error: ${ERRORS[error]}, ${line}, ${count}.`;
    if (reads) return `The program reads a line at ${line}, ${count}: type it here.`;
    return `At ${line}, in ${machine.frames[0]?.title ?? "the start"}, ${count}.${untold ? ` It stops since ${untold}.` : ""}`;
}

function openPath(path) {
    if (!machine.open.delete(path)) machine.open.add(path);
    showAgain();
}

whenever("marked", (file) => (marks.here = lineIn(file, here)));
whenever("changed", forgetMachine);
whenever("chosen", (view) => void (view === "machine" || markHere(undefined)));
for (const it of ["frames", "watches"]) at(it).addEventListener("click", ({ target }) => target.dataset.path !== undefined && openPath(target.dataset.path));
at("address").onchange = showAgain;
for (const it of OPTIONS) if (it.isOfMachine) at(it.id).onchange = forgetMachine;
