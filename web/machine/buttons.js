// The buttons and fields of the machine: steps by instructions and by lines, runs to breakpoints and to any state, and input that the user types.
"use strict";

// Moves to the first line of the run, and forgets the typed input.
function restart() {
    if (machine.moves) return machine.opened;
    forgetReads();
    Object.assign(machine, { frames: undefined, earlier: [] });
    return move(async () => {
        const state = await State.after(0);
        return pastReads(toFirstLine, { ...viewOf(state), frames: [] }, NO_BREAKS).then(findLength);
    });
}

// Moves to the state after this number of instructions, or to an earlier read whose line is missing.
function moveTo(steps, why = {}) {
    return move(async (state) => ({ steps: steps > state.steps ? await stepsOrRead(state.steps, steps) : Math.max(0, steps), ...why }));
}

const stepCount = () => numberOf("count", 1, 1_000_000_000);

// Moves to the position of the slider. Each move calls it at its end, because the slider may have moved in the meantime.
async function slide() {
    if (machine.moves || slidTo === undefined) return;
    const wanted = slidTo;
    await moveTo(wanted, { returns: true });
    if (slidTo === wanted) slidTo = undefined;
}

// Moves by a function of stops.js or backwards.js.
function moveBy(go, breaksNow = () => NO_BREAKS) {
    move((state) => pastReads(go, { ...viewOf(state), frames: machine.frames ?? [] }, breaksNow()));
}

// Moves back by a function of backwards.js, or to the first line if the function finds no stop.
function moveBackBy(find) {
    move(async (state) => {
        const from = { ...viewOf(state), frames: machine.frames ?? [] };
        const found = await find(from);
        if (found) return found;
        const first = await toFirstLine({ ...from, state: await State.after(0), frames: [] }, NO_BREAKS);
        return { steps: Math.min(state.steps, first.steps) };
    });
}

// Starts the run in the debugger, and runs from the first line to the error that ends it.
function lookInMachine() {
    choose("machine");
    machine.opened = restart();
    machine.opened.then(() => moveBy(goOn));
}

// Adds a typed line to the input, or ends the input if the line is null. Then it continues the move that came to the read.
function typeLine(line) {
    const { interrupted = () => machine.state.steps } = machine;
    if (line === null) machine.inputEnds = true;
    else machine.typed += `${line}\n`;
    at("read-line").value = "";
    at("read").hidden = true;
    forgetLength();
    move(async () => findLength(await interrupted()));
}

function addWatch(event) {
    const name = at("watch").value.trim();
    event.preventDefault();
    at("watch").value = "";
    if (name !== "" && !machine.watched.includes(name)) machine.watched.push(name);
    showAgain();
}

function removeWatch({ target }) {
    if (target.dataset.watched === undefined) return;
    machine.watched = machine.watched.filter((it) => it !== target.dataset.watched);
    showAgain();
}

function showMachine() {
    if (machine.state === undefined) machine.opened = restart();
    else markHere(placeShown());
}

whenever("chosen", (view) => void (view === "machine" && showMachine()));
whenever("failed", () => at("end").append(element("button", { onclick: lookInMachine }, "Look in the debugger")));
whenever("moved", slide);
at("restart").onclick = () => void restart();
at("previous").onclick = () => move(() => ({ steps: machine.earlier.pop() ?? 0, returns: true }));
at("step").onclick = () => machine.state && moveTo(machine.state.steps + stepCount());
at("back").onclick = () => machine.state && moveTo(machine.state.steps - stepCount());
at("halt").onclick = () => debugged.stop();
at("go-on").onclick = () => moveBy(goOn, breaksSet);
at("over").onclick = () => moveBy(over);
at("into").onclick = () => moveBy(into);
at("out").onclick = () => moveBy(out);
at("line-back").onclick = () => moveBackBy(backOver);
at("slider").oninput = () => {
    slidTo = Number(at("slider").value);
    slide();
};
at("add-watch").onsubmit = addWatch;
at("watches").addEventListener("click", removeWatch);
at("read").onsubmit = (event) => (event.preventDefault(), typeLine(at("read-line").value));
at("read-end").onclick = () => typeLine(null);
