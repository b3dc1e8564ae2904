// The input of the debugged program: the input given beforehand, then lines that are typed when the program asks for them.
"use strict";

const linesIn = (all) => all.split("\n").length - 1;

// The input: the given input with a newline at its end, and the typed lines.
function inputGiven() {
    const given = at("input").value;
    return given + (given === "" || given.endsWith("\n") ? "" : "\n") + machine.typed;
}

function forgetReads() {
    Object.assign(machine, { reads: new Reads(), typed: "", inputEnds: false, interrupted: undefined });
    at("read").hidden = true;
}

// Whether the line is missing for the read after this number of instructions.
const lacksLine = (steps) => !machine.inputEnds && machine.reads.numberAt(steps) >= linesIn(inputGiven());

const isRead = ({ steps, pc }) => readersOf(machine.listing).includes(pc) && lacksLine(steps);
const stateReads = ({ steps, registers }) => isRead({ steps, pc: registers.pc });

// Moves by `go`, or to a read whose line is not yet typed. The move continues after the line is typed.
async function pastReads(go, from, breaks) {
    const tellProgress = (steps) => (at("where").textContent = `Running, ${steps.toLocaleString("en")} instructions so far…`);
    const named = new Set(breaks.addresses);
    const takes = (address, stop) => named.has(address) || isRead(stop), isOpen = (stop) => !isRead(stop) && (breaks.isOpen?.(stop) ?? false);
    const all = { ...breaks, addresses: [...named, ...readersOf(from.listing)], takes, isOpen };
    const found = stateReads(from.state) ? { steps: from.state.steps, pc: from.state.registers.pc } : await go(from, all, { tellProgress });
    const reads = isRead(found);
    machine.interrupted = reads ? () => pastReads(go, from, breaks) : undefined;
    return { ...found, reads };
}

// The number of instructions `to`, or that of an earlier read whose line is missing.
async function stepsOrRead(from, to) {
    if (stateReads(machine.state)) return from;
    const accept = (stop) => (isRead(stop) ? stop : undefined);
    return (await runOn(from, readersOf(machine.listing), accept, { budget: to })).steps;
}

// Shows the field for a line if the state is at a read whose line is missing, also if steps led there.
function showRead() {
    const wants = !machine.state.ended && stateReads(machine.state);
    at("read").hidden = !wants;
    if (wants) at("read-line").focus();
}
