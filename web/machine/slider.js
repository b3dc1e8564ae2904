// The slider over the states of a run. Each position is a number of instructions.
"use strict";

// The most instructions that are executed to find the length of a run.
const MOST_LOOKED_FOR = 2_000_000;
// The known length of the run, whether it is the whole length, and the position to which the slider was moved.
let runLength, isWhole, slidTo;

function forgetLength() {
    [runLength, isWhole, slidTo] = [0, false, undefined];
}

// Finds the length of the run, up to a read whose line is missing. It returns its argument, so that a chain of promises can call it.
async function findLength(found) {
    const accept = (stop) => (isRead(stop) ? stop : undefined);
    const { steps: last, ended } = await runOn(0, readersOf(machine.listing), accept, { budget: MOST_LOOKED_FOR });
    [runLength, isWhole] = [last, ended === true];
    return found;
}

function showSteps({ steps: shown, ended }) {
    runLength = Math.max(runLength, shown);
    isWhole ||= ended;
    const slider = at("slider");
    slider.max = runLength;
    if (slidTo === undefined) slider.value = shown;
    slider.setAttribute("aria-valuetext", `${shown} instructions`);
    at("of-steps").textContent = `${shown.toLocaleString("en")} of ${runLength.toLocaleString("en")}${isWhole ? "" : " or more"}`;
}
