// The data of the debugger: what is computed from the current program, and what the user has set.
"use strict";

const CHANGED = "The program changed: the next move begins anew.";

// The current program's listing, table, outline, textOf, numbers (of objects), reads and typed (lines), state, and values shown for it. The user sets open
// (paths of objects), labels (breaks), watched (expressions) and earlier (steps).
const machine = { open: new Set(["0.self"]), labels: new Set(), watched: [], earlier: [] };

// Computes the listing, the table and the outline of the current files. It returns a promise.
function prepare() {
    const prepared = (machine.prepared ??= prepareNow());
    prepared.catch(() => machine.prepared === prepared && (machine.prepared = undefined));
    return prepared;
}

async function prepareNow() {
    const made = assembly(), told = codeTable();
    const { text: all, fault = (await told).fault } = await made, { rows } = await told;
    if (made !== assembled || told !== coded) throw new MoveFailed(CHANGED);
    if (fault) throw new MoveFailed(fault);
    const listing = listingOf(all), table = tableOf(rows, files, listing);
    Object.assign(machine, { listing, table, outline: outlineOf(files), textOf: textsOf(files), numbers: new Map() });
    at("break-labels").replaceChildren(...listing.units.map((it) => element("option", { value: it.name })));
    showMarks();
    paint();
}

function viewOf(state) {
    const { listing, table, outline, textOf, numbers, open } = machine;
    return { state, listing, table, outline, textOf, numbers, open };
}

const placeShown = () => placeOf(machine);
const isMachineShown = () => !at("machine").hidden && machine.state !== undefined;
