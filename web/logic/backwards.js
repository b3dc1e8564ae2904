// Moves back through a run, by source lines and to breakpoints. A move runs a part of the run before the current state again, a longer part each time,
// until the part contains the stop. Each move returns a promise of the stop, or of undefined if no such stop is earlier in the run.
"use strict";

const FIRST_PART = 8000, PART_GROWS = 8, STOPS_OF_PART = 400;

// Collects the stops at these addresses in the last part of the run before the current state, and returns the one that `choose(stops, isAll)` returns.
// `isAll` is true if the part begins with the run. If `choose` returns undefined, the function repeats this with a longer part.
async function lastOf(from, addresses, choose) {
    const { steps } = from.state;
    for (let size = FIRST_PART; ; size *= PART_GROWS) {
        const first = Math.max(0, steps - size), stops = [];
        const accept = (stop) => {
            if (stop.steps >= steps) return stop;
            stops.push(stopOf(stop, from));
            return undefined;
        };
        if (steps > first) await runOn(first, addresses, accept, { budget: steps, stops: STOPS_OF_PART });
        const found = await choose(stops, first === 0);
        if (found || first === 0) return found;
    }
}

// Moves to the beginning of the previous pass over another line of this frame, or to the line of the caller.
// If the state is within a line, the move ends at the beginning of this line.
function backOver(from) {
    const { pc } = from.state.registers, entry = unitAt(from.listing, pc)?.from, fp = frameNow(from);
    const place = from.table.stopAt.get(pc), callers = new Set(from.frames.slice(1).map((it) => it.fp));
    return lastOf(from, [...addressesOf(stopsOfStack(from)), ...(entry === undefined ? [] : [entry])], (stops, isAll) => {
        const begun = pc === entry ? stops.length : stops.findLastIndex((it) => it.enters && it.fp === fp);
        const outer = stops.filter((it, i) => it.place && (it.fp === fp ? i > begun : callers.has(it.fp)));
        const isHere = (it) => place !== undefined && it.fp === fp && isOneLine(it.place, place);
        let i = outer.length - 1;
        while (i >= 0 && isHere(outer[i])) i -= 1;
        while (i > 0 && outer[i - 1].fp === outer[i].fp && goesOn(outer[i - 1].place, outer[i].place)) i -= 1;
        return i > 0 || isAll ? outer[i] : undefined;
    });
}

// Moves to the last break before the current state.
function backTo(from, breaks) {
    const broken = new Set(breaks.places), named = new Set(breaks.addresses);
    const { isOpen = isSure, last } = breaks;
    return lastOf(from, [...addressesOf(breaks.places), ...breaks.addresses], (stops, isAll) => {
        const begins = firstOfPass(undefined, undefined);
        // Only the whole run shows whether the first stop in a frame begins a pass over its line.
        const known = new Set(), found = [];
        for (const it of stops) {
            const isFirst = it.place !== undefined && begins(it) && (isAll || known.has(it.fp));
            if (named.has(it.pc) || (isFirst && broken.has(it.place))) found.push({ ...it, broken: true });
            known.add(it.fp);
        }
        return found.some(isOpen) ? last(found) : found.at(-1);
    });
}
