// The stops of a run (source lines, breakpoints, errors), and the steps to them.
//
// The table of code has the address at which each line begins (table.js), and `debug` stops at addresses. Therefore a stop at a line is the state before
// the first instruction of the line.
//
// A move starts from the state that is shown, `from`: { state, listing, table, frames }. Its breaks are { places, addresses }, with these optional functions:
//   takes   whether the break at an address applies
//   isOpen  whether the contents of memory decide if a stop is a break
//   first   a promise of the first of such stops that is a break
//   last    a promise of the last of such stops that is a break
// A move returns a promise of the stop, { steps } with the values of stopOf or runOn, and `broken` if it is a break.
"use strict";

const NO_BREAKS = { places: [], addresses: [] };
const FIRST = "Main.main";
const isSure = () => false;

// Describes a stop: { steps, pc, fp, enters, place }, with its frame's $fp, and the `place` of the table if it has one. An error is { error, steps, fp },
// with the steps before the jump to its routine.
function stopOf({ steps, pc, registers }, { listing, table }) {
    const error = listing.errorAt.get(pc), fp = registerIn(registers, "fp");
    if (error) return { error, steps: steps - 1, fp };
    const enters = unitAt(listing, pc)?.from === pc;
    return { steps, pc, fp: enters ? registerIn(registers, "sp") - FRAME_BYTES : fp, enters, place: table.stopAt.get(pc) };
}

const errorsOf = (listing) => [...listing.errorAt.keys()];
const addressesOf = (places) => places.map((it) => it.address);

// Runs on to the first of these places and addresses that `accepts` takes, to a break, to an error, or to the end of the run.
function runTo(from, places, accepts, breaks, { addresses = [], ...more } = {}) {
    const { state, listing } = from;
    const broken = new Set(breaks.places), begins = firstOfPass(frameNow(from), placeNow(from)), named = new Set(breaks.addresses);
    const { isOpen = isSure, takes = () => true } = breaks;
    // The run continues past the open stops. After it `breaks.first` returns the first of them that is a break.
    const open = [];
    const broke = (found) => {
        if (!isOpen(found)) return found;
        open.push(found);
        return undefined;
    };
    const accept = (stop) => {
        const found = stopOf(stop, from);
        if (found.error) return found.steps > state.steps ? found : undefined;
        const isBreak = (named.has(stop.pc) && takes(stop.pc, stop)) || (found.place && begins(found) && broken.has(found.place));
        return (isBreak ? broke({ ...found, broken: true }) : undefined) ?? (accepts(found) ? found : undefined);
    };
    const settle = async (found) => (open.length > 0 ? await breaks.first(open.splice(0)) : undefined) ?? found;
    const all = [...errorsOf(listing), ...breaks.addresses, ...addresses, ...addressesOf([...places, ...breaks.places])];
    return runOn(state.steps, all, accept, { ...more, settle });
}

// The break of a line of a file: { line, places }. If the line has no stop, the break is at the line of the expression around it, else at the next line of
// its method that has one, else at the last line before. Outside of methods it is at the next line of the file that has a stop, or undefined.
function breakOfLine(file, line, { table, outline }) {
    const all = table.features.filter((it) => it.spans[0].file === file), name = methodAt(outline, file, line);
    const features = all.filter((it) => name === undefined || it.name === name), around = all.map((it) => it.lines.get(line)).find(Boolean);
    const lines = features.flatMap((it) => it.stops).map((it) => it.line).sort((a, b) => a - b);
    const found = around?.line ?? lines.find((it) => it >= line) ?? (name && lines.at(-1));
    return found === undefined ? undefined : { line: found, places: all.flatMap((it) => it.stops).filter((it) => it.line === found) };
}

// Returns a function that says whether a stop begins a pass over its line. In one pass the places of a line come in the order of their addresses. Therefore
// a stop continues the pass if it is at a later place of the line at which its frame was last, unless the two places are in different branches.
function firstOfPass(frame, place) {
    const last = new Map([[frame, place]]);
    return (stop) => {
        for (const it of last.keys()) if (it < stop.fp) last.delete(it);
        const before = last.get(stop.fp);
        last.set(stop.fp, stop.place);
        return !goesOn(before, stop.place);
    };
}

const isOneLine = (one, other) => one?.line === other?.line && one?.file === other?.file;

// Whether a place continues the pass over its line after the previous place of the same frame.
function goesOn(before, place) {
    return before?.address < place.address && isOneLine(before, place) && !areExclusive(before.span, place.span);
}

// The $fp of the innermost frame. For a routine without a frame it is the caller's.
const frameNow = (view) => innermost(view).fp ?? view.state.registers.fp;

// The place of the innermost frame that has one.
const placeOf = ({ frames }) => frames?.map((it) => it.place).find((it) => it !== undefined);

// The place at which a move begins. It is undefined if the method was just called and none of its expressions has begun.
function placeNow(from) {
    const { pc } = from.state.registers, feature = featureAt(from.table, pc);
    return feature && pc < feature.spans[0].from ? undefined : placeOf(from);
}

// Returns a function that says whether a stop is at a line of another frame, or at another line, than the beginning of the move.
function isElsewhere(fp, place) {
    return (stop) => stop.place !== undefined && (stop.fp !== fp || !isOneLine(stop.place, place));
}

// The names of the methods below the innermost one on the stack. The method main is called after the initial values of Main.
function outside(frames) {
    if (frames.length > 1) return frames.slice(1).map((it) => it.title);
    return frames[0]?.title === FIRST ? [] : [FIRST];
}

// The stops of the methods on the stack. They include those of Main.main before its call.
const stopsOfStack = ({ frames, table }) => stopsIn([...frames.slice(0, 1).map((it) => it.title), ...outside(frames)], table);

function stopsIn(names, table) {
    const all = new Set(names);
    return table.features.filter((it) => all.has(it.name)).flatMap((it) => it.stops);
}

// The addresses at which the callers on the stack continue, if they have work left in the same line.
function returnsTo({ frames, table }) {
    const calls = frames.slice(1).filter((it) => it.pc !== undefined).map((it) => spansAt(table, it.pc).at(-1));
    return [...new Set(calls.filter((it) => it && leavesWork(it, table)).map((it) => it.to))];
}

const goOn = (from, breaks, more) => runTo(from, [], () => false, breaks, more);

// Runs from the beginning to the first line of Main.main.
function toFirstLine(from, breaks, more) {
    const [first] = stopsIn([FIRST], from.table);
    return runTo(from, [first], (it) => it.place === first, breaks, more);
}

// The first stops of the methods that the methods of these places call, and of the initial values.
function calledFrom(places, { listing, table }) {
    const calls = [...new Set(places.map((it) => it.feature))].flatMap((it) => it.spans).filter((it) => CALLS.has(it.form));
    const names = new Set(calls.flatMap((it) => calleesAt(listing, it.to - 4)));
    return table.features.filter((it) => it.kind === "initial" || names.has(it.name)).map((it) => it.stops[0]);
}

// Moves to another line or another frame. The frame may be of a method on the stack, of a method that these may call, or of an initial value.
function into(from, breaks, more) {
    const near = stopsOfStack(from), fp = frameNow(from), elsewhere = isElsewhere(fp, placeNow(from));
    return runTo(from, [...near, ...calledFrom(near, from)], (it) => it.fp > fp || elsewhere(it), breaks, { ...more, addresses: returnsTo(from) });
}

// Moves to another line of this frame, or to a line of a frame outside of it.
function over(from, breaks, more) {
    const fp = frameNow(from), elsewhere = isElsewhere(fp, placeNow(from));
    return runTo(from, stopsOfStack(from), (it) => it.fp > fp || (it.fp === fp && elsewhere(it)), breaks, { ...more, addresses: returnsTo(from) });
}

// Moves to a frame outside of this one.
function out(from, breaks, more) {
    const fp = frameNow(from), places = stopsIn(outside(from.frames), from.table);
    const accepts = (it) => it.fp > fp || (from.frames.length < 2 && places.includes(it.place));
    return runTo(from, places, accepts, breaks, { ...more, addresses: returnsTo(from) });
}
