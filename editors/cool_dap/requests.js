// Answers the requests of a client (an editor) to a debug adapter (`this`).
"use strict";
const { disassembled, memory } = require("./code.js");

const THREAD = 1;
const CAPABILITIES = {
    supportsConfigurationDoneRequest: true, supportsFunctionBreakpoints: true, supportsConditionalBreakpoints: true,
    supportsHitConditionalBreakpoints: true, supportsLogPoints: true, supportsStepBack: true, supportsEvaluateForHovers: true,
    supportsTerminateRequest: true, supportsRestartRequest: true, supportsDelayedStackTraceLoading: true, supportsExceptionInfoRequest: true,
    supportsSteppingGranularity: true, supportsDisassembleRequest: true, supportsReadMemoryRequest: true, supportsBreakpointLocationsRequest: true,
    supportsLoadedSourcesRequest: true,
    exceptionBreakpointFilters: [
        { filter: "errors", label: "Errors at run time", description: "Stop before a run ends by an error, by abort or at a limit", default: true },
        { filter: "end", label: "End of the program", description: "Stop before the run ends", default: false },
    ],
};
// An answer that is a refusal.
class Refused extends Error {}

// Returns a function that limits a number of a client to these bounds. If the client gives no number, the function returns `usual`.
const within = (least, most, usual) => (given) => (Number.isFinite(given) ? Math.min(most, Math.max(least, Math.trunc(given))) : usual);
const MOST_INSTRUCTIONS = 10_000, MOST_BYTES = 65_536;
const countOf = within(0, MOST_INSTRUCTIONS, 0), bytesOf = within(0, MOST_BYTES, 0), placeOf = within(-(2 ** 32), 2 ** 32, 0), frameOf = within(0, 2 ** 20, 0);

const resumes = (after) => ({ allThreadsContinued: true, after });

// The response of each request. `after` is called after the response.
const REQUESTS = {
    initialize() {
        return CAPABILITIES;
    },
    async launch(settings) {
        await this.launch(settings);
        return { after: () => this.event("initialized") };
    },
    configurationDone() {
        return { after: () => this.hasBegun || this.begin() };
    },
    async restart({ arguments: settings }) {
        await this.restart(settings);
        return { after: () => this.begin() };
    },
    setBreakpoints(given) {
        return this.setBreakpoints(given);
    },
    setFunctionBreakpoints(given) {
        return this.setFunctionBreakpoints(given);
    },
    setExceptionBreakpoints({ filters = [] }) {
        this.filters = new Set(filters);
    },
    breakpointLocations(given) {
        return this.breakpointLocations(given);
    },
    loadedSources() {
        const { names = [], paths } = this.debuggee?.program ?? {};
        return { sources: names.map((name, i) => ({ name, path: paths[i] })) };
    },
    threads() {
        return { threads: [{ id: THREAD, name: "Main.main" }] };
    },
    stackTrace({ startFrame, levels }) {
        return this.standing() && this.frames.stack({ startFrame: frameOf(startFrame), levels: frameOf(levels) });
    },
    async scopes({ frameId }) {
        return { scopes: this.standing() && (await this.frames.scopes(frameId)) };
    },
    async variables({ variablesReference, start = 0, count = 0 }) {
        const all = this.standing() && (await this.frames.variables(variablesReference));
        return { variables: count > 0 ? all.slice(start, start + count) : all };
    },
    evaluate(given) {
        return this.evaluate(given);
    },
    exceptionInfo() {
        return { exceptionId: this.why ?? "", description: this.why, breakMode: "always" };
    },
    continue() {
        const { logic } = this.standing();
        return resumes(() => this.forward(logic.goOn));
    },
    next({ granularity }) {
        const { logic } = this.standing();
        return resumes(() => (granularity === "instruction" ? this.onByOne() : this.forward(logic.over)));
    },
    stepIn({ granularity }) {
        const { logic } = this.standing();
        return resumes(() => (granularity === "instruction" ? this.onByOne() : this.forward(logic.into)));
    },
    stepOut() {
        const { logic } = this.standing();
        return resumes(() => this.forward(logic.out));
    },
    stepBack({ granularity }) {
        const { logic } = this.standing();
        return resumes(() => (granularity === "instruction" ? this.backByOne() : this.backward(logic.backOver)));
    },
    reverseContinue() {
        const { logic } = this.standing();
        return resumes(() => this.backward(logic.backTo));
    },
    pause() {
        if (this.runs) this.debuggee.pause();
    },
    disassemble(given) {
        const [offset, instructionOffset] = [given.offset, given.instructionOffset].map(placeOf), instructionCount = countOf(given.instructionCount);
        return { instructions: disassembled(this.standing(), { ...given, offset, instructionOffset, instructionCount }) };
    },
    readMemory(given) {
        return memory(this.standing(), { ...given, offset: placeOf(given.offset), count: bytesOf(given.count) });
    },
    terminate() {
        return { after: () => this.finish() };
    },
    disconnect() {
        return { after: () => (this.close(), this.end()) };
    },
};

module.exports = { REQUESTS, Refused, THREAD };
