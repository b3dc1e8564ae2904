// Lists the call stack, the variables of its frames, and the attributes of objects, in the format of the debug adapter protocol. The lists belong to one state
// of the program: references to them end with the next state.
"use strict";

const MOST_FRAMES = 20_000;
const PROGRESS = { done: "done", now: "under way", due: "not begun" };

// A name that stands for nothing that can be told.
class NotTold extends Error {}

class Frames {
    constructor(debuggee) {
        this.debuggee = debuggee;
        this.forget();
    }

    forget() {
        this.found = [];
        this.parts = [];
    }

    async stack({ startFrame = 0, levels = 0 }) {
        const most = levels > 0 ? startFrame + levels : MOST_FRAMES;
        const all = await this.upTo(most + 1);
        const isAll = all.length <= most;
        const stackFrames = all.slice(startFrame, most).map((it, i) => this.told(it, startFrame + i));
        return { stackFrames, totalFrames: isAll ? all.length : most + 1 };
    }

    async upTo(most) {
        if (this.found.length < most) this.found = (await this.debuggee.frames(most)).filter((it) => it.title !== "…");
        return this.found;
    }

    told({ title, place, unit, pc }, number) {
        const { logic, outline, program } = this.debuggee;
        const method = outline.get(title), at = method && (place === undefined || pc === unit?.from) ? method : place;
        const source = at && program.pathOf(at.file) ? { source: { name: at.file, path: program.pathOf(at.file) } } : { presentationHint: "subtle" };
        const code = pc === undefined ? {} : { instructionPointerReference: logic.hex(pc) };
        return { id: number + 1, name: title, line: at?.line ?? 0, column: at ? 1 : 0, ...source, ...code };
    }

    async frame(id) {
        return (await this.upTo(id))[id - 1];
    }

    // The contents of a frame, as objects.js has them.
    async contents(id) {
        const { debuggee } = this, frame = await this.frame(id);
        return debuggee.state.settled(() => {
            const parts = frame === undefined ? [] : debuggee.logic.partsUnderWay(frame, debuggee.view)
                .map(({ name, progress, word }) => (word === undefined ? { name, word: 0, is: { text: PROGRESS[progress] } } : { name, word }));
            return { ...debuggee.logic.contentsOf(frame, debuggee.view), parts };
        });
    }

    async scopes(id) {
        const { variables, computed, attributes, parts } = await this.contents(id);
        const all = [
            { name: "Variables", presentationHint: "locals", is: variables, expensive: false },
            { name: "Attributes of self", is: attributes, expensive: false },
            { name: "Being computed", is: computed, expensive: false },
            { name: "Rule", is: parts, expensive: false },
        ].filter((it) => it.is.length > 0 || it.presentationHint);
        const scopes = all.map(({ is, ...it }) => ({ ...it, variablesReference: this.reference(() => is) }));
        return [...scopes, { name: "Registers", presentationHint: "registers", expensive: true, variablesReference: this.reference(() => this.registers()) }];
    }

    registers() {
        const { registers, steps } = this.debuggee.state;
        const all = Object.entries(registers).map(([name, word]) => ({ name: `$${name}`, word, isRegister: true }));
        return [...all, { name: "$instructions", word: 0, is: { text: String(steps) } }];
    }

    reference(parts) {
        return this.parts.push(parts);
    }

    async variables(reference) {
        const parts = this.parts[reference - 1];
        return parts ? this.described(parts) : [];
    }

    // The variables of names with words. A word is described once all of memory that this takes is read.
    async described(parts) {
        const { debuggee } = this;
        const found = await debuggee.state.settled(() => parts().map((it) => ({ is: debuggee.logic.described(it.word, debuggee.view), ...it })));
        return found.map((it) => this.variable(it));
    }

    variable({ name, word, type, is, isRegister }) {
        const { logic, table } = this.debuggee;
        const text = is.value ?? is.text;
        const value = isRegister ? `${logic.hex(word)}${is.type ? ` ${is.text}` : ""}` : text;
        const opens = is.object !== undefined && logic.attributesOf(is.class, table).length > 0;
        const reference = opens ? this.reference(() => logic.partsOf(word, this.debuggee.view)) : 0;
        const place = word > 0 ? { memoryReference: logic.hex(word) } : {}, known = is.type ?? type;
        return { name, value, ...(known && !isRegister ? { type: known } : {}), variablesReference: reference, ...place };
    }

    // A promise of the value of what `expressionOf` (evaluator.js) made, in a frame, or of { wrong }.
    async value(expression, id) {
        const { debuggee } = this, frame = await this.frame(id);
        return debuggee.state.settled(() => expression(frame, debuggee.view));
    }

    // A promise of the variable that an expression, or a register as `$a0`, is shown as.
    async evaluate(text, id) {
        const { logic } = this.debuggee, name = text.trim();
        const register = name.startsWith("$") && this.registers().find((it) => it.name === name);
        if (register) return (await this.described(() => [register]))[0];
        const expression = logic.expressionOf(text);
        if (!expression) throw new NotTold(`"${name}" cannot be evaluated: write ${logic.FORMS_TAKEN}`);
        const found = await this.value(expression, id);
        if (found.wrong) throw new NotTold(found.wrong);
        return this.variable({ ...found, name: text, type: found.declared });
    }
}

module.exports = { Frames, NotTold };
