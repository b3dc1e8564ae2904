// Breakpoints of the page: at lines of the files, with conditions, and at labels of the assembly.
"use strict";

// The line and places at which the break of a line stops: { line, places }, or undefined.
const stopOfBreak = (file, line) => breakOfLine(file.name, line, machine);

// The most stops at which one run evaluates conditions.
const MOST_TOGETHER = 64;

// The breaks, in the form that the moves of stops.js take. A break is open if each break at its place has a condition.
function breaksSet() {
    const conditions = new Map();
    for (const file of files) {
        for (const [line, condition] of file.breaks) {
            for (const place of stopOfBreak(file, line)?.places ?? []) conditions.set(place, [...(conditions.get(place) ?? []), condition]);
        }
    }
    const addresses = [...machine.labels].map((it) => machine.listing.labels.get(it)).filter((it) => it < DATA_START);
    const isOpen = ({ place, pc }) => !addresses.includes(pc) && (conditions.get(place) ?? [""]).every((it) => it !== "");
    return { places: [...conditions.keys()], addresses, isOpen, first: (stops) => firstHolding(stops, conditions) };
}

// A promise of the first of these stops at which a condition holds or has no value. In the second case the stop has the reason as `untold`.
// Each run looks at more stops than the one before.
async function firstHolding(stops, conditions) {
    for (let i = 0, together = 1; i < stops.length; i += together, together = Math.min(4 * together, MOST_TOGETHER)) {
        const part = stops.slice(i, i + together), held = await Promise.all(part.map((it) => heldAt(it, conditions.get(it.place))));
        const found = held.findIndex(Boolean);
        if (found >= 0) return { ...part[found], untold: held[found].untold };
    }
    return undefined;
}

// A promise of the truth at a stop: {} if one of these conditions holds, else { untold } with the reason if one has no value, else undefined.
async function heldAt({ steps }, conditions) {
    const state = await State.after(steps, machine.state), view = viewOf(state);
    const said = await state.settled(() => {
        const [frame] = stackOf(view, 1);
        return conditions.map((it) => ({ condition: it, truth: truthOf(expressionOf(it)?.(frame, view) ?? { wrong: UNREAD }) }));
    });
    const wrong = said.find((it) => it.truth.wrong);
    if (said.some((it) => it.truth === true)) return {};
    return wrong && { untold: `the condition "${wrong.condition}" has no value here: ${wrong.truth.wrong}` };
}

function toggleBreak(line) {
    if (!shownFile.breaks.delete(line)) shownFile.breaks.set(line, "");
    showMarks();
    paint();
    showBreaks();
    if (compiledModule) prepare().then(showBreaks, () => {});
}

// Maps lines of a file to a text about its breaks, if a break stops at another line than its own. The map is empty before the table is read.
function stopsOfBreaks(file) {
    const found = new Map();
    for (const line of machine.listing === undefined ? [] : file.breaks.keys()) {
        const to = stopOfBreak(file, line)?.line;
        if (to === line) continue;
        found.set(line, to === undefined ? "The break here never stops" : `The break here stops at line ${to}`);
        if (to !== undefined && !found.has(to)) found.set(to, `The break at line ${line} stops here`);
    }
    return found;
}

// The name of a break at a line, with the line at which it stops.
function breakWords(file, line) {
    const to = machine.listing && stopOfBreak(file, line)?.line;
    return `${file.name}:${line}${to === undefined || to === line ? "" : ` → ${to}`}`;
}

function showBreaks() {
    const breakOf = (file, line) => ({ words: breakWords(file, line), remove: () => file.breaks.delete(line), field: conditionField(file, line) });
    const lines = files.flatMap((file) => [...file.breaks.keys()].map((line) => breakOf(file, line)));
    const labels = [...machine.labels].map((it) => ({ words: it, remove: () => machine.labels.delete(it) }));
    at("breaks").replaceChildren(...[...lines, ...labels].map(({ words, remove, field = "" }) => {
        const onclick = () => (remove(), showBreaks(), showMarks(), paint(), at("go-on").focus());
        const label = { title: "Remove this break", "aria-label": `Remove the break at ${words}` };
        return element("span", {}, element("button", { ...label, onclick }, `${words} ×`), field);
    }));
}

// The field for the condition of a break at a line.
function conditionField(file, line) {
    const label = { placeholder: "if, as n < 3", "aria-label": `Condition of the break at ${file.name}:${line}` };
    const field = element("input", { value: file.breaks.get(line), size: 14, spellcheck: false, autocapitalize: "off", ...label });
    const check = () => {
        const isRead = field.value.trim() === "" || expressionOf(field.value) !== undefined;
        field.setAttribute("aria-invalid", String(!isRead));
        field.title = isRead ? `Stop only if this is true. It has ${FORMS_TAKEN}.` : UNREAD;
    };
    field.oninput = () => (file.breaks.set(line, field.value.trim()), check());
    check();
    return field;
}

// Adds a break at the label in the field. If the field is empty, the break is at the method at the cursor.
function addBreak() {
    const label = at("label").value.trim() || methodAt(outlineOf(files), shownFile.name, cursorLine());
    if (!label || (machine.listing && !(machine.listing.labels.get(label) < DATA_START))) return tell(`${label || "this"} is no label of the code`, true);
    machine.labels.add(label);
    at("label").value = "";
    showBreaks();
}

at("add-break").onclick = addBreak;
at("label").onkeydown = (event) => void (event.key === "Enter" && addBreak());
at("gutter-room").addEventListener("click", (event) => {
    const line = Number(event.target.closest(".number")?.textContent);
    if (line > 0) toggleBreak(line);
});
whenever("opened", () => machine.labels.clear());
whenever("marked", (file) => (marks.stops = stopsOfBreaks(file)));
whenever("chosen", (view) => void (view === "machine" && showBreaks()));
