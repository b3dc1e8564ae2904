// The page as a whole: its keys, examples and colours, and how it begins.
"use strict";

const EXAMPLES = typeof COOL_EXAMPLES === "undefined" ? [] : COOL_EXAMPLES;
const EMPTY = { files: [{ name: "program.cl", text: "" }] };

function pressed(event) {
    const control = event.ctrlKey || event.metaKey;
    if (event.key === "Enter" && control && !at("run").disabled) run();
    else if (event.key === "Escape" && program.runs) program.stop();
    else if (event.key === "Escape" && debugged.runs) debugged.stop();
    else if (event.key === "Escape" && at("options").open) at("options").open = false, at("options").firstElementChild.focus();
    else if (event.key === "F9") toggleBreak(cursorLine());
    else if (event.key === "F8") choose("machine"), machine.opened.then(at("go-on").onclick);
    else if (event.key === "F10") choose("machine"), at("over").onclick();
    else if (event.key === "s" && control) files.forEach(saveFile);
    else return;
    event.preventDefault();
}

function showExamples() {
    const names = EXAMPLES.map((it) => element("option", { value: it.name }, it.name));
    const before = kept(BEFORE) === null ? [] : [element("option", { value: "before" }, "(what you had before)")];
    at("examples").replaceChildren(element("option", { value: "" }, "choose…"), ...before, ...names);
}

function openExample(name) {
    const found = name === "before" ? programFrom(kept(BEFORE)) : EXAMPLES.find((it) => it.name === name);
    if (found) openProgram(found, name === "before");
    showExamples();
}

function setTheme(name) {
    at("theme").value = name;
    document.documentElement.dataset.theme = name;
    keep(THEME, name);
}

async function begin() {
    setTheme(kept(THEME) ?? "");
    at("hosted").value = kept(HOSTED) ?? "";
    const stored = programFrom(kept(KEPT));
    const linked = await programOfLink();
    if (stored) openProgram(stored, stored.edited);
    if (linked) openProgram(linked);
    if (files.length === 0) openProgram(EXAMPLES[0] ?? EMPTY);
    if (!linked && location.hash.length > 1) at("end").append(NO_LINK);
    showExamples();
    try {
        if (typeof COOL_MODULE === "undefined") throw new Error("module.js is missing beside this page: copy all scripts of web/");
        compiledModule = await load(COOL_MODULE);
    } catch (error) {
        return tell(error.message, true);
    }
    busy(false);
    check();
    program.warm();
    loadExplainer();
}

document.addEventListener("keydown", pressed);
document.addEventListener("click", (event) => at("options").contains(event.target) || (at("options").open = false));
at("examples").onchange = (event) => openExample(event.target.value);
at("theme").onchange = (event) => setTheme(event.target.value);
at("hosted").onchange = () => keep(HOSTED, at("hosted").value.trim());
at("input").onchange = () => changedFiles();
begin();
