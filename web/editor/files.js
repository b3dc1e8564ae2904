// The files of the program, as tabs above the editor. The order of the tabs is the order of the files in the program.
"use strict";

// A file has a name, a text, breaks (a map from line numbers to conditions, "" for none), its selection (from, to), and its scroll position (top).
const files = [];
let shownFile;
// The errors of the last check: { file, line, words }.
let faults = [];

const newFile = (name, value) => ({ name, text: value, breaks: new Map(), from: 0, to: 0, top: 0 });
const fileNamed = (name) => files.find((it) => it.name === name);
const fileNames = () => files.map((it) => it.name);
const lineIn = (file, place) => (place?.file === file.name ? place.line : undefined);
const sources = () => new Map(files.map((it) => [it.name, encode(it.text)]));

// Tells other scripts that a file was changed, added, renamed or removed, or the input was changed. `isEdited` says whether the user did it.
function changedFiles(isEdited = true) {
    showTabs();
    happened("changed", isEdited);
}

// The reason why a file cannot have a name, or undefined.
function nameFault(name, file) {
    if (name === "") return "A file needs a name.";
    if (/[\0-\x1f]/.test(name)) return "A name has no control characters.";
    if (encode(name).length > 200) return "This name is too long.";
    if (files.some((it) => it !== file && it.name === name)) return `There is a file ${name} already.`;
}

function freeName() {
    for (let i = 1; ; i += 1) if (!fileNamed(`new${i}.cl`)) return `new${i}.cl`;
}

// Replaces all files.
function setFiles(all) {
    files.splice(0, files.length, ...all.map((it) => newFile(it.name, it.text)));
    shownFile = undefined;
    showFile(files[0]);
}

function keepView() {
    if (shownFile) Object.assign(shownFile, { from: text.selectionStart, to: text.selectionEnd, top: text.scrollTop });
}

function showFile(file) {
    keepView();
    shownFile = file;
    showTabs();
    showMarks();
    showText(file.text, file.from, file.to, file.top);
}

// Shows the tabs. If the user is typing a name, its field stays.
function showTabs() {
    if (at("names").querySelector("input")) return;
    const bad = new Set(faults.map((it) => it.file));
    showRows(at("names"), files.map((file) => [file.name, file === shownFile, bad.has(file.name)]), tabOf);
    at("remove-file").disabled = files.length < 2;
}

function tabOf(name, chosen, bad) {
    return element("button", {
        role: "tab", "aria-selected": String(chosen), "aria-controls": "editor", "aria-label": bad ? `${name}, has faults` : name,
        tabIndex: chosen ? 0 : -1, className: bad ? "bad" : "", textContent: name,
        onclick: () => (showFile(fileNamed(name)), at("names").querySelector('[aria-selected="true"]').focus()),
    });
}

function addFile() {
    const file = newFile(freeName(), "");
    files.push(file);
    showFile(file);
    changedFiles();
    renameFile();
}

function removeFile() {
    if (files.length < 2) return;
    if (shownFile.text !== "" && !confirm(`Remove ${shownFile.name} from the program?`)) return;
    const i = files.indexOf(shownFile);
    files.splice(i, 1);
    shownFile = undefined;
    showFile(files[Math.max(0, i - 1)]);
    changedFiles();
}

// Replaces the tab by a field for the name, until Enter, Escape, or the loss of its focus.
function renameFile() {
    const file = shownFile;
    const field = element("input", { value: file.name, "aria-label": "Name of the file", size: 14, spellcheck: false });
    let done = false;
    const end = (takes) => {
        if (done) return;
        const name = field.value.trim();
        const fault = takes ? nameFault(name, file) : undefined;
        done = true;
        field.remove();
        if (fault) tell(fault, true);
        else if (takes && name !== file.name) (file.name = name), changedFiles();
        showTabs();
    };
    field.onkeydown = (event) => {
        event.stopPropagation();
        if (event.key !== "Enter" && event.key !== "Escape") return;
        event.preventDefault();
        end(event.key === "Enter");
        text.focus();
    };
    field.onblur = () => end(true);
    at("names").querySelector('[aria-selected="true"]').replaceWith(field);
    field.focus();
    field.select();
}

// Computes the marks of the file that is shown.
function showMarks() {
    marks.faults = new Map(faults.filter((it) => it.file === shownFile.name).map((it) => [it.line, it.words]));
    marks.breaks = shownFile.breaks;
    happened("marked", shownFile);
}

// Shows a line of a file.
function goTo(name, line) {
    const file = fileNamed(name);
    if (!file) return;
    if (file !== shownFile) showFile(file);
    selectLine(line);
}

// Moves the breaks of a file with their lines, if lines are added or removed before them.
function moveBreaks(file, before, after) {
    if (file.breaks.size === 0) return;
    const old = before.split("\n"), now = after.split("\n");
    let same = 0;
    while (same < now.length && now[same] === old[same]) same += 1;
    const by = now.length - old.length;
    const moved = (line) => (line > same + 1 || (line === same + 1 && by > 0) ? Math.max(same + 1, line + by) : line);
    file.breaks = new Map([...file.breaks].map(([line, condition]) => [moved(line), condition]));
}

text.addEventListener("input", () => {
    moveBreaks(shownFile, shownFile.text, text.value);
    shownFile.text = text.value;
    changedFiles();
    repaint();
});
at("names").ondblclick = renameFile;
arrowsIn(at("names"), (i) => showFile(files[i]));
at("add-file").onclick = addFile;
at("rename-file").onclick = renameFile;
at("remove-file").onclick = removeFile;
