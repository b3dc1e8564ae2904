// The view "Assembly".
"use strict";

const MOST_ASSEMBLY_SHOWN = 2_000_000;

// Shows the assembly, from the method at the cursor on.
async function showAssembly() {
    const { text: all = "", fault } = await assembly();
    at("lines").textContent = fault ?? all.slice(0, MOST_ASSEMBLY_SHOWN);
    at("cut").hidden = all.length <= MOST_ASSEMBLY_SHOWN;
    const labels = [...all.matchAll(/^([A-Z]\w*(?:\.\w+|_init|_protObj|_dispTab)|__start|class_nameTab):/gm)];
    at("labels").replaceChildren(element("option", { value: "" }, "choose…"), ...labels.map((it) => element("option", { value: it.index }, it[1])));
    const method = methodAt(outlineOf(files), shownFile.name, cursorLine());
    const label = labels.find((it) => it[1] === method);
    if (label) goToLabel(at("labels").value = label.index);
    prepare().then(() => colourAssembly(all), () => {});
}

// Scrolls to the label and selects it.
function goToLabel(index) {
    const lines = at("lines");
    scrollAssembly(lines.textContent.slice(0, index).split("\n").length - 1);
    const end = lines.textContent.indexOf(":", index);
    if (end >= 0) getSelection().setBaseAndExtent(lines.firstChild, index, lines.firstChild, end);
}

at("labels").onchange = (event) => event.target.value !== "" && goToLabel(Number(event.target.value));
whenever("changed", () => void (at("assembly").hidden || showAssembly()));
whenever("chosen", (view) => void (view === "assembly" && showAssembly()));
