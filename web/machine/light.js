// Marks the line at the pointer in the text, and the code of this line in the machine and in the assembly.
"use strict";

// Marks a line and its code. Without a place it removes the mark.
function showLight(place) {
    light = place;
    lightCode();
    lightAssembly(place);
    showMarks();
    paint();
}

function lightUp(place) {
    if ((isAssemblyShown() || (isMachineShown() && !machine.moves)) && !isOneLine(place, light)) showLight(place);
}

// The line of the text at a pointer.
function lineAt(event) {
    const below = event.offsetY + text.scrollTop - parseFloat(getComputedStyle(text).paddingTop);
    return { file: shownFile.name, line: Math.floor(below / lineHeight()) + 1 };
}

// Shows the code of a line, also if the line is in another method than the code that is shown.
function showCodeOfLine({ file, line }) {
    const stop = machine.table.stops.find((it) => it.file === file && it.line === line);
    if (stop) showCode(viewOf(machine.state), stop.address);
}

at("code").addEventListener("pointerover", (event) => lightUp(placeOfRow(event.target.closest(".row"))));
at("code").addEventListener("click", (event) => {
    const place = placeOfRow(event.target.closest(".row"));
    if (place) goTo(place.file, place.line);
});
text.addEventListener("pointermove", (event) => lightUp(lineAt(event)));
text.addEventListener("click", (event) => {
    lightUp(lineAt(event));
    if (isAssemblyShown()) showAssemblyOfLine(lineAt(event));
    else if (isMachineShown() && !machine.moves) showCodeOfLine(lineAt(event));
});
for (const it of [text, at("code")]) it.addEventListener("pointerleave", () => lightUp(undefined));
at("lines").addEventListener("pointermove", (event) => isAssemblyShown() && lightUp(lineAtAssembly(event)));
at("lines").addEventListener("pointerleave", () => lightUp(undefined));
at("lines").addEventListener("click", (event) => {
    const place = isAssemblyShown() && getSelection().isCollapsed ? lineAtAssembly(event) : undefined;
    if (place) goTo(place.file, place.line);
});
