// Opens files from the disk, and saves them there.
"use strict";

const MOST_FILE_BYTES = 1 << 20;

// Reads a file as text. If it is not UTF-8, it is read as Latin-1, in which each byte is a character.
async function fileFrom(file) {
    if (file.size > MOST_FILE_BYTES) throw new Error(`${file.name} is larger than all files of a program together may be.`);
    const bytes = await file.arrayBuffer();
    try {
        return { name: file.name, text: new TextDecoder("utf-8", { fatal: true }).decode(bytes) };
    } catch {
        return { name: file.name, text: new TextDecoder("latin1").decode(bytes) };
    }
}

// Opens the chosen files as the program.
async function openFiles(chosen) {
    if (chosen.length === 0) return;
    try {
        openProgram({ files: await Promise.all([...chosen].map(fileFrom)) }, true);
    } catch (error) {
        tell(error.message, true);
    }
}

function saveFile({ name, text: value }) {
    const address = URL.createObjectURL(new Blob([value], { type: "text/plain" }));
    const link = element("a", { href: address, download: name });
    link.click();
    setTimeout(() => URL.revokeObjectURL(address), 10_000);
}

at("open").onclick = () => at("opened").click();
at("opened").onchange = (event) => openFiles(event.target.files).then(() => (event.target.value = ""));
at("save").onclick = () => files.forEach(saveFile);
document.addEventListener("dragover", (event) => event.preventDefault());
document.addEventListener("drop", (event) => {
    event.preventDefault();
    openFiles(event.dataTransfer.files);
});
