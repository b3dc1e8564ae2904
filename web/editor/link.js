// Makes and reads links that contain the program in their fragment, deflated, in base 64 for addresses. A browser does not send the fragment to a server.
"use strict";

const MOST_LINK_BYTES = 3 << 20;
const NO_LINK = "The link of this address holds no program: it may have been cut.";

async function bytesThrough(bytes, stream, most) {
    const reader = new Blob([bytes]).stream().pipeThrough(stream).getReader();
    const parts = [];
    let total = 0;
    for (let it; !(it = await reader.read()).done; ) {
        total += it.value.length;
        if (total > most) throw new Error("too large");
        parts.push(it.value);
    }
    return new Uint8Array(await new Blob(parts).arrayBuffer());
}

// The fragment that contains a program.
async function fragmentOf(json) {
    const packed = await bytesThrough(encode(json), new CompressionStream("deflate-raw"), MOST_LINK_BYTES);
    let letters = "";
    for (let i = 0; i < packed.length; i += 8192) letters += String.fromCharCode(...packed.subarray(i, i + 8192));
    return `#${btoa(letters).replace(/\+/g, "-").replace(/\//g, "_").replace(/=+$/, "")}`;
}

// The program in the fragment of the page's address. It is undefined if there is none or it is not valid.
async function programOfLink() {
    const fragment = location.hash.slice(1);
    if (fragment === "") return undefined;
    try {
        const packed = Uint8Array.from(atob(fragment.replace(/-/g, "+").replace(/_/g, "/")), (it) => it.charCodeAt(0));
        return programFrom(decode(await bytesThrough(packed, new DecompressionStream("deflate-raw"), MOST_LINK_BYTES)));
    } catch {
        return undefined;
    }
}

// The address that links begin with: the one in the options if it is a web address, else the page's own.
function addressOfLinks() {
    const given = at("hosted").value.trim();
    return (/^https?:\/\/[^\s\/]/.test(given) ? given : location.href).split("#")[0];
}

// Makes the link, and copies it if the browser allows that. The address of the page then contains the program, too.
async function makeLink() {
    const fragment = await fragmentOf(programText()), link = addressOfLinks() + fragment;
    history.replaceState(null, "", location.href.split("#")[0] + fragment);
    const isOfFile = link.startsWith("file:");
    const where = isOfFile ? ": it opens only on this machine, since the page is a file here (Options: the address of a hosted page)" : "";
    at("made-link").value = link;
    try {
        await navigator.clipboard.writeText(link);
        tell(`link copied (${link.length.toLocaleString("en")} letters)${where}`);
    } catch {
        at("options").open = true;
        at("made-link").select();
        tell(`copy the link from the options${where}`);
    }
}

async function openLink() {
    const found = await programOfLink();
    if (found) openProgram(found);
    else tell("this link holds no program", true);
}

at("link").onclick = makeLink;
addEventListener("hashchange", openLink);
