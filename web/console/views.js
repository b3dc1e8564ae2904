// The views beside the text, of which one is shown, and their tabs.
"use strict";

const VIEWS = ["console", "machine", "assembly", "why", "help"];

function choose(name) {
    for (const it of VIEWS) {
        at(it).hidden = it !== name;
        at(`tab-${it}`).setAttribute("aria-selected", String(it === name));
        at(`tab-${it}`).tabIndex = it === name ? 0 : -1;
    }
    happened("chosen", name);
}

for (const it of VIEWS) at(`tab-${it}`).onclick = () => choose(it);
arrowsIn(at("views"), (i) => choose(VIEWS[i]));
