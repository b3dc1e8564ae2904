// Creates elements of the page. All text enters the page here, only as text: no script makes markup from a text.
"use strict";

const at = (id) => document.getElementById(id);

function element(name, properties = {}, ...children) {
    const made = document.createElement(name);
    for (const [key, value] of Object.entries(properties)) {
        if (key.includes("-") || key === "role") made.setAttribute(key, value);
        else made[key] = value;
    }
    made.append(...children);
    return made;
}

// Makes a room contain an element for each row, made by `make`. It keeps an element whose row is unchanged, because a new one must be laid out and painted.
function showRows(room, rows, make) {
    rows.forEach((row, i) => {
        const old = room.children[i], key = row.join("\n");
        if (old?.rowKey === key) return;
        const made = Object.assign(make(...row), { rowKey: key });
        if (old) old.replaceWith(made);
        else room.append(made);
    });
    while (room.children.length > rows.length) room.lastChild.remove();
}

// Shows the page's state line, which a screen reader reads aloud.
function tell(words, bad = false) {
    if (at("state").textContent !== words) at("state").textContent = words;
    at("state").classList.toggle("bad", bad);
}

// Makes tabs work by keyboard: the arrow keys go from one to the next, and the Tab key reaches only the chosen one.
function arrowsIn(list, choose) {
    list.addEventListener("keydown", (event) => {
        const tabs = [...list.querySelectorAll('[role="tab"]')];
        const now = tabs.indexOf(document.activeElement);
        const to = { ArrowRight: now + 1, ArrowLeft: now - 1, Home: 0, End: tabs.length - 1 }[event.key];
        if (now < 0 || to === undefined) return;
        event.preventDefault();
        choose((to + tabs.length) % tabs.length);
        list.querySelector('[aria-selected="true"]').focus();
    });
}
