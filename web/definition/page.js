// The page of the rules as a whole: its contents, what its signs mean, and the field that finds rules.
"use strict";

const JUDGEMENTS = [
    [[["v", "O"], ["", ", "], ["v", "M"], ["", ", "], ["v", "C"], ["", " ⊢ "], ["v", "e"], ["", " : "], ["v", "T"]],
        "with the types O of names, the methods M of classes, in class C, expression e has type T"],
    [[["v", "so"], ["", ", "], ["v", "S"], ["", ", "], ["v", "E"], ["", " ⊢ "], ["v", "e"], ["", " : "], ["v", "v"], ["", ", "], ["v", "S₁"]],
        "with self so, the store S and the places E of names, e comes to the value v, and leaves the store S₁"],
    [[["v", "T"], ["", " ≤"], ["s", "C"], ["", " "], ["v", "T₁"]], "T conforms to T₁ in class C: it may stand where T₁ is due"],
    [[["v", "T"], ["", " ⊔"], ["s", "C"], ["", " "], ["v", "T₁"]], "their join: the least type to which both conform"],
    [[["v", "O"], ["", "["], ["v", "T"], ["", "/"], ["v", "x"], ["", "]"]], "as O, but x is T; so with S[v/l] and E[l/x]"],
    [[["v", "T′"], ["", "["], ["v", "T₀"], ["", "/"], ["p", "SELF_TYPE"], ["", "]"]], "T′, but T₀ where T′ is SELF_TYPE"],
    [[["", "type("], ["v", "D"], ["", ")"]], "the type that the name D of the program means"],
    [[["", "M("], ["v", "C"], ["", ", "], ["v", "f"], ["", ")"]], "the method f of the nearest class on the chain of C; A.k is feature k of class A"],
    [[["v", "e₁"], ["", ", …, "], ["v", "eₙ"]], "several, or none"],
];

function showSigns() {
    at("judgements").append(...JUDGEMENTS.flatMap(([all, words]) => [element("dt", {}, ...pieces(all)), element("dd", {}, words)]));
}

function showSections() {
    const main = document.querySelector("main");
    main.append(...COOL_RULES.map(section));
    const links = COOL_RULES.map((it) => {
        const forms = it.entries.filter((x) => x.kind === "form" || x.kind === "method");
        const below = forms.map((x) => element("li", {},
            element("a", { href: `#${x.kind === "form" ? `form-${x.heading.toLowerCase().replaceAll(" ", "-")}` : `method-${x.name}`}` },
                x.heading ?? x.name)));
        return element("li", {}, element("a", { href: `#${it.id}` }, `${it.number} ${it.heading}`),
            ...(below.length > 0 ? [element("ul", {}, ...below)] : []));
    });
    at("contents").append(element("ul", {}, ...links));
}

// Shows the cards alone that have the words, in their text or as the kind of a fault.
function find() {
    const words = at("find").value.trim().toLowerCase();
    let shown = 0;
    for (const card of document.querySelectorAll("main .card, main .production")) {
        card.hidden = words !== "" && !card.textContent.toLowerCase().includes(words);
        if (!card.hidden) shown += 1;
    }
    tell(words === "" ? "" : `${shown} found`);
}

// A link to a fault or a form opens what it stands in.
function goToHash() {
    const to = location.hash.length > 1 ? document.getElementById(decodeURIComponent(location.hash.slice(1))) : null;
    if (!to) return;
    for (let it = to; it; it = it.parentElement) if (it.tagName === "DETAILS") it.open = true;
    to.scrollIntoView();
    document.querySelectorAll(".aimed").forEach((it) => it.classList.remove("aimed"));
    to.classList.add("aimed");
}

at("bare").onclick = () => at("bare").setAttribute("aria-pressed", String(document.body.classList.toggle("bare")));
showSigns();
showSections();
at("find").oninput = find;
addEventListener("hashchange", goToHash);
addEventListener("beforeprint", () => document.querySelectorAll(".errors").forEach((it) => (it.open = true)));
goToHash();
