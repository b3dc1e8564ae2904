// Shows beside a stop of the machine the rule of evaluation that is under way, with its completed and its remaining premises.
"use strict";

// The rule of an expression's form that fits the progress of its parts. For a conditional it is the rule of the branch that is taken.
function ruleUnderWay(node, states) {
    const all = pageRules.of(node.form, "running").filter((it) => !it.error), named = (name) => all.find((it) => it.name === name);
    if (node.form === "if") return states[2] === "now" ? all[1] : all[0];
    if (node.form === "let") return named(node.parts.length > 1 ? "Let-Init" : "Let-No-Init");
    if (node.form === "new") return named(`New-${node.declared}`) ?? all.at(-1);
    if (node.form === "name") return named(node.name === "self" ? "Self" : "Id");
    return CALLS.has(node.form) ? all.find((it) => !it.name.endsWith("Basic")) : all[0];
}

// The texts of the expression's parts with their values, and the texts of the expressions around it.
function partsShown(span, states, values, trees) {
    const words = (it, most) => trees.textOf(trees.nodeAt(it), most), value = (i) => (values[i] ? [" = ", element("b", {}, values[i])] : []);
    const parts = span.parts.map((it, i) => element("span", { className: `premise ${states[i]}` }, element("code", {}, words(it, 28)), ...value(i)));
    const around = aroundOf(span).slice(-3).map((it) => words(it, 24)).join(" › ");
    return [
        element("p", {}, element("code", {}, words(span, 50)), ...parts.flatMap((it, i) => [i > 0 ? ", " : ", of ", it])),
        ...(around ? [element("p", { className: "quiet" }, "in ", around)] : []),
    ];
}

// The values of the completed parts, and the names in scope with their values.
function valuesHere({ frame, span }, view) {
    const shown = (word) => (word === undefined ? "" : described(word, view).text);
    const names = wordsIn(frame, view).filter((it) => it.isVariable).map((it) => `${it.name} = ${shown(it.word)}`);
    return { values: wordsOfParts(span, frame, view).map(shown), names };
}

async function showRuleUnderWay() {
    const room = at("rule-here"), { state, table, frames } = machine;
    const found = state && !state.ended && table && frames ? underWay(frames, table) : undefined;
    if (!found) return room.replaceChildren();
    const { frame, span } = found, states = progress(span, frame.pc), { trees } = await treesNow(), rule = trees && ruleUnderWay(trees.nodeAt(span), states);
    if (!rule) return room.replaceChildren();
    const { values, names } = await state.settled(() => valuesHere(found, viewOf(state)));
    if (machine.state !== state) return;
    const figure = ruleFigure(rule), marked = marksOfPremises(rule, states);
    figure.querySelectorAll(".premise").forEach((it, i) => it.classList.add(marked[i]));
    const title = "To the beginning or the end of the next premise";
    const step = element("button", { title, onclick: () => moveBy(overPremise, breaksSet) }, "Step by rule");
    const scope = names.length > 0 ? [element("p", { className: "quiet" }, `E, S: ${names.join(", ")}`)] : [];
    room.replaceChildren(element("h2", {}, "Rule under way ", step), figure, ...partsShown(span, states, values, trees), ...scope);
}

whenever("moved", showRuleUnderWay);
