// The view "Why": the derivation of the type of the expression at the cursor, as a tree of rules. If the program has a type error, the view shows the rule
// that it breaks, and marks the premise that does not hold.
"use strict";

const treeTeller = new Runner(() => editorModule);
let treesMade;

// The trees of the current program, and the derivations of its types if it is legal: a promise of { trees, known }, or of { fault }.
function treesNow() {
    const made = async () => {
        const lettered = files.map((it) => ({ name: it.name, data: byteLetters(it.text) })), names = await toldBy(treeTeller);
        const { rows, fault } = names.fault ? names : await toldBy(treeTeller, "--trees");
        if (fault) return { fault };
        const trees = new Trees(rows, lettered), marks = marksOf(names.rows, lettered.map((it) => it.name));
        return { trees, known: trees.isTyped ? new Derivations(trees, marks, pageRules) : undefined };
    };
    treesMade ??= made();
    return treesMade;
}

const typedPair = (words, type) => [element("code", {}, words), " : ", element("b", { className: "type" }, type)];

// The list item for a condition of a rule besides the types of the parts.
function sideCondition({ words, more = "", place }) {
    const go = place ? [", ", element("button", { className: "go", onclick: () => goTo(place.file, place.line) }, place.words)] : [];
    return element("li", { className: "side" }, words, element("span", { className: "quiet" }, more && `  ${more}`), ...go);
}

function derivation(node, known, depth = 0) {
    const head = element("summary", {}, ruleLink(node.form, known.ruleName(node)), " ", ...typedPair(known.trees.textOf(node), node.type));
    const parts = node.parts.map((it) => element("li", {}, derivation(it, known, depth + 1)));
    const below = element("ul", {}, ...parts, ...known.conditions(node).map(sideCondition));
    return element("details", { open: depth < 2 || parts.length === 0 }, head, below);
}

// The figure of a rule, with each premise marked that an error of this kind breaks.
function brokenRule(rule, kind) {
    const figure = ruleFigure(rule);
    figure.querySelectorAll(".premise").forEach((it, i) => it.classList.toggle("broken", rule.premises[i].faults?.includes(kind) ?? false));
    return figure;
}

// The offset in bytes of a line and a column of a file.
function byteOf({ file, line, column }) {
    const lines = linesOf(fileNamed(file)?.text ?? "");
    return encode([...lines.slice(0, line - 1), (lines[line - 1] ?? "").slice(0, column)].join("\n")).length;
}

// The type error to explain: the first one in the line of the cursor, else the first one of the program.
function faultAsked() {
    const line = cursorLine(), own = faults.filter((it) => /^E\d+:/.test(it.words));
    return own.find((it) => it.file === shownFile.name && it.line === line) ?? own[0];
}

function faultWhy(fault, trees) {
    const [kind] = fault.words.split(":"), known = explainedOf(faults.indexOf(fault)), { facts = [] } = known ?? {}, here = failingOf(kind, facts);
    const node = known && trees?.around(fault.file, byteOf({ ...fault, column: known.from.column })), rules = pageRules.broken(kind, known?.rule?.name, node);
    return [
        element("h2", {}, `${placeWords(fault)}: ${fault.words}`), ...facts.map((it) => element("p", {}, ...spoken(it))),
        element("p", {}, "The premise that is marked does not hold:"), ...rules.map((it) => brokenRule(it, kind)),
        ...(here ? [element("p", { className: "side" }, "Here: ", element("b", {}, here), " does not hold.")] : []),
    ];
}

// The derivation of the expression at the cursor, below the method and the expressions around it.
function typeWhy(known) {
    const byte = encode(text.value.slice(0, text.selectionStart)).length, node = known.trees.around(shownFile.name, byte, 1);
    if (!node) return [element("p", {}, "Put the cursor into an expression.")];
    const { owner, name, formals } = node.feature, scope = formals.map((it) => `${it.name} : ${it.type}`).join(", ");
    const showOnly = (it) => at("why-room").replaceChildren(derivation(it, known));
    const show = (it) => element("button", { className: "go", onclick: () => showOnly(it) }, known.trees.textOf(it, 30));
    const around = aroundOf(node).slice(-3).flatMap((it, i) => [i > 0 ? " › " : "part of ", show(it)]);
    return [
        element("p", { className: "quiet" }, `In class ${owner.name}, ${name}${scope ? `, with ${scope}` : ""}`),
        ...(around.length > 0 ? [element("p", { className: "quiet" }, ...around)] : []), derivation(node, known),
    ];
}

// The expressions around one, the outermost first.
const aroundOf = ({ parent }) => (parent ? [...aroundOf(parent), parent] : []);

let whyTurn = 0;

async function showWhy() {
    if (at("why").hidden) return;
    const turn = (whyTurn += 1), { trees, known, fault } = await treesNow();
    if (turn !== whyTurn) return;
    const broken = faultAsked();
    if (broken) at("why-room").replaceChildren(...faultWhy(broken, trees));
    else if (known) at("why-room").replaceChildren(...typeWhy(known));
    else at("why-room").replaceChildren(element("p", {}, fault ?? "The program has faults."));
}

whenever("changed", () => ((treesMade = undefined), showWhy()));
for (const event of ["chosen", "explained"]) whenever(event, showWhy);
for (const event of ["click", "keyup"]) text.addEventListener(event, showWhy);
