// Finds the rules of rules.js by the forms of expressions, and by the errors that break them.
"use strict";

// The beginning of the names of the rules for each operator and constant.
const RULE_NAMES = { "+": "Add", "-": "Sub", "*": "Mul", "/": "Div", "<": "Less", "<=": "LessEqual", "=": "Equal", integer: "Int", string: "String",
    bool: "Bool" };
// The name of the program's rule for each rule of the page that has another name. The name of each other rule is its text up to the first dash.
const RULES_TOLD = { Less: "Compare", LessEqual: "Compare", Equal: "Compare" };

const toldName = (name) => RULES_TOLD[name.split("-")[0]] ?? name.split("-")[0];

class RulesOfForms {
    // Takes the sections of rules.js.
    constructor(sections) {
        const entries = sections.flatMap((it) => it.entries);
        this.entries = entries.filter((it) => it.kind === "form");
        this.others = entries.filter((it) => it.kind === "rule");
    }

    entryOf = (form) => this.entries.find((it) => it.forms.includes(form));

    // The rules of a form on one side, "typing" or "running". For an operator they are the rules with its name.
    of(form, side) {
        const all = this.entryOf(form)?.[side] ?? [], own = all.filter((it) => it.name.split("-")[0] === RULE_NAMES[form]);
        return own.length > 0 ? own : all;
    }

    // The type rules that can apply to an expression, by its form and the forms of its parts.
    typing(node) {
        const all = this.of(node.form, "typing"), named = (name) => all.filter((it) => it.name === name);
        if (node.form === "name") return named(node.name === "self" ? "Self" : "Id");
        if (node.form === "let") return named(node.parts.length > 1 ? "Let-Init" : "Let-No-Init");
        return all;
    }

    // The type rule of an expression that has a type.
    typed(node) {
        const all = this.typing(node), [left, right] = node.parts;
        return all.length > 1 && left?.type !== right?.type ? all[1] : all[0];
    }

    // The rules with the premise that an error of a kind breaks, among those of the rule that the program names (`told`). If the expression at the error is
    // known, its operator and the presence of an initial value select among them. Without a name these are all rules that an error of this kind breaks.
    broken(kind, told, node) {
        const breaks = (rule) => rule.premises.some((it) => it.faults?.includes(kind)), others = this.others.filter(breaks);
        const all = this.entries.flatMap((it) => it.typing).filter(breaks), own = all.filter(({ name }) => toldName(name) === told);
        if (!told) return [...all, ...others];
        const here = node ? this.typing(node).filter((it) => own.includes(it)) : [];
        return [here, own, others].find((it) => it.length > 0) ?? [];
    }
}

// The text of a premise or a conclusion, without subscripts.
const wordsOfPieces = (pieces) => pieces.filter(([kind]) => kind !== "s").map(([, it]) => it).join("");

// The failed premise of conformance, with the types that were found and required. It is undefined if the facts do not include them.
function failingOf(kind, facts) {
    const [, due, found] = facts.map((it) => /^expected (\S+), found (\S+)$/.exec(it)).find(Boolean) ?? [];
    if (found === undefined) return undefined;
    return /^E(3|6|8|17|18)$/.test(kind) ? `${found} ≤ ${due}` : `${found} = ${due}`;
}

if (typeof module === "object") module.exports = { RulesOfForms, failingOf, wordsOfPieces };
