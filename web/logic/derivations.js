// Explains why an expression has its type: the rule, the types of its parts, and the other conditions of the rule. The types and the methods come from
// `cool_editor`; this script only puts together the chains of classes, to show them.
"use strict";

class Derivations {
    // Takes the trees of a legal program (trees.js), its names (marks.js), and the rules (rules-of-forms.js).
    constructor(trees, marks, rules) {
        Object.assign(this, { trees, rules });
        this.marks = new Map(marks.map((it) => [`${it.byte}:${it.file}`, it]));
    }

    markOf = ({ file, byte }) => this.marks.get(`${byte}:${file}`);

    ruleName = (node) => this.rules.typed(node)?.name ?? node.form;

    // The conditions of the rule besides the types of the parts, in order: { words, more, place }. `more` says how the condition holds.
    // `place` is the declaration that it depends on: { file, line, words }.
    conditions(node) {
        const { form, parts, type } = node, [first] = parts;
        if (form === "name") return node.name === "self" ? [] : [{ words: `O(${node.name}) = ${type}`, place: this.declaration(node) }];
        if (form === "assign") {
            const due = this.markOf(node).type;
            return [{ words: `O(${node.name}) = ${due}`, place: this.declaration(node) }, this.conforms(first.type, due, node)];
        }
        if (form === "let" && parts.length > 1) return [this.conforms(first.type, node.declared, node)];
        if (form === "if" || form === "case") return [this.joins(parts.slice(1).map((it) => it.type), node)];
        if (form === "static") return [this.conforms(first.type, node.declared, node), ...this.called(node, node.declared)];
        return form === "call" ? this.called(node, first.type) : [];
    }

    // The condition that one type conforms to another, with the chain of classes from the first to the second.
    conforms(found, due, node) {
        const words = `${found} ≤ ${due}`, chain = this.chainTo(found, due, node);
        return { words, more: chain === words || found === due ? "" : chain };
    }

    chainTo(found, due, node) {
        const all = this.trees.chain(found, node);
        return all.slice(0, all.indexOf(due) + 1).join(" ≤ ");
    }

    joins(types, node) {
        const below = [...new Set(types)].filter((it) => it !== node.type);
        return { words: `${types.join(" ⊔ ")} = ${node.type}`, more: below.map((it) => this.chainTo(it, node.type, node)).join(", ") };
    }

    // The conditions of a call: the method, that each argument conforms to its formal, and the type of the result if the method returns SELF_TYPE.
    called(node, receiver) {
        const [first, ...given] = node.parts, { formals, result, owner } = this.method(node, receiver);
        const of = `M(${receiver === "SELF_TYPE" ? node.feature.owner.name : receiver}, ${node.name})`, more = owner ? "" : "of a basic class";
        const place = owner && declaredPlace(owner, node, `of class ${owner.owner.name},`);
        if (result === undefined) return [{ words: of, more }];
        const method = { words: `${of} = (${formals.join(", ")}) : ${result}`, more, place };
        const self = { words: `SELF_TYPE[${first.type}/SELF_TYPE] = ${node.type}` };
        return [method, ...given.map((it, i) => this.conforms(it.type, formals[i], node)), ...(result === "SELF_TYPE" ? [self] : [])];
    }

    // The method of a call: { formals, result, owner }. `owner` is its declaration in the files. For some forms of receivers the names do not include the
    // method. Then the function takes the method of this name in the nearest class on the chain.
    method(node, receiver) {
        const { type, target } = this.markOf(node);
        const above = () => this.trees.chain(receiver, node).flatMap((it) => this.trees.byName.get(it)?.features ?? []);
        const owner = type === "?" ? above().find((it) => it.kind === "method" && it.name === node.name) : target && this.trees.declaredAt(target);
        if (owner) return { formals: owner.formals.map((it) => it.type), result: owner.type, owner };
        const [, formals = "", result] = /^\((.*)\):(.*)$/.exec(type) ?? [];
        return { formals: formals.split(","), result };
    }

    // The place where a variable is declared.
    declaration = (node) => declaredPlace(this.trees.declaredAt(this.markOf(node).target), node, "declared in");
}

// A place with the text that is shown for it beside an expression.
function declaredPlace({ file, line }, node, words) {
    return { file, line, words: `${words} line ${line}${file === node.file ? "" : ` of ${file.split(/[\\/]/).at(-1)}`}` };
}

if (typeof module === "object") module.exports = { Derivations };
