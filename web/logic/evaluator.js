// Computes the value of an expression over the names in scope at a stop, for watches, conditions of breakpoints and log messages. An expression consists of
// names, constants and operators (docs/debug-adapter.md lists the forms). Calls and all other forms of Cool are rejected.
"use strict";

// NotTold says why an expression has no value at a stop. Unread is thrown for a text that is not an expression of these forms.
class NotTold extends Error {}
class Unread extends Error {}

const EXPRESSION_TOKEN = /\s*(?:(\d+)|("(?:[^"\\]|\\[^])*")|([A-Za-z]\w*)|(<=|[-+*/~<=().]))/y;
// The operators with two operands, from the loosest to the tightest.
const LEVELS = [["<=", "<", "="], ["+", "-"], ["*", "/"]];
const COMPARED = new Set(["Int", "Bool", "String"]), LEAST_INT = -(2 ** 31), MOST_INT = 2 ** 31 - 1;
const STRING_ESCAPES = { n: "\n", t: "\t", b: "\b", f: "\f" };
const FORMS_TAKEN = "names, constants and operators, as count + 1 or isvoid self.next; no calls";

// A value is { is, type, value }: its description by `described`, its class, and its content. The content is a number for an Int, a boolean for a Bool,
// and for a String its bytes, one character each. A value that is read from memory also has its `word`, and the `declared` type of its name.
const intValue = (value) => {
    if (value < LEAST_INT || value > MOST_INT) throw new NotTold("arithmetic overflow");
    return { type: "Int", value, is: { text: `Int ${value}`, type: "Int", value: String(value) } };
};
const boolValue = (value) => ({ type: "Bool", value, is: { text: String(value), type: "Bool" } });
const lettersOfBytes = (bytes) => Array.from(bytes, (it) => String.fromCharCode(it)).join("");

function stringValue(text) {
    const plain = text.slice(1, -1).replace(/\\([^])/g, (_, it) => STRING_ESCAPES[it] ?? it);
    return { type: "String", value: lettersOfBytes(encode(plain)), is: { text: `"${escapedLetters(plain)}"`, type: "String" } };
}

function valueInMemory(word, declared, view) {
    const is = described(word, view), found = { is, type: is.type, word, declared };
    if (is.type === "Int") return { ...found, value: Number(is.value) };
    if (is.type === "Bool") return { ...found, value: is.text === "true" };
    return is.type === "String" ? { ...found, value: lettersOfBytes(bytesAt(word, view.state, MOST_STRING_BYTES)) } : found;
}

const shownValue = ({ is }) => is.value ?? is.text;

// Returns the content of a value. It throws NotTold if the value is not of this class.
function ofClass(it, type) {
    if (it.type !== type) throw new NotTold(`${shownValue(it)} is no ${type}`);
    return it.value;
}

// Ints, Bools and Strings are compared by value. Two other objects are equal only if they are the same object.
function areEqual(left, right) {
    if (!COMPARED.has(left.type) && !COMPARED.has(right.type)) return left.word === right.word;
    if (left.type !== right.type) throw new NotTold(`${shownValue(left)} and ${shownValue(right)} are of two types`);
    return left.value === right.value;
}

const onInts = (make) => (left, right) => make(ofClass(left, "Int"), ofClass(right, "Int"));
const compares = (sign, holds) => (left, right) => {
    if (left.type !== "Int" || right.type !== "Int") throw new NotTold(`${sign} compares numbers`);
    return boolValue(holds(left.value, right.value));
};
const quotient = (left, right) => {
    if (right === 0) throw new NotTold("division by zero");
    return Math.trunc(left / right);
};
const RESULTS = {
    "=": (left, right) => boolValue(areEqual(left, right)), "<": compares("<", (left, right) => left < right),
    "<=": compares("<=", (left, right) => left <= right), "+": onInts((left, right) => intValue(left + right)),
    "-": onInts((left, right) => intValue(left - right)), "*": onInts((left, right) => intValue(left * right)),
    "/": onInts((left, right) => intValue(quotient(left, right))),
};
const negative = (it) => intValue(-ofClass(it, "Int"));
const PREFIXES = { "~": negative, "-": negative, not: (it) => boolValue(!ofClass(it, "Bool")), isvoid: (it) => boolValue(it.word === 0) };

function tokensOf(text) {
    const all = text.trimEnd(), found = [];
    for (EXPRESSION_TOKEN.lastIndex = 0; EXPRESSION_TOKEN.lastIndex < all.length; ) {
        const [, number, string, name, sign = name?.toLowerCase()] = EXPRESSION_TOKEN.exec(all) ?? [];
        if (!number && !string && !sign) throw new Unread();
        found.push({ number, string, name, sign });
    }
    return found;
}

// Parses the text of an expression. `whole` returns a function from a scope, { frame, view, contents }, to the value.
class ExpressionReader {
    constructor(text) {
        Object.assign(this, { tokens: tokensOf(text), at: 0 });
    }

    // Consumes the next token and returns its sign if it is one of these signs or keywords. Otherwise it returns undefined.
    takes(...signs) {
        const sign = this.tokens[this.at]?.sign;
        if (!signs.includes(sign)) return undefined;
        this.at += 1;
        return sign;
    }

    whole() {
        const found = this.operated(0);
        if (this.at < this.tokens.length) throw new Unread();
        return found;
    }

    // Parses operators of this level and tighter ones. A comparison cannot be an operand of another comparison without parentheses.
    operated(level) {
        if (level === LEVELS.length) return this.prefixed();
        let found = this.operated(level + 1);
        for (let sign; (sign = this.takes(...LEVELS[level])) !== undefined; ) {
            const left = found, right = this.operated(level + 1), apply = RESULTS[sign];
            found = (scope) => apply(left(scope), right(scope));
            if (level === 0) break;
        }
        return found;
    }

    prefixed() {
        const sign = this.takes("~", "-", "isvoid", "not");
        if (sign === undefined) return this.operand();
        const of = sign === "not" ? this.operated(0) : this.prefixed();
        return (scope) => PREFIXES[sign](of(scope));
    }

    operand() {
        if (this.takes("(")) {
            const found = this.operated(0);
            if (!this.takes(")")) throw new Unread();
            return found;
        }
        const { number, string, name = "", sign } = this.tokens[this.at] ?? {};
        this.at += 1;
        if (number) return () => intValue(Number(number));
        if (string) return () => stringValue(string);
        if (/^[tf]/.test(name) && (sign === "true" || sign === "false")) return () => boolValue(sign === "true");
        if (!/^[a-z]/.test(name) || isKeyword(name)) throw new Unread();
        return this.path(name);
    }

    // Parses the names of attributes that follow a name, and returns the function that reads their value.
    path(name) {
        const path = [name];
        while (this.takes(".")) path.push(this.tokens[this.at++]?.name);
        if (path.includes(undefined) || this.takes("(")) throw new Unread();
        return (scope) => valueOfPath(path, scope);
    }
}

// The value of a path of names. The innermost variable with the first name is used, else the attribute of self with this name.
function valueOfPath(path, { contents, view }) {
    const { variables, attributes } = contents, [name, ...parts] = path;
    const first = variables.findLast((it) => it.name === name) ?? attributes.find((it) => it.name === name);
    const found = parts.reduce((it, part) => it && partsOf(it.word, view).find((one) => one.name === part), first);
    if (!found) throw new NotTold(`${path.join(".")} is no variable here`);
    return valueInMemory(found.word, found.type, view);
}

// Returns a function from a frame and a view to the value of the expression, or to { wrong } with the reason if it has no value. The function peeks at
// memory (see State.settled). Returns undefined if the text is not an expression of these forms.
function expressionOf(text) {
    let value;
    try {
        value = new ExpressionReader(text).whole();
    } catch (error) {
        if (error instanceof Unread) return undefined;
        throw error;
    }
    return (frame, view) => {
        try {
            return value({ view, contents: contentsOf(frame, view) });
        } catch (error) {
            if (error instanceof NotTold) return { wrong: error.message };
            throw error;
        }
    };
}

// Returns whether a condition with this value holds, or { wrong } with the reason if the value is not a Bool.
function truthOf(found) {
    if (found.wrong) return found;
    return found.type === "Bool" ? found.value : { wrong: `${shownValue(found)} is no Bool` };
}
