// Reads the properties of a breakpoint besides its place: a condition on variables, how often it must be hit, and a message to log instead of a stop. A reader
// throws Unread where it is not written as the debugger takes it. `value` promises the value of an expression at the stop (debuggee.js).
"use strict";

const COUNT = /^\s*(>=)?\s*(\d{1,9})\s*$/;

class Unread extends Error {}

// A function of `value` that promises whether a condition holds, or { wrong }.
function conditionOf(text, { expressionOf, truthOf, FORMS_TAKEN }) {
    const expression = expressionOf(text);
    if (!expression) throw new Unread(`the condition "${text}" cannot be read: write one as n = 7 or isvoid next, of ${FORMS_TAKEN}`);
    return async (value) => truthOf(await value(expression));
}

// Whether a hit with this number counts: the one of the number that is named, or all from it on.
function countOf(text) {
    const [, isFrom, number] = COUNT.exec(text) ?? [];
    if (number === undefined) throw new Unread(`the count "${text}" cannot be read: write 3 for the third hit, or >= 3 for all from it on`);
    return (hit) => (isFrom ? hit >= Number(number) : hit === Number(number));
}

// A function of `value` that promises the message with the values of the expressions in braces, or with the reason why one has none.
function messageOf(text, { expressionOf, FORMS_TAKEN }) {
    const parts = text.split(/\{([^{}]*)\}/).map((it, i) => (i % 2 === 1 ? expressionOf(it) : it));
    const wrong = parts.indexOf(undefined);
    if (wrong >= 0) throw new Unread(`the message has {${text.split(/\{([^{}]*)\}/)[wrong]}}: write ${FORMS_TAKEN}`);
    const shown = ({ wrong: why, is }) => (why ? `{${why}}` : is.value ?? is.text);
    return async (value) => (await Promise.all(parts.map(async (it) => (typeof it === "string" ? it : shown(await value(it)))))).join("");
}

// Parses the conditions of a client: { condition, counts, message }, each undefined if the client gives none.
function readConditions({ condition, hitCondition, logMessage }, logic) {
    const read = (text, reader) => (typeof text === "string" && text.trim() !== "" ? reader(text, logic) : undefined);
    return { condition: read(condition, conditionOf), counts: read(hitCondition, countOf), message: read(logMessage, messageOf) };
}

module.exports = { Unread, readConditions };
