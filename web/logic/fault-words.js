// Formats the words of faults for lists, and returns the edit that a notice suggests.
"use strict";

// The name at the place of a fault, in the form that follows the words of the fault. It is "" if the fault is not about a name.
function nameBehind(words, lexeme) {
    if (/^self/i.test(words) || !/^[A-Za-z][A-Za-z0-9_]*$/.test(lexeme)) return "";
    return words.startsWith("unknown ") ? ` \`${lexeme}\`` : `: \`${lexeme}\``;
}

// The first fact that says what was found: a token, or a type and what was expected or compared.
const findingOf = (facts) => facts.find((it) => /^found |^expected \S+, found |^\S+ is compared with /.test(it));

// The edit that is likely meant at the place of a notice: { text, words }, or undefined. The caller must check that the edited program is legal.
function likelyEdit(words) {
    return words.startsWith("the result of this comparison is not used") ? { text: "<-", words: "write `<-` to assign" } : undefined;
}

if (typeof module === "object") module.exports = { findingOf, likelyEdit, nameBehind };
