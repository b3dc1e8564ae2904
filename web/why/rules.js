// Builds elements of the page from the rules of rules.js.
"use strict";

const pageRules = new RulesOfForms(typeof COOL_RULES === "undefined" ? [] : COOL_RULES);

const addressOfRule = (form) => `rules.html#form-${(pageRules.entryOf(form)?.heading ?? "").toLowerCase().replaceAll(" ", "-")}`;
const ruleLink = (form, name) => element("a", { className: "rule-name", href: addressOfRule(form), target: "_blank", rel: "noopener" }, `[${name}]`);
