// Loads the module of module.js in node, in the same way as the page.
"use strict";
const fs = require("fs");
const path = require("path");
const vm = require("vm");
const { load } = require("./program/program.js");

module.exports = () => load(vm.runInNewContext(`${fs.readFileSync(path.join(__dirname, "module.js"))}; COOL_MODULE`));
