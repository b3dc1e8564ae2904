#!/usr/bin/env node
// Measures the page's module under node and the program itself, in turns: node web/speed.cjs
//
// It prints the time to load the module, and the speed of both with the two loops of bench/ (100 million instructions, 10 million calls), each the best of
// five. It changes nothing. The status is 0, or 1 if a run did not end with 0.
"use strict";
const fs = require("fs");
const path = require("path");
const { execFileSync } = require("child_process");
const { run, warm } = require("./program/program.js");

const TIMES = 5;
const LOOPS = { hot: "a hot loop of 100 million instructions", calls: "a loop of 10 million calls" };
const MILLIONS = 100;
const root = path.join(__dirname, "..");

async function seconds(work) {
    const begun = performance.now();
    await work();
    return (performance.now() - begun) / 1000;
}

async function inModule(module, file) {
    const status = await run(module, {
        words: ["exec", file],
        file: (name) => fs.readFileSync(name),
        input: () => new Uint8Array(0),
        write() {},
    });
    if (status !== 0) throw new Error(`exec ${file} ended with status ${status} instead of 0`);
}

async function main() {
    const program = execFileSync(path.join(root, "release/program")).toString().trimEnd();
    let module;
    console.log(`module loaded and compiled      ${((await seconds(async () => (module = await require("./loaded.cjs")()))) * 1000).toFixed(0)} ms`);
    console.log(`the loops made ready            ${((await seconds(() => warm(module))) * 1000).toFixed(0)} ms`);
    for (const [name, text] of Object.entries(LOOPS)) {
        const file = path.join(root, `bench/${name}.s`);
        const native = [], inside = [];
        for (let i = 0; i < TIMES; i++) {
            native.push(await seconds(() => execFileSync(program, ["exec", file])));
            inside.push(await seconds(() => inModule(module, file)));
        }
        const [fast, slow] = [native, inside].map((it) => MILLIONS / Math.min(...it));
        console.log(`${text}: ${fast.toFixed(0)} million instructions/s by the program, ${slow.toFixed(0)} by the module, ${(slow / fast).toFixed(2)} of it`);
    }
}

main().catch((error) => {
    console.error(`web/speed.cjs: ${error.message}`);
    process.exitCode = 1;
});
