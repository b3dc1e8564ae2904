// Runs programs as processes, or as the WebAssembly modules of the page if the command is "module".
"use strict";
const { spawn } = require("child_process");
const os = require("os");
const util = require("util");
const { spawnModule } = require("./module.js");

// Nothing is to be built for an editor: a proof takes an hour.
const ENVIRONMENT = { COOL_BUILD: "no" };
const isWindows = process.platform === "win32";

// A process in a group of its own, so that it is killed with all that it started; `name` is that of its program.
function start(command, words, name, cwd) {
    if (command === "module") return spawnModule(words, { cwd }, name);
    return spawn(command, words, { cwd, stdio: "pipe", detached: !isWindows, windowsHide: true, env: { ...process.env, ...ENVIRONMENT } });
}

function kill(child) {
    try {
        if (child.pid === undefined || isWindows) child.kill("SIGKILL");
        else process.kill(-child.pid, "SIGKILL");
    } catch {
        // it ended by itself
    }
}

// The status of a process as a shell has it, but for signals, of which it is the number below zero.
const statusOf = (status, signal) => status ?? (signal ? -os.constants.signals[signal] : -9);

// Why a process does not start, in words.
const whyNot = (command, error) => `${command} does not start: ${util.getSystemErrorMap().get(error.errno)?.[1] ?? error.message}`;

const delay = util.promisify(setTimeout);

module.exports = { delay, kill, start, statusOf, whyNot };
