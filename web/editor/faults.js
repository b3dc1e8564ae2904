// Finds the errors of the program while the user types.
"use strict";

const checker = new Runner(), session = new Session();
// The list that is shown. If the new list equals it, the page is not changed.
let shownFaults;
let checking = false, checkIsDue = false;

// Parses a line of the form NAME:LINE: WORDS to { file, line, words }, if it names one of the files. If several names fit, the longest is taken.
function placed(line) {
    const file = fileNames().filter((it) => line.startsWith(`${it}:`)).sort((a, b) => b.length - a.length)[0];
    const found = file === undefined ? null : /^(\d+): (.*)$/.exec(line.slice(file.length + 1));
    return found ? { file, line: Number(found[1]), words: found[2] } : undefined;
}

// Runs `check`. It returns the errors, and a text as `end` if the check did not succeed.
async function foundAnew() {
    const notes = [];
    const came = await checker.run(["check", "--", ...fileNames()], sources(), { pieces: (all) => notes.push(...all.map((it) => decode(it.bytes))) });
    const lines = notes.join("").split("\n").filter((it) => it !== "");
    return { found: lines.map(placed).filter(Boolean), end: came.status === 0 ? undefined : lines[0] ?? endWords(came) };
}

async function foundNow() {
    const found = await session.faults(files);
    return found ? { found } : foundAnew();
}

// Checks the current files. Only one check runs at a time. Changes during a check are checked once after it.
async function check() {
    checkIsDue = true;
    if (checking) return;
    checking = true;
    try {
        while (checkIsDue) {
            checkIsDue = false;
            const all = await foundNow();
            if (!checkIsDue) showFaults(all);
        }
    } finally {
        checking = false;
    }
}

function showFaults({ found, end }) {
    const seen = JSON.stringify([found, files.length > 1]);
    if (seen !== shownFaults) {
        [faults, shownFaults] = [found, seen];
        showExplained();
        showTabs();
        showHelp();
    }
    if (found.length > 0 || end === undefined) explainSoon();
    // While the program runs, the state line is about the run.
    if (!at("stop").disabled) return;
    if (faults.length > 0) tell(faults.length === 1 ? "1 fault" : `${faults.length} faults`, true);
    else tell(end ?? "no faults", end !== undefined);
}

whenever("changed", () => void (compiledModule && check()));
