// Expressions that the user watches: the view shows the value of each in the innermost method at each stop.
"use strict";

const UNREAD = `it cannot be read: write ${FORMS_TAKEN}`, NO_METHOD = "the program does not stand in a method";

// The entries of the view for the watched expressions, in the form of `entry`.
function watchesOf(view) {
    const [frame] = stackOf(view, 1);
    return machine.watched.map((name) => {
        const path = `watch ${name}`, found = frame ? expressionOf(name)?.(frame, view) : { wrong: NO_METHOD };
        if (found?.word !== undefined) return entry(name, found.word, path, view);
        return { name, path, text: found?.is?.text ?? found?.wrong ?? UNREAD, isWrong: !found?.is };
    });
}

whenever("opened", () => (machine.watched = []));
