// Events of the page, and the functions that listen to them. By events an earlier script can call later ones without their names.
"use strict";

// The functions to call for each event, in the order of the scripts:
//   opened    another program replaces the current one
//   changed   a file was changed, added, renamed or removed, or the input was changed. The argument says whether the user did it.
//   explained the errors, or their explanations, are shown again
//   marked    the marks of a file are computed again. The argument is the file, which is the one that is shown.
//   chosen    the view with the given name is shown
//   failed    a run ended with an error at a line
//   moved     a move of the machine is over
const hearers = { opened: [], changed: [], explained: [], marked: [], chosen: [], failed: [], moved: [] };

const whenever = (event, call) => void hearers[event].push(call);
const happened = (event, ...given) => hearers[event].forEach((it) => it(...given));
