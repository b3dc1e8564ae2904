// Lessons that a teacher adds: put them into this list, in the form that lessons.js describes. `web/lessons-try` tries these, too.
"use strict";

const ADDED_LESSONS = [];

if (typeof module === "object") module.exports = ADDED_LESSONS;
