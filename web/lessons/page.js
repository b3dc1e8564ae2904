// The page of the lessons: their texts, programs to try, and tasks that are checked.
"use strict";

const KEPT_ANSWERS = "cool-lessons";
const ALL_SHOWN = COOL_RULES.flatMap((it) => it.entries.flatMap((x) => [...(x.typing ?? []), ...(x.running ?? []), ...(x.kind === "rule" ? [x] : [])]));
const coded = (words) => words.split("`").map((part, i) => (i % 2 === 1 ? element("code", {}, part) : part));

// Lessons of a teacher stand behind those of this repository (`added.js`).
const ALL_LESSONS = [...LESSONS, ...ADDED_LESSONS];

// The answers that were written, by the ids of tasks. If the browser's storage refuses them, they are not kept.
function keptAnswers() {
    try {
        return JSON.parse(localStorage.getItem(KEPT_ANSWERS) ?? "{}");
    } catch {
        return {};
    }
}

function keepAnswer(id, answer) {
    try {
        localStorage.setItem(KEPT_ANSWERS, JSON.stringify({ ...keptAnswers(), [id]: answer }));
    } catch {
        // It is not kept.
    }
}

// The field for the answer to a task: a program, or a line if the task asks about a program that it shows.
function answerField(task, i, kept) {
    const label = task.shown ? `Your answer to task ${i + 1}` : `Your program for task ${i + 1}`;
    return element("textarea", { value: kept?.text ?? task.program, spellcheck: false, rows: task.shown ? 2 : task.program.split("\n").length + 2,
        "aria-label": label });
}

function taskCard(lesson, task, i) {
    const id = `${lesson.id}-${i + 1}`, kept = keptAnswers()[id];
    const field = answerField(task, i, kept), said = element("pre", { className: "said", role: "status", tabIndex: 0 });
    const done = element("span", { className: "done-mark" }, kept?.done ? "done" : "");
    const run = (words, input, text) => triedOut(words, [{ name: "p.cl", text }], input);
    const check = element("button", {}, "Check my answer"), back = element("button", {}, "Start over");
    const keep = (isDone) => {
        done.textContent = isDone ? "done" : "";
        keepAnswer(id, { text: field.value, done: isDone });
        showContents();
    };
    check.onclick = async () => {
        said.textContent = "…";
        const wrong = await judged(task, field.value, run);
        said.textContent = wrong ?? "Correct.";
        keep(wrong === undefined);
    };
    field.onchange = () => keepAnswer(id, { text: field.value, done: keptAnswers()[id]?.done === true });
    back.onclick = () => {
        [field.value, said.textContent] = [task.program, ""];
        keep(false);
    };
    const shown = task.shown ? [element("pre", { tabIndex: 0 }, task.shown)] : [];
    const hint = element("details", { className: "hint" }, element("summary", {}, "Hint"), element("p", {}, ...coded(task.hint)));
    return element("article", { className: "card trial", id }, element("h3", {}, `Task ${i + 1} `, done), element("p", {}, ...coded(task.words)), ...shown,
        hint, field, element("div", { className: "bar" }, check, back), said);
}

function lessonSection(lesson, i) {
    const rules = lesson.rules.flatMap((name) => ALL_SHOWN.filter((it) => it.name === name && !it.error));
    const example = trial("a program to try", [{ name: "p.cl", text: lesson.program }], ["run"], "");
    return element("section", { id: lesson.id }, element("h2", {}, `${i + 1}  ${lesson.heading}`),
        ...lesson.text.map((it) => element("p", {}, ...coded(it))), example,
        ...(rules.length > 0 ? [element("h4", {}, "The rules of this lesson"), ...rules.map(ruleFigure)] : []),
            ...lesson.tasks.map((it, at) => taskCard(lesson, it, at)));
}

function showContents() {
    const kept = keptAnswers();
    at("contents").replaceChildren(element("ul", {}, ...ALL_LESSONS.map((lesson, i) => {
        const done = lesson.tasks.filter((_, at) => kept[`${lesson.id}-${at + 1}`]?.done).length;
        return element("li", {}, element("a", { href: `#${lesson.id}` }, `${i + 1} ${lesson.heading} `,
            element("span", { className: "quiet" }, `${done}/${lesson.tasks.length}`)));
    })));
}

// Goes to the lesson or the task of the address, which may be a link to one of them.
function goToLesson() {
    document.querySelectorAll(".aimed").forEach((it) => it.classList.remove("aimed"));
    const to = location.hash.length > 1 ? document.getElementById(decodeURIComponent(location.hash.slice(1))) : null;
    to?.classList.add("aimed");
    to?.scrollIntoView();
}

at("lessons").append(...ALL_LESSONS.map(lessonSection));
showContents();
addEventListener("hashchange", goToLesson);
goToLesson();
