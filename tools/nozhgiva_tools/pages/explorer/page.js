// The page: shows one line of a run at a time.
"use strict";

const MOST_LETTERS = 16;
const MOST_UNDER_WAY = 40;
const LEAP = 10;
const ELSE = "none of the rules of this event that stand before it applies";

const run = JSON.parse(document.getElementById("run").textContent);
const messages = messagesOf(run);
let lanes = null;
const shown = { at: 0, output: -1 };

// What the letters of a log mean.
const LETTERS = {
    h: "here", l: "lost: it was accepted and can't be read", w: "wanted: its header alone is known", u: "unknown: it may have been accepted",
    n: "none", "?": "asked for: lost or wanted",
};

const byId = (id) => document.getElementById(id);

// An element with what stands in it; text is text.
function make(name, attributes, ...inside) {
    const element = document.createElement(name);
    for (const [key, value] of Object.entries(attributes)) element.setAttribute(key, value);
    element.append(...inside);
    return element;
}

// A piece of RULES.md, which explore has made into HTML.
function ruleText(html) {
    const element = document.createElement("span");
    element.innerHTML = html;
    return element;
}

function ruleCard(name, alone) {
    const rule = run.rules.rules[name];
    if (!rule) return make("p", {}, name);
    const card = make("div", { class: alone === null ? "rule" : "rule fits", "data-rule": name }, make("b", {}, `Rule ${rule.no}, ${name}`), alone ? ": the rule that fits" : "");
    card.append(make("p", {}, make("i", {}, "When "), ruleText(rule.when === "else" ? ELSE : rule.when)), make("p", {}, make("i", {}, "Then "), ruleText(rule.what)));
    return card;
}

function wordCard(word) {
    const entry = run.rules.words[word];
    if (!entry) return make("p", { class: "note" }, "RULES.md has no rule for it.");
    return make("div", { class: "rule fits", "data-word": word }, make("b", {}, word), make("p", {}, ruleText(entry)));
}

const noteOf = (text) => make("p", { class: "note" }, text);

function showWhy() {
    const step = run.steps[shown.at];
    const { fit, others, words, note } = explainStep(run, messages, shown.at);
    const rules = fit.map((name) => ruleCard(name, fit.length === 1));
    if (fit.length > 1) rules.unshift(noteOf("It can't be told which of these rules it was:"));
    if (shown.output >= 0) {
        const word = explainOutput(step, step.outputs[shown.output], fit);
        const cards = word ? [wordCard(word), ...rules] : [...rules, ...words.filter((name) => run.rules.words[name]).map(wordCard)];
        byId("why").replaceChildren(noteOf("Of this output:"), ...cards);
        return;
    }
    const parts = [...words.map(wordCard), ...rules];
    if (note) parts.unshift(noteOf(note));
    if (others.length > 0) {
        const summary = make("summary", {}, `the other rules of this event: ${others.map((name) => run.rules.rules[name].no).join(", ")}`);
        parts.push(make("details", {}, summary, ...others.map((name) => ruleCard(name, null))));
    }
    byId("why").replaceChildren(...parts);
}

// The letters that an output has, each in words.
function wordsOfLetters(output) {
    const words = output.split(" ");
    const own = words[0] === "choose";
    if (!own && words[4] !== "do_view_change") return [];
    const letters = words[words.length - 1];
    if (letters === "-") return [noteOf("Above its commit number it knows of nothing.")];
    const first = own ? null : numbersOf(words.slice(4)).c + 1;
    const each = [...letters].map((letter, place) => `${first === null ? "" : `operation ${first + place}: `}${letter}, ${LETTERS[letter]}`);
    return [make("p", { class: "note letters-words" }, `${own ? "Its own log above its commit number: " : ""}${each.slice(0, MOST_LETTERS).join("; ")}${each.length > MOST_LETTERS ? "; .." : ""}.`)];
}

function showStep() {
    const step = run.steps[shown.at];
    const parts = [make("p", { class: "thing", id: "line" }, step.line)];
    if (step.time) parts.push(make("p", { class: "note", id: "time" }, `at ${step.time}`));
    for (const number of step.came) {
        const message = messages[number];
        parts.push(make("p", { class: "came" }, `message ${number} comes, ${message.from} to ${message.to}: ${message.words.join(" ")}`));
    }
    if (step.note) parts.push(make("p", { class: "note" }, step.note));
    step.outputs.forEach((output, place) => {
        const button = make("button", { type: "button", class: "said", "aria-pressed": String(place === shown.output) }, output);
        button.addEventListener("click", () => choose(shown.at, place === shown.output ? -1 : place));
        parts.push(button, ...wordsOfLetters(output));
    });
    if (step.outputs.length === 0) parts.push(make("p", { class: "note" }, "Nothing is put out."));
    byId("step").replaceChildren(...parts);
}

function lettersOf(replica) {
    const ops = [...replica.letters.keys()].sort((one, other) => one - other).slice(-MOST_LETTERS);
    if (ops.length === 0) return ["nothing is told"];
    return ops.map((op) => {
        const words = `operation ${op}: ${LETTERS[replica.letters.get(op)]}`;
        return make("span", { tabindex: "0", "data-words": words, "aria-label": words }, `${op}${replica.letters.get(op)}`);
    });
}

function keyList(world, replica) {
    const { keys, untold } = keysOf(world, replica.applied);
    if (!replica.runs) return ["its memory is lost"];
    const items = [...keys].map(([key, value]) => make("li", {}, `${key} = ${value}`));
    const list = items.length > 0 ? [make("ul", { class: "keys", tabindex: "0", "aria-label": "keys" }, ...items)] : ["none"];
    return untold > 0 ? [...list, `(without ${untold} operations that no line tells)`] : list;
}

function replicaCard(world, replica) {
    const role = roleOf(run, replica);
    const rows = [["view", String(replica.view)], ["commit", String(replica.commit)], ["applied", String(replica.applied)]];
    if (replica.waits) rows.push(["waits for", replica.waits]);
    if (replica.asks) rows.push(["asked for", replica.asks]);
    const list = make("dl", {});
    for (const [name, value] of rows) list.append(make("dt", {}, name), make("dd", { class: name.replace(" ", "-") }, value));
    list.append(make("dt", {}, "log"), make("dd", { class: "letters" }, ...lettersOf(replica)));
    list.append(make("dt", {}, "keys"), make("dd", { class: "state" }, ...keyList(world, replica)));
    const head = make("h3", {}, `replica ${replica.index}: `, make("span", { class: "role" }, role));
    return make("div", { class: `replica ${role.split(" ")[0]}`, "data-replica": replica.index }, head, list);
}

function showWay() {
    const left = underWay(messages, shown.at);
    byId("way-title").textContent = left.length === 0 ? "Under way: nothing" : `Under way or lost: ${left.length}`;
    const items = left.slice(0, MOST_UNDER_WAY).map((number) => {
        const message = messages[number];
        return make("li", { "data-message": number }, `${number}, ${message.from} to ${message.to}: ${message.words.join(" ")} (line ${message.sent + 1})`);
    });
    if (left.length > MOST_UNDER_WAY) items.push(make("li", {}, `and ${left.length - MOST_UNDER_WAY} earlier ones`));
    byId("way").replaceChildren(make("ol", {}, ...items));
}

function showPicture() {
    const { first, y, height } = lanes.rows[shown.at];
    for (const row of document.querySelectorAll(".row.chosen, .words.chosen")) row.classList.remove("chosen");
    for (const arrow of document.querySelectorAll(".arrow.now, .stub.now")) arrow.classList.remove("now");
    byId(`row-${first}`).classList.add("chosen");
    byId(`words-${first}`).classList.add("chosen");
    for (const arrow of document.querySelectorAll(`.arrow[data-step="${shown.at}"], .stub[data-step="${shown.at}"]`)) arrow.classList.add("now");
    const timeline = byId("timeline");
    const room = timeline.clientHeight - byId("heading").offsetHeight;
    if (y < timeline.scrollTop || y + height > timeline.scrollTop + room) timeline.scrollTop = Math.max(0, y - room / 2);
    const { at } = eventOf(run, messages, shown.at);
    if (at === null || Number.isNaN(at)) return;
    const x = lanes.x(at);
    if (x - CHANNEL < timeline.scrollLeft || x + NARROWEST_LANE - CHANNEL > timeline.scrollLeft + timeline.clientWidth) {
        timeline.scrollLeft = Math.max(0, x + NARROWEST_LANE - timeline.clientWidth);
    }
}

// Draws the lanes for the width that there is: whole, or without what never arrives and what repeats.
function draw() {
    const whole = byId("whole").checked;
    lanes = new Lanes(run, messages, byId("timeline").clientWidth - 18, whole);
    byId("heading").innerHTML = lanes.heading();
    byId("lanes").innerHTML = lanes.svg();
    byId("picture").classList.toggle("whole", whole);
    byId("picture").addEventListener("click", onMark);
}

// Shows a line, and of it an output where one is chosen.
function choose(at, output = -1) {
    shown.at = Math.min(Math.max(at, 0), run.steps.length - 1);
    shown.output = output;
    const world = worldAfter(run, shown.at);
    showStep();
    showWhy();
    byId("replicas").replaceChildren(...world.replicas.map((replica) => replicaCard(world, replica)));
    showWay();
    showPicture();
    byId("slider").value = String(shown.at + 1);
    byId("slider").setAttribute("aria-valuetext", `line ${shown.at + 1}: ${run.steps[shown.at].line}`);
    byId("place").textContent = `${shown.at + 1} of ${run.steps.length}`;
    history.replaceState(null, "", `#${shown.at + 1}`);
}

const KEYS = {
    ArrowRight: () => shown.at + 1, ArrowLeft: () => shown.at - 1, PageDown: () => shown.at + LEAP, PageUp: () => shown.at - LEAP,
    Home: () => 0, End: () => run.steps.length - 1,
};

function onKey(event) {
    const key = KEYS[event.key];
    if (!key || event.altKey || event.ctrlKey || event.metaKey) return;
    event.preventDefault();
    choose(key());
}

function onMark(event) {
    const mark = event.target.closest("[data-step]");
    if (mark) choose(Number(mark.dataset.step), Number(mark.dataset.output ?? -1));
}

// The line that a page opens at: that of its address, else the one that its run is about, else the first choice of a log, else the first that puts something out.
function opensAt() {
    const line = Number(location.hash.slice(1)) || run.at;
    if (Number.isInteger(line) && line > 0) return line - 1;
    const choice = run.steps.findIndex((step) => step.outputs.some((output) => output.startsWith("choose ")));
    return choice >= 0 ? choice : Math.max(0, run.steps.findIndex((step) => step.outputs.length > 0));
}

function begin() {
    byId("about").textContent = run.about;
    draw();
    const hidden = lanes.hidden();
    byId("hidden").textContent = String(hidden);
    byId("hiding").hidden = hidden === 0;
    byId("whole").addEventListener("change", () => { draw(); showPicture(); });
    byId("slider").max = String(run.steps.length);
    byId("slider").addEventListener("input", () => choose(Number(byId("slider").value) - 1));
    byId("first").addEventListener("click", () => choose(0));
    byId("back").addEventListener("click", () => choose(shown.at - 1));
    byId("on").addEventListener("click", () => choose(shown.at + 1));
    byId("last").addEventListener("click", () => choose(run.steps.length - 1));
    document.addEventListener("keydown", onKey);
    addEventListener("hashchange", () => choose(opensAt()));
    addEventListener("resize", () => { draw(); showPicture(); });
    choose(opensAt());
}

begin();
