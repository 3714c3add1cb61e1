// The band above the lanes: a word on what to try, the tour, or the surprise that plays.
"use strict";

const SURPRISE_PACE = { slow: 700, quick: 120, leap: 0 };
const LEAP_LINES = 100;
const guide = { scene: null, step: 0, solved: false, surprise: null, timer: 0 };

const quoted = (text) => text.split("`").map((part, place) => (place % 2 ? make("code", {}, part) : part));

function stopGuides() {
    clearTimeout(guide.timer);
    Object.assign(guide, { scene: null, surprise: null });
}

function showGuide() {
    const inside = guide.scene !== null ? sceneBand() : guide.surprise ? surpriseBand() : hintBand();
    byId("guide").replaceChildren(...inside);
}

function hintBand() {
    const isEnd = game.at === game.lines.length - 1;
    const parts = [];
    if (game.title) parts.push(make("p", { id: "about-run" }, make("b", {}, game.title), game.about ? `: ${game.about}` : ""));
    const text = isEnd ? hintOf(game.group, view.world, view.flights, game.watch) : "An earlier line is shown. A move from here goes on from this line; undo brings back what stood behind it.";
    parts.push(make("p", { id: "hint" }, text));
    return parts;
}

// ---- the tour

function openTour() {
    const choices = SCENES.map((scene, number) => {
        const choice = make("button", { type: "button", class: "choice", "data-scene": number }, make("b", {}, `${number + 1}. ${scene.title}`), make("span", {}, scene.ask.replace("Your step: ", "You will ").replace("bring", "bring")));
        choice.addEventListener("click", () => { closeDialog(); beginScene(number); });
        return choice;
    });
    openDialog("Tour: six scenes of two minutes", make("p", { class: "note" }, "Each plays some lines, says what they mean, and leaves the last step to you."), ...choices);
}

const linesUpTo = (scene, step) => scene.steps.slice(0, step + 1).flatMap((one) => one.lines);
const lostUpTo = (scene, step) => new Set(scene.steps.slice(0, step + 1).flatMap((one) => one.lost || []));

function beginScene(number) {
    stopGuides();
    Object.assign(guide, { scene: number, step: 0, solved: false });
    return showSceneStep(0, false);
}

function showSceneStep(step, remember = true) {
    const scene = SCENES[guide.scene];
    Object.assign(guide, { step, solved: false });
    return change({ lines: linesUpTo(scene, step), lost: lostUpTo(scene, step), at: null, notes: new Map(), title: `Tour: ${scene.title}`, about: "" }, remember && step === 0);
}

// Whether the reader did the last step: what it should come to was put out after the scene's own lines.
function judgeScene() {
    const scene = SCENES[guide.scene];
    const own = linesUpTo(scene, scene.steps.length - 1);
    if (guide.step !== scene.steps.length - 1 || own.some((line, place) => game.lines[place] !== line)) return;
    guide.solved = game.outputs.slice(own.length, game.at + 1).flat().some((output) => scene.wants.test(output));
}

function sceneBand() {
    judgeScene();
    const scene = SCENES[guide.scene];
    const last = guide.step === scene.steps.length - 1;
    const parts = [make("p", {}, make("b", {}, `${guide.scene + 1}. ${scene.title} (${guide.step + 1} of ${scene.steps.length}) `)), make("p", { id: "scene-text" }, ...quoted(scene.steps[guide.step].text))];
    if (last && !guide.solved) parts.push(make("p", { id: "scene-ask" }, make("b", {}, ...quoted(scene.ask))));
    if (guide.solved) parts.push(make("p", { class: "done", id: "scene-end" }, "✓ ", ...quoted(scene.end)));
    const buttons = [];
    if (guide.step > 0) buttons.push(button("◀ Before", () => showSceneStep(guide.step - 1), { id: "scene-back" }));
    if (!last) buttons.push(button("Next ▶", () => showSceneStep(guide.step + 1), { id: "scene-next", class: "main" }));
    if (last && !guide.solved) buttons.push(button("Show me", () => play(scene.hint), { id: "scene-hint" }));
    if (guide.solved && guide.scene + 1 < SCENES.length) buttons.push(button(`Next scene: ${SCENES[guide.scene + 1].title} ▶`, () => beginScene(guide.scene + 1), { id: "scene-on", class: "main" }));
    buttons.push(button(guide.solved ? "Play on from here" : "Leave the tour", () => { stopGuides(); changed(); }, { id: "scene-leave" }));
    parts.push(make("div", { class: "buttons" }, ...buttons));
    return parts;
}

// ---- surprise

function openSurprise() {
    const seed = make("input", { name: "seed", value: String(Math.floor(Math.random() * 1e6)), inputmode: "numeric", size: "22" });
    const form = make("form", {}, make("p", { class: "note" }, "From a number the program's command `soak` makes a schedule: requests, late and repeated messages, ticks, stops, starts and faults of disks. Here are the same lines. Stop it where you like, do as you like, and let it go on."),
        make("div", { class: "fields" }, field("number", seed)), make("p", { id: "form-why", role: "alert" }), make("button", { class: "main", id: "form-go" }, "Surprise me"));
    form.addEventListener("submit", (event) => {
        event.preventDefault();
        byId("form-why").textContent = whyNoNumber(seed.value, "the number", 0, 2n ** 64n);
        if (byId("form-why").textContent) return;
        closeDialog();
        beginSurprise(seed.value, "slow");
    });
    openDialog("Surprise me", form);
    seed.select();
}

async function beginSurprise(seed, pace) {
    stopGuides();
    const soak = new Soak(seed);
    guide.surprise = { soak, seed, pace, heard: 1 };
    await change({ lines: [soak.first()], notes: new Map(), lost: new Set(), title: `Surprise ${seed}`, about: "" });
    surpriseOn();
}

// The next line, or some at once; lines that a person put between count as they came out.
function surpriseLine() {
    const { surprise } = guide;
    return inTurn(async () => {
        game.at = game.lines.length - 1;
        for (; surprise.heard < game.outputs.length; surprise.heard += 1) surprise.soak.hear(game.outputs[surprise.heard]);
        const count = surprise.pace === "leap" ? LEAP_LINES : 1;
        for (let done = 0; done < count; done += 1) {
            await become({ lines: [...game.lines, surprise.soak.next()] });
            for (; surprise.heard < game.outputs.length; surprise.heard += 1) surprise.soak.hear(game.outputs[surprise.heard]);
        }
        changed();
    });
}

async function surpriseOn() {
    clearTimeout(guide.timer);
    if (!guide.surprise || guide.surprise.pace === "wait") return;
    await surpriseLine();
    if (guide.surprise?.pace === "leap") setPace("wait");
    else if (guide.surprise) guide.timer = setTimeout(surpriseOn, SURPRISE_PACE[guide.surprise.pace]);
}

function setPace(pace) {
    guide.surprise.pace = pace;
    showGuide();
    surpriseOn();
}

function surpriseBand() {
    const { pace, seed } = guide.surprise;
    const one = (name, to) => button(name, () => setPace(to), { "data-pace": to, "aria-pressed": String(pace === to) });
    const text = pace === "wait" ? "It waits: step in. Deliver, lose, stop, damage; then let it go on." : "It plays. Stop it at any line, and step in.";
    return [make("p", {}, make("b", {}, `Surprise ${seed}, line ${game.lines.length}. `), text),
        make("div", { class: "buttons" }, pace === "wait" ? "" : one("❚❚ Step in", "wait"), one("▶ Slowly", "slow"), one("▶▶ Quickly", "quick"), one(`${LEAP_LINES} lines at once`, "leap"),
            button("One line", async () => { guide.surprise.pace = "wait"; clearTimeout(guide.timer); await surpriseLine(); }, { id: "one-line" }), button("End it", () => { stopGuides(); changed(); }, { id: "surprise-end" }))];
}
