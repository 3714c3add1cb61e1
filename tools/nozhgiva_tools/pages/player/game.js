// The schedule that is played: its lines with what each came to, what is shown of it, and the way back. It speaks to the worker.
"use strict";

const MOST_OF_A_WORD = 72;
const ADDRESS_AFTER = 300;

const byId = (id) => document.getElementById(id);

// The worker, asked by name; answers come in order.
const asker = { worker: null, number: 0, open: new Map(), lastMs: 0 };

function ask(what, question = {}) {
    asker.number += 1;
    return new Promise((resolve, reject) => {
        asker.open.set(asker.number, { resolve, reject });
        asker.worker.postMessage({ id: asker.number, what, ...question });
    });
}

function onAnswer({ data }) {
    const { resolve, reject } = asker.open.get(data.id);
    asker.open.delete(data.id);
    asker.lastMs = data.ms;
    if (data.error) reject(new Error(data.error));
    else resolve(data.answer);
}

const bytesOf = (id) => Uint8Array.from(atob(byId(id).textContent), (letter) => letter.charCodeAt(0));

async function beginWorker() {
    const text = byId("worker").textContent;
    asker.worker = new Worker(URL.createObjectURL(new Blob([text], { type: "text/javascript" })));
    asker.worker.onmessage = onAnswer;
    return ask("begin", { bytes: bytesOf("program") });
}

const game = {
    lines: [], outputs: [], at: -1, lost: new Set(), notes: new Map(), title: "", about: "",
    past: [], future: [], watch: null, heard: 0, group: null, refusal: "", busy: null, soak: null, listeners: [],
};

const kept = () => ({ lines: game.lines, at: game.at, lost: new Set(game.lost), notes: game.notes, title: game.title, about: game.about });

const outputsOf = (text) => (text === "" ? [] : text.replace(/\n$/, "").split("\n"));

// One change at a time: the next waits for it.
function inTurn(change) {
    const before = game.busy || Promise.resolve();
    const turn = before.then(change).catch((error) => {
        game.refusal = `the program can't go on: ${error.message}`;
        changed();
    });
    game.busy = turn;
    return turn;
}

// Makes these lines the schedule. What was refused is left off, with the reason.
async function become({ lines, at, lost, notes, title, about }) {
    const answer = await ask("become", { lines });
    if (answer.taken === 0) {
        game.refusal = `refused: line 1: ${whyRefused(lines[0] ?? "", []) || answer.ending}`;
        await ask("become", { lines: game.lines });
        return;
    }
    game.lines = lines.slice(0, answer.taken);
    game.outputs = [...game.outputs.slice(0, answer.since), ...answer.texts.map(outputsOf)];
    game.refusal = "";
    if (answer.ending) {
        const why = whyRefused(lines[answer.taken] ?? "", game.lines);
        game.refusal = `${answer.ending}${why ? `: ${why}` : ""}`;
    }
    game.at = Math.min(at ?? game.lines.length - 1, game.lines.length - 1);
    game.lost = lost ?? game.lost;
    game.notes = notes ?? game.notes;
    game.title = title ?? game.title;
    game.about = about ?? game.about;
    game.group = groupOf(game.lines[0]);
    watchOn(answer.since);
}

// The watch goes on where only lines came, else it begins anew.
function watchOn(since) {
    if (!game.watch || game.heard > since || since === 0) {
        game.watch = game.group && new Watch(game.group);
        game.heard = 0;
    }
    for (; game.watch && game.heard < game.outputs.length; game.heard += 1) game.watch.hear(game.outputs[game.heard]);
}

// Changes the schedule, and keeps what it was for the way back.
function change(next, remember = true) {
    return inTurn(async () => {
        const before = kept();
        await become(next);
        const isNew = game.lines.length !== before.lines.length || game.lines.some((line, place) => line !== before.lines[place]) || next.lost;
        if (remember && isNew && before.lines.length > 0) {
            game.past.push(before);
            game.future = [];
        }
        changed();
    });
}

// Plays lines after the one that is shown; what stood behind it is kept for undo.
function play(...lines) {
    return inTurn(async () => {
        const front = game.lines.slice(0, game.at + 1);
        const why = whyRefused(lines[0], front);
        if (why) {
            game.refusal = `refused: line ${front.length + 1}: ${why}`;
            changed();
            return;
        }
        const before = kept();
        await become({ lines: [...front, ...lines], lost: new Set([...game.lost].filter((number) => number < messagesUpTo(game.at))) });
        if (game.lines.length > front.length) {
            game.past.push(before);
            game.future = [];
        }
        changed();
    });
}

function back(from, to) {
    return inTurn(async () => {
        if (from.length === 0) return;
        to.push(kept());
        await become(from.pop());
        changed();
    });
}

const undo = () => back(game.past, game.future);
const redo = () => back(game.future, game.past);

// A message that is given up: no line says so, since one that is never delivered is lost.
function lose(number) {
    return inTurn(async () => {
        game.past.push(kept());
        game.future = [];
        game.lost = new Set([...game.lost, number]);
        changed();
    });
}

function show(at) {
    game.at = Math.max(0, Math.min(at, game.lines.length - 1));
    game.refusal = "";
    changed();
}

// How many messages were sent up to a line.
const messagesUpTo = (at) => game.outputs.slice(0, at + 1).reduce((sum, said) => sum + said.filter((output) => output.startsWith("send ")).length, 0);

// A long value is cut, with its length behind it.
const shorten = (line) => line.split(" ").map((word) => (word.length <= MOST_OF_A_WORD ? word : `${word.slice(0, MOST_OF_A_WORD)}…(${word.length})`)).join(" ");

// What is under way after the line that is shown, the earliest first, without what was given up.
function flying(messages) {
    return underWay(messages, game.at).filter((number) => !game.lost.has(number)).reverse();
}

let addressTimer = 0;

function changed() {
    if (!game.group) return;
    for (const listener of game.listeners) listener();
    clearTimeout(addressTimer);
    addressTimer = setTimeout(async () => history.replaceState(null, "", `#${await addressOf(game)}`), ADDRESS_AFTER);
}
