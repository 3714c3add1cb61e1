// The page that plays: what its buttons and keys do, and how it begins.
"use strict";

const LEAP = 10;
const MOST_DELIVERIES = 200;
const FIRST_SIGHT = ["cluster 3", "request 0 7 0 register"];

let data = null;

function deliverNext() {
    const [number] = view.flights.length > 0 ? view.flights : flying(view.messages);
    if (number !== undefined) play(`deliver ${number}`);
}

// Delivers what is under way, the earliest first, and what comes of it, until nothing is left.
function deliverAll() {
    return inTurn(async () => {
        const before = kept();
        for (let done = 0; done < MOST_DELIVERIES; done += 1) {
            const messages = messagesOf(runOf());
            const [number] = flying(messages);
            if (number === undefined) break;
            await become({ lines: [...game.lines.slice(0, game.at + 1), `deliver ${number}`] });
        }
        if (game.lines.length > before.lines.length) {
            game.past.push(before);
            game.future = [];
        }
        changed();
    });
}

function tickAll() {
    const running = view.world.replicas.filter((replica) => replica.runs).map((replica) => `tick ${replica.index}`);
    if (running.length > 0) play(...running);
}

function moveOfKey(key) {
    const replica = view.world.replicas[view.picked];
    const move = movesOf(game.group, replica, game.watch.migrated.has(replica.index)).find((one) => one.key === key);
    if (move) formLine(replica, move);
    return Boolean(move);
}

const STEPS = {
    ArrowRight: () => game.at + 1, ArrowLeft: () => game.at - 1, PageDown: () => game.at + LEAP, PageUp: () => game.at - LEAP, Home: () => 0, End: () => game.lines.length - 1,
};
const COMMANDS = { u: undo, y: redo, x: tickAll, a: deliverAll, " ": deliverNext, "?": () => openHelp(), "/": () => byId("typed").focus() };

function onKey(event) {
    if (byId("dialog").open || event.altKey || event.ctrlKey || event.metaKey || /^(INPUT|SELECT|TEXTAREA)$/.test(event.target.tagName)) return;
    if ((event.key === " " || event.key === "Enter") && event.target.closest("button, summary, a")) return;
    if (!onPlainKey(event)) return;
    event.preventDefault();
}

function onPlainKey(event) {
    const digit = /^Digit([0-9])$/.exec(event.code)?.[1];
    if (digit && event.shiftKey) {
        const number = view.flights[Number(digit) - 1];
        if (number !== undefined) play(`deliver ${number}`);
        return true;
    }
    if (digit && Number(digit) < game.group.size) {
        pick(Number(digit));
        document.querySelector(`[data-replica="${digit}"]`).scrollIntoView({ block: "nearest" });
        return true;
    }
    if (STEPS[event.key]) show(STEPS[event.key]());
    else if (COMMANDS[event.key]) COMMANDS[event.key]();
    else return moveOfKey(event.key);
    return true;
}

function onMark(event) {
    const arrow = event.target.closest("[data-flying]");
    if (arrow) play(`deliver ${arrow.dataset.flying}`);
    const mark = event.target.closest("[data-step]");
    if (!mark) return;
    show(view.first + Number(mark.dataset.step));
    view.output = Number(mark.dataset.output ?? -1);
    if (view.output >= 0) {
        showStep();
        showWhy();
        byId("why-box").open = true;
    }
}

async function onType(event) {
    event.preventDefault();
    const line = byId("typed").value;
    await play(line);
    if (!game.refusal) byId("typed").value = "";
}

async function fromHash() {
    const said = await fromAddress(location.hash.slice(1));
    if (!said) return false;
    stopGuides();
    await change({ ...said, notes: new Map(), title: "", about: "" });
    return true;
}

function wire() {
    const clicks = {
        undo, redo, next: deliverNext, all: deliverAll, ticks: tickAll, save: saveFile, load: () => byId("file").click(), "help-open": openHelp,
        "tour-open": openTour, "examples-open": openExamples, "surprise-open": openSurprise, "new-open": openNew, "share-open": openShare,
    };
    for (const [id, onclick] of Object.entries(clicks)) byId(id).addEventListener("click", () => onclick());
    byId("file").addEventListener("change", () => byId("file").files[0] && loadFile(byId("file").files[0]));
    byId("type").addEventListener("submit", onType);
    byId("lanes").addEventListener("click", onMark);
    byId("why-box").addEventListener("toggle", () => byId("why-box").open && showWhy());
    document.addEventListener("keydown", onKey);
    addEventListener("hashchange", fromHash);
    addEventListener("resize", () => game.group && showPicture());
    game.listeners.push(render, showGuide);
}

async function begin() {
    const opened = new Response(new Blob([bytesOf("data")]).stream().pipeThrough(new DecompressionStream("gzip")));
    data = JSON.parse(await opened.text());
    await beginWorker();
    wire();
    if (!await fromHash() || game.lines.length === 0) await change({ lines: FIRST_SIGHT, notes: new Map(), lost: new Set() }, false);
    document.body.dataset.ready = "yes";
}

begin().catch((error) => {
    byId("guide").textContent = `This browser can't run the program: ${error.message}. It needs WebAssembly, workers and DecompressionStream (Chromium 103, Firefox 113, Safari 16.4, or later).`;
});
