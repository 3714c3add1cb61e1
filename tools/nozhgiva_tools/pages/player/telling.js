// What the lines tell, as the explorer's parts want it: kept from line to line, so that a long schedule isn't told anew at each.
"use strict";

const KEPT_EVERY = 64;
const telling = { steps: [], sent: [0], worlds: new Map() };

const copied = (world) => ({ replicas: world.replicas.map((one) => ({ ...one, letters: new Map(one.letters), silent: { ...one.silent } })), log: new Map(world.log) });

function stepOf(at) {
    const line = game.lines[at];
    const sent = telling.sent[at];
    const came = line.startsWith("deliver ") && sent > 0 ? [Number(BigInt(line.split(" ")[1]) % BigInt(sent))] : [];
    return { line: shorten(line), note: game.notes.get(at) || "", outputs: game.outputs[at].map(shorten), came, of: game.outputs[at], whole: line };
}

// The run: its steps are those of before as far as they are the same.
function runOf() {
    let at = 0;
    const { steps, sent } = telling;
    while (at < game.lines.length && at < steps.length && steps[at].of === game.outputs[at] && steps[at].whole === game.lines[at] && steps[at].note === (game.notes.get(at) || "")) at += 1;
    if (steps[0]?.whole !== game.lines[0]) at = 0;
    steps.length = Math.min(steps.length, at);
    sent.length = at + 1;
    for (const kept of [...telling.worlds.keys()]) if (kept >= at) telling.worlds.delete(kept);
    for (; at < game.lines.length; at += 1) {
        steps.push(stepOf(at));
        sent.push(sent[at] + game.outputs[at].filter((output) => output.startsWith("send ")).length);
    }
    return { size: game.group.size, steps, rules: data.rules, about: game.about };
}

// What is told of the group after a line, by the nearest world before it that was kept.
function worldAt(run, messages, at) {
    let from = Math.floor((at + 1) / KEPT_EVERY) * KEPT_EVERY - 1;
    while (from >= 0 && !telling.worlds.has(from)) from -= KEPT_EVERY;
    const world = from < 0 ? worldAfter(run, -1) : copied(telling.worlds.get(from));
    for (let step = Math.max(from, -1) + 1; step <= at; step += 1) {
        happen(world, run.steps[step], run, messages);
        if ((step + 1) % KEPT_EVERY === 0) telling.worlds.set(step, copied(world));
    }
    return world;
}
