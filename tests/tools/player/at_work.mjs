// What the program and the page's parts do under node, as JSON on standard output.
//   node at_work.mjs PROGRAM.wasm replay FILE..         of each file: the digest of what the program writes, whole and line by line; its status; what the watch finds broken
//   node at_work.mjs PROGRAM.wasm soak COUNT SEED..     of each number: the digest of what its lines come to
//   node at_work.mjs PROGRAM.wasm times FILE            milliseconds of the whole schedule anew and of one line more, the best of some
//   node at_work.mjs PROGRAM.wasm why FILE              of each line of a JSON list of [lines before, line]: why it would be refused
//   node at_work.mjs PROGRAM.wasm scenes                of each scene: whether its own lines come to what is wanted (they mustn't), and with the hint (they must)
//   node at_work.mjs PROGRAM.wasm address FILE          whether a schedule comes back out of its address, and how long that is
import crypto from "node:crypto";
import fs from "node:fs";
import { linesOf, openProgram, parts } from "./parts.mjs";

const digest = (text) => crypto.createHash("sha256").update(text).digest("hex");
const outputsOf = (text) => text.split("\n").filter((line) => line !== "");
const [file, what, ...words] = process.argv.slice(2);
const module = openProgram(file);

// What a schedule comes to line by line, with the watch beside it.
function played(lines) {
    const player = new parts.Player(module);
    const { texts, ending, taken } = player.become(lines);
    const group = parts.groupOf(lines[0]);
    const watch = group && new parts.Watch(group);
    for (const text of watch ? texts : []) watch.hear(outputsOf(text));
    return { texts, ending, taken, broken: watch ? watch.broken : [] };
}

function replayed(name) {
    const lines = linesOf(name);
    const whole = parts.wholeRun(module, ["replay"], lines);
    const { texts, ending, broken } = played(lines);
    return { whole: digest(whole.text), status: whole.status, stepped: digest(texts.join("")), ending, broken };
}

function drawn(count, seed) {
    const soak = new parts.Soak(seed);
    const player = new parts.Player(module);
    const lines = [soak.first()];
    const texts = [...player.become(lines).texts];
    for (let done = 0; done < count; done += 1) {
        lines.push(soak.next());
        const [text] = player.become(lines).texts;
        soak.hear(outputsOf(text));
        texts.push(text);
    }
    return { seed, lines: lines.length, sum: digest(texts.join("")).slice(0, 32), summary: parts.wholeRun(module, ["soak", seed, String(count)]).text };
}

function times(name) {
    const lines = linesOf(name);
    const [anew, more] = [[], []];
    for (let round = 0; round < 8; round += 1) {
        const player = new parts.Player(module);
        const began = performance.now();
        player.become(lines);
        const between = performance.now();
        player.become([...lines, "tick 0"]);
        anew.push(between - began);
        more.push(performance.now() - between);
    }
    return { lines: lines.length, anew: Math.min(...anew), more: Math.min(...more) };
}

function scene({ title, steps, hint, wants }) {
    const own = steps.flatMap((step) => step.lines);
    const says = (lines) => {
        const { texts, ending } = played(lines);
        return { ending, solved: texts.slice(own.length - steps.at(-1).lines.length).flatMap(outputsOf).some((output) => wants.test(output)) };
    };
    return { title, before: says(own), after: says([...own, hint]) };
}

async function address(name) {
    const lines = linesOf(name);
    const text = await parts.addressOf({ lines, at: 2, lost: new Set([3, 5]) });
    const back = await parts.fromAddress(text);
    return { letters: text.length, same: JSON.stringify(back.lines) === JSON.stringify(lines), at: back.at, lost: [...back.lost], broken: await parts.fromAddress(`${text.slice(0, 20)}!`) };
}

const ANSWERS = {
    replay: () => words.map(replayed),
    soak: () => words.slice(1).map((seed) => drawn(Number(words[0]), seed)),
    times: () => times(words[0]),
    why: () => JSON.parse(fs.readFileSync(words[0], "utf8")).map(([before, line]) => parts.whyRefused(line, before)),
    scenes: () => parts.SCENES.map(scene),
    address: () => address(words[0]),
};
console.log(JSON.stringify(await ANSWERS[what]()));
