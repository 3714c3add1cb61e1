// The lines that make sense now: which there are, and the forms and pictures by which they are made.
"use strict";

const SECTORS_OF_COPY = 20;
const FIRST_HEADER = 80;
const SLOTS = 64;
const PREPARES = { 1: { first: 144, each: 4 }, 2: { first: 1424, each: 8 } };
const SECTORS_OF_BLOCK = 8;
const BLOCKS = [{ from: 0, to: 128, first: 400 }, { from: 128, to: 384, first: 1936 }];
const FAULTS = {
    damage: "damaged: it reads as what it should hold with every bit turned",
    stale: "stale: it reads as what it held before its last write",
    unread: "unread: it can't be read",
    misdirect: "gone astray: its last write went to another place. Pick both",
};

// The parts of a member's file: of each place its first sector and how many it has, by the version of the file.
function regionsOf(version) {
    const { first, each } = PREPARES[version];
    const slots = Array.from({ length: SLOTS }, (_, slot) => slot);
    const grid = BLOCKS[0];
    const regions = [
        { name: "copies of the superblock", kind: "copies", places: [0, 1, 2, 3].map((copy) => ({ name: `copy ${copy}`, first: copy * SECTORS_OF_COPY, count: SECTORS_OF_COPY })) },
        { name: "headers, one for each slot", kind: "slots", places: slots.map((slot) => ({ name: String(slot), slot, first: FIRST_HEADER + slot, count: 1 })) },
        { name: "prepares, one for each slot", kind: "slots", places: slots.map((slot) => ({ name: String(slot), slot, first: first + each * slot, count: each })) },
    ];
    const blocks = version === 2 ? BLOCKS : [grid];
    regions.push({ name: "blocks of checkpoints", kind: "blocks", places: blocks.flatMap(({ from, to, first: start }) => Array.from({ length: to - from }, (_, place) => (
        { name: String(from + place), first: start + SECTORS_OF_BLOCK * place, count: SECTORS_OF_BLOCK }))) });
    return regions;
}

// The op that a slot holds, as far as the outputs tell: the last up to the head.
function opOfSlot(replica, slot) {
    const head = Math.max(replica.head, ...replica.letters.keys());
    const op = head - ((((head - slot) % SLOTS) + SLOTS) % SLOTS);
    return op > 0 ? op : null;
}

// The number of a client's next request, by what it was answered.
function nextNumber(outputs, client) {
    let latest = null;
    for (const said of outputs) {
        for (const output of said) {
            const words = output.split(" ");
            if (words[0] !== "reply" || words[3] !== client) continue;
            if (words[6] === "op") latest = Math.max(latest ?? 0, Number(words[5]));
            if (words[6] === "evicted") latest = null;
        }
    }
    return latest === null ? 0 : latest + 1;
}

// Of a fuse: the code that leaves each of so many sectors alike.
const ALIKE = 20;
const codeOf = (digit) => String((3n ** BigInt(ALIKE) - 1n) / 2n * BigInt(digit));

// The buttons of a replica, with the line of each or the form that makes it.
function movesOf(group, replica, migrated) {
    const { index } = replica;
    if (!replica.runs) {
        const moves = [{ name: "Start", key: "s", line: `start ${index}` }, { name: "Disk…", key: "d", form: "disk" }, { name: "Fuse…", key: "f", form: "fuse" }];
        if (group.version === 1 && !migrated) moves.push({ name: "Migrate", key: "m", line: `migrate ${index}` });
        return moves;
    }
    return [
        { name: "Ask…", key: "r", form: "request" }, { name: "Tick", key: "t", line: `tick ${index}` }, { name: "Stop", key: "s", line: `stop ${index}` },
        { name: "Disk…", key: "d", form: "disk" }, { name: "Fuse…", key: "f", form: "fuse" },
    ];
}

// A word for whoever doesn't know what to try.
function hintOf(group, world, flying, watch) {
    const running = world.replicas.filter((replica) => replica.runs).length;
    const led = world.replicas.some((replica) => replica.runs && replica.started && replica.view % group.size === replica.index);
    if (running < watch.quorum.replication) return "Too few replicas run to commit anything: start one again.";
    if (flying.length > 0) return "Messages are under way: press the end of an arrow to deliver it, or ✕ to lose it.";
    if (!led) return "Nobody leads. Tick a replica: at its fifth tick without a word from a primary it enters the next view.";
    if (watch.log.size === 0) return "Ask the primary something, or tick it: it sends once more what isn't committed yet.";
    return "All is quiet. Ask for a put, stop the primary, or damage a sector of a disk.";
}
