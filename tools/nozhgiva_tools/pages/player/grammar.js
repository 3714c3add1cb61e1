// Why a line is refused, in words (docs/SCHEDULE.md). The program judges; this says why, and spares asking it where the answer is sure.
"use strict";

const SECTORS = { 1: 1424, 2: 3984 };
const LONGEST_VALUE = { 1: 1024, 2: 3000 };
const LONGEST_LINE = { 1: 1135, 2: 3111 };
const MOST_LINES_OF_A_SCHEDULE = 1_000_000;
const LONGEST_KEY = 64;
const MOST_CALLS = 1_000_000;

// What the first line of a schedule makes; null where it is none.
function groupOf(line) {
    const words = /^cluster ([1-6])( careful)?( v2)?$/.exec(line || "");
    if (!words || (words[1] === "1" && !words[3])) return null;
    return { size: Number(words[1]), careful: Boolean(words[2]), version: words[3] ? 2 : 1 };
}

// Why a word is no number from `least` to below `end`; an empty text where it is one.
function whyNoNumber(word, what, least, end) {
    if (word === undefined) return `${what} is missing`;
    if (!/^[0-9]+$/.test(word)) return `${what} has to be a number, without a sign: \`${word}\` isn't`;
    if (word.length > 1 && word[0] === "0") return `a number has no leading zeros: \`${word}\``;
    const number = BigInt(word);
    if (number < BigInt(least)) return `${what} begins at ${least}`;
    return number >= BigInt(end) ? `${what} ends at ${BigInt(end) - 1n}` : "";
}

function whyNoText(word, what, most) {
    if (word === undefined || word === "") return `the ${what} is missing`;
    if (word.length > most) return `the ${what} has at most ${most} bytes; this has ${word.length}`;
    return /^[!-~]+$/.test(word) ? "" : `the ${what} has letters that can be printed, without spaces`;
}

const OPERATIONS = { register: 0, put: 2, get: 1, del: 1 };

function whyNoOperation(group, number, [name, ...words]) {
    if (name === undefined) return "the operation is missing: register, put, get or del";
    if (!Object.hasOwn(OPERATIONS, name)) return `\`${name}\` is no operation: register, put, get or del`;
    if (name === "register" && number !== "0") return "register stands with number 0";
    if (name !== "register" && number === "0") return "number 0 stands with register alone";
    const why = OPERATIONS[name] > 0 && whyNoText(words[0], "key", LONGEST_KEY) || OPERATIONS[name] > 1 && whyNoText(words[1], "value", LONGEST_VALUE[group.version]);
    if (why) return why;
    return words.length > OPERATIONS[name] ? `${name} takes ${["no word", "a key alone", "a key and a value"][OPERATIONS[name]]}: there are too many words` : "";
}

const whyNoReplica = (group, word) => whyNoNumber(word, "the replica", 0, group.size);
const whyNoSector = (group, word, what) => whyNoNumber(word, what, 0, SECTORS[group.version]);

// By the first word: how many words follow, none where that differs, and why they are none of the language.
const LINES = {
    request: { form: "request R C Q OP", why: (group, [replica, client, number, ...operation]) => whyNoReplica(group, replica)
        || whyNoNumber(client, "the client", 1, 2n ** 64n) || whyNoNumber(number, "the request's number", 0, 2n ** 32n) || whyNoOperation(group, number, operation) },
    deliver: { form: "deliver X", count: 1, why: (group, [message]) => whyNoNumber(message, "the message", 0, 2n ** 64n) },
    fuse: { form: "fuse R J CODE", count: 3, why: (group, [replica, call, code]) => whyNoReplica(group, replica)
        || whyNoNumber(call, "the call", 1, MOST_CALLS + 1) || whyNoNumber(code, "the code", 0, 2n ** 64n) },
    misdirect: { form: "misdirect R S T", count: 3, why: (group, [replica, one, other]) => whyNoReplica(group, replica)
        || whyNoSector(group, one, "the sector") || whyNoSector(group, other, "the other sector") || (one === other ? "a write goes astray to another sector" : "") },
};
for (const name of ["tick", "stop", "start", "migrate"]) LINES[name] = { form: `${name} R`, count: 1, why: (group, [replica]) => whyNoReplica(group, replica) };
for (const name of ["damage", "stale", "unread"]) {
    LINES[name] = { form: `${name} R S`, count: 2, why: (group, [replica, sector]) => whyNoReplica(group, replica) || whyNoSector(group, sector, "the sector") };
}

function whyNoGroup(line) {
    if (groupOf(line)) return "";
    const size = /^cluster ([0-9]+)/.exec(line);
    if (!size) return "the first line makes the group: `cluster 3`";
    if (/^cluster 1( careful)?$/.test(line)) return "a group of one needs files of version 2: `cluster 1 v2`";
    return Number(size[1]) < 1 || Number(size[1]) > 6 ? "a group has 2 to 6 replicas, with v2 1 to 6" : "after the size come `careful`, `v2`, both in this order, or nothing";
}

// Why this line would be refused as the next one of a schedule; an empty text where it is taken.
function whyRefused(line, lines) {
    if (lines.length >= MOST_LINES_OF_A_SCHEDULE) return "a schedule has at most 1,000,000 lines";
    if (line === "") return "an empty line is none of the language";
    if (line.startsWith("#")) return "the language has no comments";
    if (/[^ -~]/.test(line)) return "a schedule is plain ASCII text";
    if (/^ | $|  /.test(line)) return "words stand exactly one space apart";
    if (lines.length === 0) return whyNoGroup(line);
    const group = groupOf(lines[0]);
    if (line.length > LONGEST_LINE[group.version]) return `a line has at most ${LONGEST_LINE[group.version].toLocaleString("en")} bytes`;
    const [name, ...words] = line.split(" ");
    if (name === "cluster") return "`cluster` is the first line, and stands nowhere else";
    if (!Object.hasOwn(LINES, name)) return `\`${name}\` begins no line: ${Object.keys(LINES).join(", ")}`;
    const { form, count, why } = LINES[name];
    const reason = why(group, words);
    if (reason) return `${reason} (\`${form}\`)`;
    return count !== undefined && words.length > count ? `there are too many words (\`${form}\`)` : "";
}
