// What is promised, watched from the outputs alone: each part of `KeepsOneLog` (docs/PROMISES.md) that they can show. Nothing here touches the page.
"use strict";

const QUORUMS = {
    1: { replication: 1, change: 1, nack: 1 }, 2: { replication: 2, change: 2, nack: 1 }, 3: { replication: 2, change: 2, nack: 2 },
    4: { replication: 2, change: 3, nack: 3 }, 5: { replication: 3, change: 3, nack: 3 }, 6: { replication: 3, change: 4, nack: 4 },
};

// What a map has at a key, made there where nothing is.
function inMap(map, key, Kind) {
    if (!map.has(key)) map.set(key, new Kind());
    return map.get(key);
}

const numberBehind = (words, name) => Number(words[words.indexOf(name) + 1]);

class Watch {
    constructor({ size, version }) {
        this.size = size;
        this.version = version;
        this.quorum = QUORUMS[size];
        this.log = new Map();
        this.machine = new PlainMachine();
        this.replies = [];
        this.executed = new Map();
        this.votes = new Map();
        this.committed = [];
        this.prepares = new Map();
        this.chosen = [];
        this.applied = Array(size).fill(0);
        this.migrated = new Map();
        this.broken = [];
        this.counts = { commits: 0, carried: 0, replies: 0, open: 0 };
        this.step = -1;
        this.latest = [];
    }

    // The outputs of the next line.
    hear(outputs) {
        this.step += 1;
        for (const output of outputs) {
            const words = output.split(" ");
            if (words[0] in HEARD) HEARD[words[0]](this, words, output);
            this.latest = words;
        }
    }

    breaks(promise, why) {
        this.broken.push({ promise, why, step: this.step });
    }

    // ---- who vouches: acknowledged in that view, or prepared by its primary

    vouch(replica, view, op, made) {
        const voters = inMap(inMap(inMap(this.votes, op, Map), made, Map), view, Set);
        if (voters.has(replica)) return;
        voters.add(replica);
        this.checkCuts(view, op);
        if (op <= this.committed.length) this.checkOne(op, made);
        this.findCommitted();
    }

    // The least view, not before `since`, in which a replication quorum vouches for what was made there.
    quorumView(views, since) {
        const enough = [...views].filter(([view, voters]) => view >= since && voters.size >= this.quorum.replication);
        return enough.length === 0 ? null : Math.min(...enough.map(([view]) => view));
    }

    // What the messages so far commit: each number in turn, in a view no earlier than the one before it.
    findCommitted() {
        for (;;) {
            const [op, since] = [this.committed.length + 1, this.committed.at(-1)?.view ?? 0];
            const found = [...(this.votes.get(op) || [])].map(([made, views]) => ({ made, view: this.quorumView(views, since) })).filter((one) => one.view !== null);
            if (found.length === 0) return;
            this.committed.push(found[0]);
            for (const made of this.votes.get(op).keys()) this.checkOne(op, made);
            this.checkKept(op);
        }
    }

    // Whether another entry than the committed one has a quorum at its number.
    checkOne(op, made) {
        const since = this.committed[op - 2]?.view ?? 0;
        if (made !== this.committed[op - 1].made && this.quorumView(this.votes.get(op).get(made), since) !== null) this.breaks("one", `operation ${op} is committed as two entries, made in the views ${this.committed[op - 1].made} and ${made}`);
    }

    isCommitted(op, view) {
        return this.size === 1 || op === 0 || (op <= this.committed.length && this.committed[op - 1].view <= view);
    }

    // ---- a committed entry keeps its number in every later view

    checkKept(op) {
        const { made, view } = this.committed[op - 1];
        for (const other of this.prepares.get(op) || []) this.checkPrepare(op, made, view, other);
        for (const choice of this.chosen) this.checkChoice(op, view, choice);
    }

    checkPrepare(op, made, view, other) {
        if (other.view > view && other.made !== made) this.breaks("kept", `operation ${op}, committed in view ${view}, is prepared as another one in view ${other.view}`);
    }

    checkChoice(op, view, choice) {
        if (choice.view > view && choice.head < op) this.breaks("kept", `operation ${op}, committed in view ${view}, is cut off in view ${choice.view}`);
    }

    // ---- a log is shortened by a nack quorum, of which none vouches for what is cut off

    vouchersAt(view, op) {
        return new Set([...(this.votes.get(op)?.values() || [])].flatMap((views) => [...(views.get(view) || [])]));
    }

    checkCuts(view, op) {
        for (const choice of this.chosen) {
            if (choice.log === view && choice.head + 1 === op) this.checkCut(choice);
        }
    }

    checkCut(choice) {
        if (this.size === 1) return;
        const voters = this.vouchersAt(choice.log, choice.head + 1);
        if (this.size - voters.size < this.quorum.nack) this.breaks("cut", `the log of view ${choice.view} ends at ${choice.head}, and ${[...voters].join(", ")} vouch for what is cut off`);
    }

    // ---- the log, and replies over it

    versionOf(made) {
        return this.version === 2 || made >= (this.migrated.get(made % this.size)?.since ?? Infinity) ? 2 : 1;
    }

    enterLog(op, made, entry) {
        this.log.set(op, { op, made, ...entry, by: new Set() });
        for (let next = this.machine.answers.length + 1; this.log.has(next); next += 1) {
            const { client, request, operation, made: view } = this.log.get(next);
            this.machine.apply({ client, request, operation, version: this.versionOf(view) });
        }
    }

    // What the plain machine says to a request, as far as the outputs tell how much its replica has applied.
    plainAnswer(replica, client, request, said) {
        const most = this.machine.answers.length;
        const answersOwnEntry = this.latest[0] === "commit" && Number(this.latest[1]) === replica;
        for (let count = this.applied[replica] - (answersOwnEntry ? 1 : 0); count <= most; count += 1) {
            if (this.machine.says(client, request, count) === said) return said;
        }
        return this.machine.says(client, request, most);
    }

    judgeReply(replica, client, request, said) {
        if (said[0] !== "op") return this.plainAnswer(replica, client, request, said[0]);
        const plain = this.machine.answers[Number(said[1]) - 1];
        if (!plain) return "no commit line tells of it yet";
        const own = plain.client === client && plain.request === request && plain.answer === "fresh";
        return own ? `op ${said[1]} ${plain.outcome}` : `operation ${said[1]} is another client's`;
    }

    checkOnce(client, request, op) {
        const session = this.machine.answers[op - 1]?.session;
        const key = `${client} ${session} ${request}`;
        if (this.executed.has(key) && this.executed.get(key) !== op) this.breaks("once", `request ${request} of client ${client} is executed as ${this.executed.get(key)} and as ${op}`);
        this.executed.set(key, op);
    }
}

const HEARD = {
    send(watch, words) {
        const [from, kind, view] = [Number(words[2]), words[4], numberBehind(words, "view")];
        if (kind === "prepare" || kind === "commit" || kind === "start_view" || kind === "sync_view") {
            const commit = numberBehind(words.slice(5), "commit");
            watch.counts.carried += 1;
            if (!watch.isCommitted(commit, view)) watch.breaks("rests", `message ${words[1]} says that ${commit} is committed; the messages before it don't`);
        }
        if (kind === "prepare") {
            const [op, made] = [numberBehind(words, "op"), numberBehind(words, "made")];
            const known = inMap(watch.prepares, op, Array);
            if (!known.some((one) => one.view === view && one.made === made)) known.push({ view, made });
            const committed = watch.committed[op - 1];
            if (committed) watch.checkPrepare(op, committed.made, committed.view, { view, made });
            if (from === view % watch.size) watch.vouch(from, view, op, made);
        }
        if (kind === "prepare_ok") watch.vouch(from, view, numberBehind(words, "op"), numberBehind(words, "made"));
    },
    commit(watch, words, output) {
        const [replica, op, made] = [Number(words[1]), Number(words[3]), Number(words[5])];
        const entry = { client: words[7], request: Number(words[9]), operation: words.slice(10), text: words.slice(10).join(" ") };
        watch.counts.commits += 1;
        const known = watch.log.get(op);
        if (!known) watch.enterLog(op, made, entry);
        else if (known.made !== made || known.client !== entry.client || known.request !== entry.request || known.text !== entry.text) {
            watch.breaks("lines", `operation ${op} is committed as two: ${known.client} ${known.request} ${known.text}, and \`${output}\``);
        }
        if (watch.size > 1 && (op > watch.committed.length || watch.committed[op - 1].made !== made)) watch.breaks("rests", `\`${output}\`: no replication quorum vouches for it`);
        watch.log.get(op).by.add(replica);
        watch.applied[replica] = op;
    },
    reply(watch, words, output) {
        const [replica, client, request, said] = [Number(words[1]), words[3], Number(words[5]), words.slice(6)];
        if (said[0] === "busy" || said[0] === "redirect") {
            watch.counts.open += 1;
            return;
        }
        const plain = watch.judgeReply(replica, client, request, said);
        watch.counts.replies += 1;
        watch.replies.push({ replica, client, request, said: said.join(" "), plain, step: watch.step });
        if (plain !== said.join(" ")) watch.breaks("replies", `\`${output}\`: the plain machine says ${plain}`);
        if (said[0] === "op") watch.checkOnce(client, request, Number(said[1]));
    },
    choose(watch, words) {
        const choice = { replica: Number(words[1]), view: Number(words[3]), log: Number(words[5]), commit: Number(words[7]), head: Number(words[9]), step: watch.step };
        watch.chosen.push(choice);
        watch.committed.forEach((committed, place) => watch.checkChoice(place + 1, committed.view, choice));
        watch.checkCut(choice);
    },
    start(watch, words) {
        const replica = Number(words[1]);
        watch.applied[replica] = 0;
        const migrated = watch.migrated.get(replica);
        if (migrated && migrated.since === undefined) migrated.since = Number(words[3]);
    },
    migrated(watch, words) {
        watch.migrated.set(Number(words[1]), {});
    },
};

const countOf = (count, one, many = `${one}s`) => `${count} ${count === 1 ? one : many}`;

// The promises, in short words, each with its clause.
const PROMISES = [
    { id: "lines", clause: "lines, one", title: "One log", says: (watch) => (watch.log.size === 0 ? "no commit line yet" : `${countOf(watch.counts.commits, "commit line")} of ${countOf(watch.log.size, "number")}: no two differ at a number`) },
    { id: "rests", clause: "rests", title: "Backed by a quorum",
        says: (watch) => (watch.size === 1 ? "a group of one vouches by what it has stored, which no output tells"
            : `each commit line, and each commit number in ${countOf(watch.counts.carried, "message")}, rests on ${watch.quorum.replication} of ${watch.size} that vouch for it`) },
    { id: "replies", clause: "rests", title: "True replies", says: (watch) => (watch.counts.replies === 0 ? "no client was told an outcome yet" : `${countOf(watch.counts.replies, "reply", "replies")}, each what a plain table says over this log`) },
    { id: "once", clause: "once", title: "At most once", says: (watch) => (watch.executed.size === 0 ? "no request was executed yet" : `${countOf(watch.executed.size, "request")} answered, none executed twice in its session`) },
    { id: "kept", clause: "kept", title: "Kept for good", says: (watch) => (watch.size === 1 ? "what was stored keeps its number" : watch.committed.length === 0 ? "no operation has to be kept yet" : `${countOf(watch.committed.length, "committed operation")}: each has its number in every later view`) },
    { id: "cut", clause: "cut", title: "Cut by denial alone",
        says: (watch) => (watch.chosen.length === 0 ? "no log was chosen yet" : `${countOf(watch.chosen.length, "log")} chosen; what was left out has no quorum that vouches for it`) },
];

// A promise as the page shows it; the first two clauses are watched together.
function promisesOf(watch) {
    return PROMISES.map(({ id, clause, title, says }) => {
        const broken = watch.broken.filter((one) => one.promise === id || (id === "lines" && one.promise === "one"));
        return { id, clause, title, text: says(watch), broken };
    });
}
