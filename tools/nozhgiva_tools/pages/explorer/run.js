// What a run tells: its lines, its messages, and what is known of each replica after any of them. Nothing here touches the page.
"use strict";

const CHECKPOINT_EVERY = 32;
const MOST_SESSIONS = 32;
const MOST_KEYS = 128;

// The words of a line, with the numbers behind the names that stand in `names`.
const fields = (words, ...names) => names.map((name) => Number(words[words.indexOf(name) + 1]));

// The messages of a run, by their numbers: who sent each to whom, what it says, in which step, and in which steps it arrived.
function messagesOf(run) {
    const messages = [];
    run.steps.forEach((step, at) => {
        for (const number of step.came) messages[number].arrivals.push(at);
        for (const output of step.outputs) {
            const words = output.split(" ");
            if (words[0] === "send") {
                messages.push({ from: Number(words[2]), to: Number(words[3]), words: words.slice(4), sent: at, arrivals: [] });
            }
        }
    });
    return messages;
}

// What is told of a replica: `view`, whether it is `started` in it, `commit` number, last op `applied`, `head`, and of each op a letter. A log
// may be taken over without a word: `silent` has what the logs say that may have been. `least` and `most` bound what is told by no line: the head,
// and the last op applied after a start.
function freshReplica(index) {
    const silent = { view: 0, head: 0, checkpoint: 0 };
    return { index, runs: true, view: 0, started: true, logView: 0, commit: 0, applied: 0, most: 0, sure: true, head: 0, least: 0, letters: new Map(), waits: "", asks: "", silent };
}

function enterView(replica, view, started) {
    if (started && (view > replica.logView || !replica.started)) {
        forgetAbove(replica, replica.commit);
        replica.least = Math.min(replica.least, replica.commit);
    }
    if (view >= replica.view) {
        replica.view = view;
        replica.started = started;
        if (view >= replica.silent.view) replica.silent.view = 0;
    }
    if (started) {
        replica.logView = Math.max(view, replica.logView);
        replica.waits = "";
    }
}

// What was told of the ops after this one counts no more.
function forgetAbove(replica, op) {
    for (const known of [...replica.letters.keys()]) {
        if (known > op) replica.letters.delete(known);
    }
}

function learn(replica, commit) {
    replica.commit = Math.max(replica.commit, commit);
    replica.head = Math.max(replica.head, commit);
    replica.least = Math.max(replica.least, commit);
}

// Its head, where a line says it.
function headIs(replica, head) {
    replica.head = replica.least = head;
    replica.silent.head = 0;
}

function holds(replica, op, letter) {
    replica.letters.set(op, letter);
    if (letter === "h") replica.head = Math.max(replica.head, op);
}

// The letters of a statement stand for the ops after its commit number.
function state(replica, commit, parts) {
    if (parts === "-") return;
    [...parts].forEach((letter, place) => holds(replica, commit + 1 + place, letter));
}

const SENDS = {
    prepare(replica, words) {
        const [view, op, commit] = fields(words, "view", "op", "commit");
        enterView(replica, view, true);
        learn(replica, commit);
        holds(replica, op, "h");
        replica.least = Math.max(replica.least, op);
    },
    prepare_ok(replica, words) {
        const [view, op] = fields(words, "view", "op");
        enterView(replica, view, true);
        holds(replica, op, "h");
        replica.least = Math.max(replica.least, op);
        replica.asks = "";
    },
    commit(replica, words) {
        const [view, head] = fields(words, "view", "op");
        enterView(replica, view, true);
        learn(replica, Number(words[words.length - 1]));
        headIs(replica, head);
    },
    start_view_change(replica, words) {
        enterView(replica, fields(words, "view")[0], false);
    },
    do_view_change(replica, words) {
        const [view, log, commit, head] = fields(words, "view", "log", "commit", "head");
        enterView(replica, view, false);
        replica.logView = log;
        learn(replica, commit);
        forgetAbove(replica, commit);
        state(replica, commit, words[words.length - 1]);
        headIs(replica, head);
    },
    start_view(replica, words) {
        const [view, head, commit] = fields(words, "view", "op", "commit");
        enterView(replica, view, true);
        learn(replica, commit);
        forgetAbove(replica, head);
        headIs(replica, head);
    },
    sync_view(replica, words) {
        SENDS.start_view(replica, words);
    },
    give_prepare(replica, words) {
        holds(replica, fields(words, "op")[0], "h");
    },
    get_prepare(replica, words) {
        const [op] = fields(words, "op");
        replica.asks = `operation ${op}`;
        if (replica.letters.get(op) !== "l") replica.letters.set(op, "?");
    },
    get_block(replica, words) {
        replica.asks = `block ${words[1]}`;
    },
    get_sync(replica, words) {
        replica.asks = `the checkpoint of view ${words[2]}`;
    },
};

const OUTPUTS = {
    send(world, words) {
        const told = SENDS[words[4]];
        if (told) told(world.replicas[words[2]], words.slice(4));
    },
    commit(world, words) {
        const replica = world.replicas[words[1]];
        const [op, client, request] = fields(words, "op", "client", "request");
        world.log.set(op, { op, client, request, operation: words.slice(10) });
        replica.applied = op;
        replica.sure = true;
        replica.silent.checkpoint = 0;
        replica.most = Math.max(replica.most, op);
        replica.asks = "";
        learn(replica, op);
        holds(replica, op, "h");
    },
    reply(world, words) {
        const replica = world.replicas[words[1]];
        if (words[6] === "redirect") replica.view = Math.max(replica.view, Number(words[7]));
    },
    choose(world, words) {
        const replica = world.replicas[words[1]];
        const [view, commit, head] = fields(words, "view", "commit", "head");
        enterView(replica, view, true);
        learn(replica, commit);
        forgetAbove(replica, head);
        headIs(replica, head);
    },
    wait(world, words) {
        const replica = world.replicas[words[1]];
        const [view, op] = fields(words, "view", "op");
        enterView(replica, view, false);
        replica.waits = `operation ${op}`;
    },
    start(world, words) {
        const [view, log, commit] = fields(words, "view", "log_view", "commit");
        const { most, head, silent } = world.replicas[words[1]];
        const replica = freshReplica(Number(words[1]));
        world.replicas[words[1]] = replica;
        Object.assign(replica, { view, logView: log, started: view === log, most, sure: false });
        replica.head = Math.max(head, silent.head);
        replica.silent.checkpoint = silent.checkpoint;
        const kept = most;
        replica.applied = Math.floor(kept / CHECKPOINT_EVERY) * CHECKPOINT_EVERY;
        learn(replica, commit);
    },
    halt(world, words) {
        world.replicas[words[1]].runs = false;
    },
};

// A log that came and of which nothing was said: it may have been taken over all the same.
function hearSilently(run, world, message) {
    const replica = world.replicas[message.to];
    if (!replica.runs || !["start_view", "sync_view"].includes(message.words[0])) return;
    const [view, head] = fields(message.words, "view", "op");
    if (view < replica.view || view % run.size === replica.index || (view === replica.view && replica.started && head <= replica.least)) return;
    replica.silent.view = Math.max(replica.silent.view, view);
    replica.silent.head = Math.max(replica.silent.head, head);
    replica.least = Math.min(replica.least, head);
    if (message.words[0] === "sync_view") replica.silent.checkpoint = Math.max(replica.silent.checkpoint, Number(message.words[8]));
}

// Whether it sent that it is still changing its view: a tick at a replica that does always says so.
const stillChanges = (step) => step.outputs.some((output) => output.split(" ")[4] === "start_view_change");

function happen(world, step, run, messages) {
    const words = step.line.split(" ");
    for (const number of step.came) if (messages) hearSilently(run, world, messages[number]);
    if (words[0] === "stop") world.replicas[words[1]].runs = false;
    for (const output of step.outputs) {
        const parts = output.split(" ");
        const told = OUTPUTS[parts[0]];
        if (told) told(world, parts);
    }
    if (words[0] === "tick" && world.replicas.length > 1 && world.replicas[words[1]].runs && !stillChanges(step)) {
        const replica = world.replicas[words[1]];
        enterView(replica, replica.view, true);
    }
}

// What is told of the group after step `at`, the first being 0.
function worldAfter(run, at) {
    const world = { replicas: Array.from({ length: run.size }, (_, index) => freshReplica(index)), log: new Map() };
    for (const index of run.absent || []) world.replicas[index].runs = false;
    const messages = at < 0 ? [] : messagesOf(run);
    for (let step = 0; step <= at; step += 1) happen(world, run.steps[step], run, messages);
    return world;
}

function roleOf(run, replica) {
    if (!replica.runs) return "stopped";
    if (!replica.started) return "changing view";
    return replica.view % run.size === replica.index ? "primary" : "backup";
}

// Whether the sessions take an entry as fresh; they are brought up to it.
function isFresh(sessions, entry) {
    const session = sessions.get(entry.client);
    if (entry.operation[0] === "register") {
        if (session) return false;
        if (sessions.size >= MOST_SESSIONS) {
            const oldest = [...sessions].reduce((one, other) => (other[1].op < one[1].op ? other : one));
            sessions.delete(oldest[0]);
        }
    } else if (!session || entry.request !== session.request + 1) {
        return false;
    }
    sessions.set(entry.client, { request: entry.request, op: entry.op });
    return true;
}

function apply(keys, operation) {
    const [kind, key, value] = operation;
    if (kind === "put" && (keys.has(key) || keys.size < MOST_KEYS)) keys.set(key, value);
    if (kind === "del") keys.delete(key);
}

// The keys after the ops up to `applied`, as the commit lines tell them, and how many of these ops no line tells.
function keysOf(world, applied) {
    const keys = new Map();
    const sessions = new Map();
    let untold = 0;
    for (let op = 1; op <= applied; op += 1) {
        const entry = world.log.get(op);
        if (!entry) untold += 1;
        else if (isFresh(sessions, entry)) apply(keys, entry.operation);
    }
    return { keys: new Map([...keys].sort((one, other) => (one[0] < other[0] ? -1 : 1))), untold };
}

// The messages that were sent up to step `at` and haven't arrived by then, the latest first.
function underWay(messages, at) {
    const left = [];
    messages.forEach((message, number) => {
        const arrived = message.arrivals.length > 0 && message.arrivals[0] <= at;
        if (message.sent <= at && !arrived) left.unshift(number);
    });
    return left;
}
