// Which rules of RULES.md explain a line and its outputs, by their names. Nothing here touches the page. What each rule asks of the numbers and
// puts out stands in told.json, which a page has as `run.rules.told`.
"use strict";

const WINDOW = 64;
const BEGIN = "choose (?:start_view )*(?:prepare )*(?:apply (?:reply )?)*";
const ANY = [0, Infinity];
const VIEW_CHANGE = { 1: 1, 2: 2, 3: 2, 4: 3, 5: 3, 6: 4 };

// What stands in the texts of told.json for an output.
function tokenOf(words, before) {
    switch (words[0]) {
        case "send": return words[4] === "commit" ? "beat" : words[4];
        case "commit": return "apply";
        case "reply": {
            if (words[6] === "redirect" || words[6] === "busy") return words[6];
            return before && before[0] === "commit" && before[7] === words[3] && before[9] === words[5] ? "reply" : "answer";
        }
        default: return words[0];
    }
}

function tokensOf(step) {
    const lines = step.outputs.map((output) => output.split(" "));
    return lines.map((words, place) => `${tokenOf(words, lines[place - 1])} `).join("");
}

// The number behind a name where it first stands: what a client put stands last, and may be such words.
const numberAfter = (words, name) => (words.indexOf(name) < 0 ? undefined : Number(words[words.indexOf(name) + 1]));

// The numbers of a message, by the names that told.json has for them.
function numbersOf(words) {
    const [v, k, c] = [numberAfter(words, "view"), numberAfter(words, "op"), numberAfter(words.slice(1), "commit")];
    return { v, k: words[0].endsWith("_block") ? Number(words[1]) : k, c, h: k, p: numberAfter(words, "checkpoint") };
}

// The numbers that a step put out.
function saidBy(step) {
    const said = {};
    const tell = (name, value) => { if (value !== undefined) said[name] = value; };
    for (const output of step.outputs) {
        const words = output.split(" ");
        const numbers = numbersOf(words.slice(words[0] === "send" ? 4 : 0));
        const kind = words[0] === "send" ? words[4] : words[0] === "commit" ? "apply" : words[0];
        if (kind === "start_view_change") tell("entered", numbers.v);
        if (["do_view_change", "choose", "wait", "prepare_ok"].includes(kind)) tell("now", numbers.v);
        if (kind === "prepare_ok") [said.least, said.acked] = [said.least ?? numbers.k, numbers.k];
        if (kind === "prepare" && said.prepared === undefined) tell("prepared", numbers.k);
        if (kind === "get_view") tell("asked", numbers.v);
        if (kind === "get_sync") tell("asked", numbers.v);
        if (kind === "start_view") tell("given", numbers.v);
        if (kind.startsWith("give_")) tell("gave", numbers.k);
        if (kind === "apply") [said.from, said.to] = [said.from ?? numbers.k, numbers.k];
    }
    return said;
}

const checkpointOf = (applied) => Math.floor(applied / CHECKPOINT_EVERY) * CHECKPOINT_EVERY;

// What is known of a replica: of each number the least and the greatest that it may be, of each statement whether it holds, undefined where no line tells.
function knownOf(run, replica) {
    const { silent } = replica;
    const jumped = silent.view > 0 && silent.checkpoint > replica.applied;
    const moved = silent.view > replica.view || (silent.view > 0 && !replica.started);
    const least = replica.sure ? replica.applied : Math.max(0, replica.applied - CHECKPOINT_EVERY);
    const most = Math.max(replica.sure ? replica.applied : checkpointOf(replica.most), jumped ? silent.checkpoint : 0, silent.view > 0 ? 0 : silent.checkpoint);
    const leads = replica.started && replica.view % run.size === replica.index;
    return {
        view: [replica.view, Math.max(replica.view, silent.view)],
        log_view: [replica.started ? replica.view : replica.logView, Math.max(replica.started ? replica.view : replica.logView, silent.view)],
        commit: [replica.commit, Infinity],
        checkpoint: [checkpointOf(least), checkpointOf(most)],
        head: [replica.least, Math.max(replica.head, silent.head)],
        started: moved ? undefined : replica.started,
        leads: moved && leads ? undefined : leads && !moved,
        alone: run.size === 1,
        waited: replica.waits !== "",
        quorum: [VIEW_CHANGE[run.size], VIEW_CHANGE[run.size]],
    };
}

// The same with what is said of the op of a message: whether its header is known for sure (`held`), or isn't for sure (`fresh`).
function knownWith(run, replica, message, said) {
    const known = { ...knownOf(run, replica) };
    for (const [name, value] of Object.entries(said)) known[name] = [value, value];
    if (message === null) return known;
    const numbers = numbersOf(message.words);
    for (const [name, value] of Object.entries(numbers)) if (value !== undefined) known[name] = [value, value];
    known.primary = numbers.v === undefined ? undefined : numbers.v % run.size === replica.index;
    const letter = replica.letters.get(numbers.k);
    known.held = letter === "h" && replica.started && numbers.v === replica.view ? true : undefined;
    known.fresh = letter === undefined && numbers.k > known.head[1] ? true : undefined;
    return known;
}

// `view + 1` as the least and the greatest number that it may be.
function rangeOf(words, known) {
    const [name, plus] = words.split(" + ");
    const [least, most] = /^\d+$/.test(name) ? [Number(name), Number(name)] : known[name] || ANY;
    return [least + Number(plus || 0), most + Number(plus || 0)];
}

// Whether a condition may hold, by what is known.
function mayHold(condition, known) {
    if (condition.includes(" | ")) return condition.split(" | ").some((part) => mayHold(part, known));
    const parts = condition.match(/^(.*) (<=|>=|<|>|=) (.*)$/);
    if (!parts) return condition.startsWith("!") ? known[condition.slice(1)] !== true : known[condition] !== false;
    const [[a, b], [c, d]] = [rangeOf(parts[1], known), rangeOf(parts[3], known)];
    switch (parts[2]) {
        case "<": return a < d;
        case "<=": return a <= d;
        case ">": return b > c;
        case ">=": return b >= c;
        default: return a <= d && c <= b;
    }
}

// The rules of an event, in their order, and of them those that fit what was put out and that no known number excludes.
function rulesOf(run, kind) {
    return [...new Set(run.rules.told.filter((row) => row.event === kind).map((row) => row.rule))];
}

function fitting(run, kind, known, tokens) {
    const rows = run.rules.told.filter((row) => row.event === kind && new RegExp(`^(?:${row.says.replace("BEGIN", BEGIN)})$`).test(tokens));
    return [...new Set(rows.filter((row) => row.when.every((condition) => mayHold(condition, known))).map((row) => row.rule))];
}

// The word of RULES.md by which an output is made. Other messages are told by the rules of their step themselves.
const OUTPUT_WORDS = {
    commit: "apply", choose: "begin a view", wait: "try", start: "the opening", halt: "a cut", done: "a fault", "kept out": "a fault",
};
const SEND_WORDS = { start_view_change: "enter v", do_view_change: "speak", get_prepare: "ask", get_block: "ask" };

// What happened to a replica in a step: the event by its name in told.json, or the line itself, and the replica that it happened to.
function eventOf(run, messages, at) {
    const step = run.steps[at];
    if (step.came.length > 0) {
        const message = messages[step.came[0]];
        return { kind: message.words[0], at: message.to, message };
    }
    const words = step.line.split(" ");
    return { kind: words[0], at: words[0] === "cluster" ? null : Number(words[1]), message: null };
}

// The rules that explain a step: those that fit it, the others of its event, and what else there is to say. The steps of members bring their rules.
function explainStep(run, messages, at) {
    const step = run.steps[at];
    const event = eventOf(run, messages, at);
    const before = at > 0 && event.at !== null ? worldAfter(run, at - 1).replicas[event.at] : null;
    const nothing = { fit: [], others: [], words: [], note: "" };
    if (step.outputs.some((output) => output.startsWith("halt "))) {
        return { ...nothing, words: ["a cut"], note: "Its fuse fired in this step: of all that it would have put out, this line alone." };
    }
    if (step.rules) {
        const note = step.rules.length + (step.words || []).length > 0 ? "" : "No rule can be told: too much of what went before is missing.";
        return { ...nothing, fit: step.rules, words: step.words || [], note };
    }
    const rules = rulesOf(run, event.kind);
    if (rules.length > 0 && before && !before.runs) return { ...nothing, note: `Replica ${event.at} is stopped: it hears nothing.` };
    if (event.kind === "member") return { ...nothing, note: "No line tells what happened." };
    if (rules.length === 0) return { ...nothing, words: [event.kind] };
    const fit = fitting(run, event.kind, knownWith(run, before, event.message, saidBy(step)), tokensOf(step));
    const note = step.outputs.length > 0 ? "" : "Nothing was put out: by one of these, or because no rule's condition holds.";
    return { ...nothing, fit, others: rules.filter((rule) => !fit.includes(rule)), note };
}

// The word that explains one output of a step, none where the rules of the step do.
function explainOutput(step, output, fit) {
    const words = output.split(" ");
    if (words[0] !== "send") return OUTPUT_WORDS[output] || OUTPUT_WORDS[words[0]] || null;
    if (step.outputs.some((other) => other.startsWith("choose "))) return "begin a view";
    if (step.outputs.some((other) => other.startsWith("start "))) return "the opening";
    if (fit.length === 1 && fit[0] === "TickedChanging" && words[4] === "start_view_change") return null;
    return SEND_WORDS[words[4]] || null;
}
