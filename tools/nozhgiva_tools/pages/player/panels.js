// What the page shows of a schedule: the picture, the replicas with their buttons, what happened and why, and what is promised.
"use strict";

const MOST_LISTED = 60;
const MOST_LETTERS = 12;
const MOST_OF_LOG = 10;
const WIDEST_FLIGHT = 210;
const view = { run: null, messages: [], world: null, first: 0, picked: 0, output: -1, hot: 0, flights: [] };

// An element with what stands in it; text is text.
function make(name, attributes, ...inside) {
    const element = document.createElement(name);
    for (const [key, value] of Object.entries(attributes)) {
        if (key === "onclick") element.addEventListener("click", value);
        else if (value !== null && value !== false) element.setAttribute(key, value === true ? "" : value);
    }
    element.append(...inside.filter((one) => one !== null));
    return element;
}

const button = (name, onclick, attributes = {}) => make("button", { type: "button", ...attributes, onclick }, name);

// A piece of RULES.md, which was made into HTML when the page was made.
function ruleText(html) {
    const element = document.createElement("span");
    element.innerHTML = html;
    return element;
}

// ---- the picture

function windowOf() {
    if (game.at < view.first || game.at >= view.first + ROWS_SHOWN || view.first >= game.lines.length) {
        view.first = Math.max(0, game.at - (game.at === game.lines.length - 1 ? ROWS_SHOWN - 1 : ROWS_SHOWN / 2));
    }
    return [view.first, Math.min(view.first + ROWS_SHOWN - 1, game.lines.length - 1)];
}

function showPicture() {
    const [first, last] = windowOf();
    const timeline = byId("timeline");
    const isEnd = game.at === game.lines.length - 1;
    view.flights = isEnd ? flying(view.messages).slice(-MOST_FLIGHTS) : [];
    const part = partOf(view.run, view.messages, first, last, view.flights);
    const board = new Board(part, timeline.clientWidth - 2, worldAt(view.run, view.messages, first - 1), first, view.flights);
    view.board = board;
    byId("heading").innerHTML = board.heading();
    byId("lanes").innerHTML = board.svg();
    if (first > 0) byId("lanes").prepend(button(`show the ${Math.min(first, ROWS_SHOWN)} lines before`, () => { view.first = Math.max(0, first - ROWS_SHOWN); game.at = Math.min(game.at, view.first + ROWS_SHOWN - 1); changed(); }, { id: "earlier" }));
    showChosen(board, first);
    showFlights(board);
    scrollBoard(board, game.at - first, isEnd);
}

function showChosen(board, first) {
    const at = game.at - first;
    byId(`row-${board.rows[at].first}`).classList.add("chosen");
    byId(`words-${board.rows[at].first}`).classList.add("chosen");
    for (const arrow of document.querySelectorAll(`.arrow[data-step="${at}"], .stub[data-step="${at}"]`)) arrow.classList.add("now");
}

function scrollBoard(board, at, isEnd) {
    const timeline = byId("timeline");
    const { y, height } = board.rows[at];
    if (isEnd) timeline.scrollTop = timeline.scrollHeight;
    else if (y < timeline.scrollTop || y + height > timeline.scrollTop + timeline.clientHeight - 40) timeline.scrollTop = Math.max(0, y - timeline.clientHeight / 2);
}

const messageText = (number) => {
    const { from, to, words } = view.messages[number];
    return `message ${number}, ${from} to ${to}: ${words.join(" ")}`;
};

function showFlights(board) {
    const top = byId("picture").getBoundingClientRect().top - byId("stage").getBoundingClientRect().top;
    const flights = view.flights.map((number, place) => {
        const { to, words } = view.messages[number];
        const kind = styleOf(words[0]);
        const go = button(`${number} ${shortly(words)}`, () => play(`deliver ${number}`), { class: "go", "data-deliver": number, title: `deliver ${messageText(number)}` });
        const gone = button("✕", () => lose(number), { class: "lose", "data-lose": number, title: `lose ${messageText(number)}`, "aria-label": `lose message ${number}` });
        const isFar = board.x(to) + WIDEST_FLIGHT > board.width;
        const left = isFar ? Math.min(board.x(to) + WIDEST_FLIGHT / 3, board.width - 2) : board.x(to) - 6;
        const flight = make("div", { class: `flight ${kind}${isFar ? " far" : ""}`, style: `left:${left}px;top:${top + board.flightY(place)}px` }, go, gone);
        flight.addEventListener("pointerenter", () => markFlight(number, true));
        flight.addEventListener("pointerleave", () => markFlight(number, false));
        return flight;
    });
    byId("flights").replaceChildren(...flights);
}

function markFlight(number, isHot) {
    const path = document.querySelector(`.air[data-flying="${number}"]`);
    if (path) path.style.strokeWidth = isHot ? "4" : "";
}

// ---- the replicas

function lettersOf(replica) {
    const ops = [...replica.letters.keys()].sort((one, other) => one - other).slice(-MOST_LETTERS);
    return ops.map((op) => {
        const words = `operation ${op}: ${LETTER_WORDS[replica.letters.get(op)]}`;
        return make("span", { tabindex: "0", "data-words": words, "aria-label": words }, `${op}${replica.letters.get(op)}`);
    });
}

const LETTER_WORDS = {
    h: "the operation is here", l: "it was accepted and is lost", w: "it is wanted: others told of it", u: "unknown: it may have been accepted", n: "none", "?": "asked for: lost or wanted",
};

function keysText(world, replica) {
    const { keys, untold } = keysOf(world, replica.applied);
    const text = [...keys].map(([key, value]) => `${key} = ${cut(value, 20)}`).join(", ") || "none";
    return untold > 0 ? `${text} (without ${untold} operations that no line tells)` : text;
}

function formLine(replica, move) {
    if (move.line) play(move.line);
    else openForm(move.form, replica.index);
}

function replicaCard(world, replica) {
    const role = roleOf(view.run, replica);
    const migrated = game.watch.migrated.has(replica.index);
    const moves = movesOf(game.group, replica, migrated);
    const rows = [["view", `${replica.view}${replica.runs ? `, commit ${replica.commit}, applied ${replica.applied}` : ""}`]];
    if (replica.waits) rows.push(["waits for", replica.waits]);
    if (replica.asks) rows.push(["asked for", replica.asks]);
    const list = make("dl", {});
    for (const [name, value] of rows) list.append(make("dt", {}, name), make("dd", {}, value));
    if (replica.runs && replica.letters.size > 0) list.append(make("dt", {}, "log"), make("dd", { class: "letters" }, ...lettersOf(replica)));
    if (replica.runs && replica.applied > 0) list.append(make("dt", {}, "keys"), make("dd", { class: "state" }, keysText(world, replica)));
    const buttons = moves.map((move) => button(move.name, () => formLine(replica, move), { "data-line": move.line || null, "data-form": move.form || null, title: move.line ? `${move.line} (${move.key})` : `(${move.key})` }));
    const head = make("h3", {}, make("span", {}, `replica ${replica.index}: `, make("span", { class: "role" }, role)), make("kbd", { title: `key ${replica.index} picks it` }, String(replica.index)));
    const card = make("div", { class: `replica ${role.split(" ")[0]}${view.picked === replica.index ? " picked" : ""}`, "data-replica": replica.index }, head, list, make("div", { class: "buttons" }, ...buttons));
    card.addEventListener("pointerdown", () => pick(replica.index));
    return card;
}

function pick(index) {
    view.picked = index;
    for (const card of document.querySelectorAll(".replica")) card.classList.toggle("picked", Number(card.dataset.replica) === index);
}

// ---- what happened, and why

const isDelivered = (number) => view.messages[number].arrivals.some((at) => at <= game.at);

function saidRow(output, place) {
    const words = output.split(" ");
    const choose = button(output, () => { view.output = view.output === place ? -1 : place; showStep(); showWhy(); byId("why-box").open = true; }, { class: "said", "aria-pressed": String(place === view.output) });
    if (words[0] !== "send") return make("div", { class: "said-row" }, choose);
    const number = Number(words[1]);
    return make("div", { class: "said-row" }, choose, button(isDelivered(number) ? "again" : "deliver", () => play(`deliver ${number}`), { "data-deliver": number }));
}

function showStep() {
    const step = view.run.steps[game.at];
    const isEnd = game.at === game.lines.length - 1;
    byId("step-title").textContent = `Line ${game.at + 1} of ${game.lines.length}`;
    const parts = [make("p", { class: "thing", id: "line" }, step.line)];
    if (!isEnd) parts.push(make("p", { class: "line-buttons" }, button("Go on from here", () => change({ lines: game.lines.slice(0, game.at + 1) }), { id: "cut", title: "cut the lines behind this one; undo brings them back" }), button("Back to the end", () => show(game.lines.length - 1), { id: "to-end" })));
    for (const number of step.came) {
        parts.push(make("p", { class: "came" }, messageText(number)), make("p", { class: "line-buttons" }, button("Deliver it again", () => play(`deliver ${number}`), { id: "again" })));
    }
    if (step.note) parts.push(make("p", { class: "note" }, step.note));
    parts.push(...step.outputs.map(saidRow));
    if (step.outputs.length === 0) parts.push(make("p", { class: "note" }, "Nothing is put out."));
    byId("step").replaceChildren(...parts);
}

function ruleCard(name, isAlone) {
    const rule = view.run.rules.rules[name];
    if (!rule) return make("p", {}, name);
    const when = rule.when === "else" ? "none of the rules of this event that stand before it applies" : rule.when;
    const card = make("div", { class: "rule fits", "data-rule": name }, make("b", {}, `Rule ${rule.no}, ${name}`), isAlone ? ": the rule that fits" : "");
    card.append(make("p", {}, make("i", {}, "When "), ruleText(when)), make("p", {}, make("i", {}, "Then "), ruleText(rule.what)));
    return card;
}

function wordCard(word) {
    const entry = view.run.rules.words[word];
    return entry ? make("div", { class: "rule fits", "data-word": word }, make("b", {}, word), make("p", {}, ruleText(entry))) : make("p", { class: "note" }, "RULES.md has no rule for it.");
}

function showWhy() {
    const step = view.run.steps[game.at];
    const { fit, words, note } = explainStep(view.run, view.messages, game.at);
    const parts = note ? [make("p", { class: "note" }, note)] : [];
    const word = view.output >= 0 ? explainOutput(step, step.outputs[view.output], fit) : null;
    if (word) parts.push(wordCard(word));
    if (fit.length > 1) parts.push(make("p", { class: "note" }, "It can't be told which of these rules it was:"));
    parts.push(...words.filter((name) => view.run.rules.words[name]).map(wordCard), ...fit.map((name) => ruleCard(name, fit.length === 1)));
    byId("why").replaceChildren(...parts);
}

// ---- messages under way, all of them

function showWay() {
    const left = flying(view.messages);
    const lost = [...game.lost].filter((number) => number < view.messages.length && !isDelivered(number));
    byId("next").disabled = byId("all").disabled = left.length === 0;
    const item = (number) => make("li", {}, make("span", {}, `${messageText(number)}`), button("deliver", () => play(`deliver ${number}`)), game.lost.has(number) ? "lost" : button("lose", () => lose(number)));
    const all = [...left.slice(-MOST_LISTED).reverse(), ...lost];
    const summary = make("summary", {}, `${left.length} under way${lost.length > 0 ? `, ${lost.length} lost` : ""}`);
    const open = byId("way").querySelector("details")?.open ?? false;
    byId("way").replaceChildren(make("details", { open }, summary, make("ol", {}, ...all.map(item))));
}

// ---- what is promised

function promiseItem({ id, clause, title, text, broken }) {
    const is = broken.length === 0;
    const why = broken.slice(0, 3).map((one) => make("div", { class: "why" }, `broken at line ${one.step + 1}: ${one.why}`));
    return make("li", { class: is ? "kept" : "broken", "data-promise": id }, make("span", { class: "sign" }, is ? "✓" : "✗"),
        make("div", {}, make("code", { class: "clause", title: "the clause of KeepsOneLog" }, clause), make("b", {}, title), make("span", { class: "spoken" }, is ? ": kept" : ": broken"), make("div", { class: "text" }, text), ...why));
}

function logRow(watch, op) {
    const entry = watch.log.get(op);
    const votes = watch.votes.get(op);
    const voters = votes ? [...votes].flatMap(([, views]) => [...views].map(([at, who]) => `${[...who].sort().join(" ")} in v${at}`)) : [];
    const operation = entry ? `${cut(entry.text, 26)} (client ${cut(entry.client, 8)}, view ${entry.made})` : "not committed yet";
    return make("tr", {}, make("td", {}, String(op)), make("td", {}, operation), make("td", {}, entry ? [...entry.by].sort().join(" ") : ""), make("td", {}, watch.size === 1 ? "can't be told" : voters.slice(-3).join(", ")));
}

function logTable(watch) {
    const most = Math.max(0, ...watch.log.keys(), ...watch.votes.keys());
    const ops = Array.from({ length: Math.min(most, MOST_OF_LOG) }, (_, place) => most - place);
    const head = make("tr", {}, ...["op", "what", "applied", `vouch, of ${watch.quorum.replication}`].map((name) => make("th", { scope: "col" }, name)));
    return make("table", { class: "log-table", id: "log" }, head, ...ops.map((op) => logRow(watch, op)));
}

function replyTable(watch) {
    const head = make("tr", {}, ...["client", "was told", "plain table"].map((name) => make("th", { scope: "col" }, name)));
    const rows = watch.replies.slice(-6).reverse().map(({ client, request, said, plain }) => make("tr", { class: said === plain ? "" : "broken" }, make("td", {}, `${client} no. ${request}`), make("td", {}, cut(said, 30)), make("td", {}, said === plain ? "the same ✓" : `${cut(plain, 30)} ✗`)));
    return make("table", { class: "log-table", id: "told" }, head, ...rows);
}

function quorumText(world, watch) {
    const running = world.replicas.filter((replica) => replica.runs).length;
    const has = (need) => (running >= need ? "✓" : "✗");
    return `${running} of ${watch.size} run. To commit ${watch.quorum.replication} ${has(watch.quorum.replication)}, to change the view ${watch.quorum.change} ${has(watch.quorum.change)}, to cut a log ${watch.quorum.nack} ${has(watch.quorum.nack)}.`;
}

function showPromises() {
    const { watch } = game;
    byId("watched").replaceChildren(...promisesOf(watch).map(promiseItem));
    const parts = [make("p", { id: "quorums" }, quorumText(view.world, watch)), make("h2", {}, "The log"), logTable(watch)];
    if (watch.replies.length > 0) parts.push(make("h2", {}, "Replies"), replyTable(watch));
    byId("log-box").replaceChildren(...parts);
}

// ---- all of it

function render() {
    view.run = runOf();
    view.messages = messagesOf(view.run);
    view.world = worldAt(view.run, view.messages, game.at);
    view.output = -1;
    view.picked = Math.min(view.picked, game.group.size - 1);
    showPicture();
    byId("refusal").textContent = game.refusal;
    byId("replicas").replaceChildren(...view.world.replicas.map((replica) => replicaCard(view.world, replica)));
    showWay();
    showStep();
    if (byId("why-box").open) showWhy();
    showPromises();
    byId("undo").disabled = game.past.length === 0;
    byId("redo").disabled = game.future.length === 0;
}
