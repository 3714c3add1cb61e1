// The picture: time goes down, each replica is a lane, a message an arrow from where it was sent to each of its arrivals. It makes text of
// SVG; what a mark is can be told by its form and its words, not by its colour alone. Words stand right of a lane; arrows run between them.
"use strict";

const CLIENT_LANE = 58;
const MOST_CLIENT_LANES = 3;
const NARROWEST_LANE = 176;
const WIDEST_LANE = 280;
const LETTER = 7;
const LINE = 14;
const MOST_LINES = 7;
const FEWEST_LETTERS_OF_LINE = 13;
const MOST_LETTERS_OF_LINE = 34;
const FIRST_ROW = 4;
const BASE = 12;
const CHANNEL = 26;
const TRACKS = 4;
const LONGEST_NUMBER = 6;

const STYLES = {
    prepare: "normal", prepare_ok: "normal", commit: "normal",
    start_view_change: "change", do_view_change: "change", start_view: "change", get_view: "change",
};
const styleOf = (kind) => STYLES[kind] || "repair";

const escapeText = (text) => text.replaceAll("&", "&amp;").replaceAll("<", "&lt;").replaceAll(">", "&gt;").replaceAll('"', "&quot;");
const cut = (text, most) => (text.length > most ? `${text.slice(0, most - 1)}…` : text);

// A message in few words: its kind, and the op and view that it speaks of.
function shortly(words) {
    const text = words.join(" ").replace(/ made \d+/, "").replace(/ view (\d+)/, " v$1").replace(/ log \d+ commit \d+ head (\d+) parts/, " $1");
    return text.replace(/^(prepare|prepare_ok|start_view|sync_view) (v\d+) op (\d+)( commit \d+)?/, "$1 $3 $2").replace(/^commit (v\d+) op (\d+) commit/, "commit $2 $1 to");
}

// A text in lines of at most so many letters, broken between words; a word that is longer is cut.
function wrapped(text, most) {
    const lines = [];
    for (const word of text.split(" ")) {
        const last = lines.length - 1;
        if (last >= 0 && lines[last].length + 1 + word.length <= most) lines[last] += ` ${word}`;
        else lines.push(cut(word, most));
    }
    return lines;
}

// The clients that a run names, in order.
function clientsOf(run) {
    const clients = new Set();
    for (const step of run.steps) {
        const words = step.line.split(" ");
        if (words[0] === "request") clients.add(words[2]);
        for (const output of step.outputs) {
            if (output.startsWith("reply ")) clients.add(output.split(" ")[3]);
        }
    }
    return [...clients];
}

// Each client by a number that is short: a long one is cut in its midst, unless another one would look the same.
function shortNumbers(clients) {
    const shorten = (number) => (number.length > LONGEST_NUMBER ? `${number.slice(0, 2)}…${number.slice(-3)}` : number);
    const same = (number) => clients.filter((other) => shorten(other) === shorten(number)).length > 1;
    return new Map(clients.map((number) => [number, same(number) ? number : shorten(number)]));
}

// Of each message the arrivals that only repeat: it came before, or its words did, and nothing is put out.
function repeatsOf(run, messages) {
    const repeats = messages.map(() => new Set());
    const seen = new Set();
    run.steps.forEach((step, at) => step.came.forEach((number) => {
        const words = [messages[number].from, messages[number].to, ...messages[number].words].join(" ");
        if (seen.has(words) && step.outputs.length === 0) repeats[number].add(at);
        seen.add(words);
    }));
    return repeats;
}

class Lanes {
    // `room` is the width that there is. Unless it is `whole`, lines that repeat without a word share a row.
    constructor(run, messages, room, whole = false) {
        this.run = run;
        this.messages = messages;
        this.whole = whole;
        this.repeats = repeatsOf(run, messages);
        this.layOut(room);
        this.labels = run.steps.map((step) => this.labelsOf(step));
        this.makeRows();
    }

    // The lanes and their widths: lines are cut before clients share a lane, and these before the replicas' lanes are too narrow for words.
    layOut(room) {
        const clients = clientsOf(this.run);
        this.shortNumbers = shortNumbers(clients);
        const numbers = 26 + LETTER * String(this.run.steps.length).length * (this.whole ? 1 : 2);
        const need = numbers + this.run.size * NARROWEST_LANE + LETTER * FEWEST_LETTERS_OF_LINE;
        const share = clients.length > MOST_CLIENT_LANES || (clients.length > 1 && room < need + clients.length * CLIENT_LANE);
        this.clients = share ? [] : clients;
        this.clientLanes = clients.length > 0 ? Math.max(this.clients.length, 1) : 0;
        const left = room - numbers - this.clientLanes * CLIENT_LANE - this.run.size * (NARROWEST_LANE + 24);
        const longest = Math.max(...this.run.steps.map((step) => this.lineOf(step).length + 3));
        this.lettersOfLine = Math.max(FEWEST_LETTERS_OF_LINE, Math.min(longest, MOST_LETTERS_OF_LINE, Math.floor(left / LETTER)));
        this.numbers = numbers - 12;
        this.gutter = numbers + LETTER * this.lettersOfLine;
        const before = this.gutter + this.clientLanes * CLIENT_LANE;
        this.lane = Math.min(Math.max(Math.floor((room - before) / this.run.size), NARROWEST_LANE), WIDEST_LANE);
        this.width = before + this.run.size * this.lane;
        this.letters = Math.floor((this.lane - 15 - CHANNEL) / LETTER);
    }

    // A step as it stands at the margin: its line, its clock where it has one, and of a delivery which message it is.
    lineOf(step) {
        const line = step.line.replace(/^(request \d+ )(\d+)/, (_, front, client) => front + this.shortNumbers.get(client));
        if (step.time) return `${step.time.slice(11, 23)} ${line}`;
        if (step.came.length === 0 || !step.line.startsWith("deliver")) return line;
        const message = this.messages[step.came[0]];
        return `${line} ${message.words[0]} ${message.from}→${message.to}`;
    }

    // The same in so many letters, as far as it may be left out: which message a delivery is, and a number of a client.
    fitting(step, room) {
        const line = this.lineOf(step);
        return line.length <= room ? line : line.replace(/^(deliver \d+) .*/, "$1").replace(/^(request \d+) \S+ \d+ /, "$1 ").replace(" member ", " ");
    }

    // Whether a step says again what the one before it says: the same line, of which nothing comes.
    repeatsLine(at) {
        const [step, before] = [this.run.steps[at], this.run.steps[at - 1]];
        if (step.again && !this.whole && at > 0) return true;
        return !this.whole && at > 0 && !step.note && [step, before].every((one) => one.outputs.length === 0) && step.line === before.line && !step.line.startsWith("deliver");
    }

    // Of each step its row, which has the first and the last step that stand in it.
    makeRows() {
        this.rows = [];
        let y = FIRST_ROW;
        this.labels.forEach((labels, at) => {
            if (this.repeatsLine(at)) {
                this.rows.push(this.rows[at - 1]);
                this.rows[at].last = at;
                return;
            }
            const lines = Math.max(1, ...labels.map((label) => label.lines.length));
            this.rows.push({ y, height: 12 + LINE * lines, first: at, last: at });
            y += 12 + LINE * lines;
        });
        this.height = y + 10;
    }

    firsts() {
        return this.run.steps.map((_, at) => at).filter((at) => this.rows[at].first === at);
    }

    x(replica) {
        return this.gutter + this.clientLanes * CLIENT_LANE + replica * this.lane + CHANNEL;
    }

    clientX(client) {
        return this.gutter + Math.max(this.clients.indexOf(client), 0) * CLIENT_LANE + CLIENT_LANE / 2;
    }

    y(at) {
        return this.rows[at].y + BASE;
    }

    // Where arrows leave a row: under its words.
    foot(at) {
        return this.rows[at].y + this.rows[at].height - 3;
    }

    // What stands beside the lanes in a step: of each replica that put something out, its lines with the outputs that each stands for.
    labelsOf(step) {
        const labels = new Map();
        step.outputs.forEach((output, place) => {
            const told = this.toldBy(output.split(" "), step);
            if (told === null) return;
            if (!labels.has(told.replica)) labels.set(told.replica, { replica: told.replica, said: [] });
            const said = labels.get(told.replica).said;
            const last = said[said.length - 1];
            if (last && told.to !== "" && last.text === told.text) last.to += ` ${told.to}`;
            else said.push({ place, ...told });
        });
        return [...labels.values()].map((label) => ({ replica: label.replica, lines: this.linesOf(label.said) }));
    }

    // What was said, in lines that fit beside a lane.
    linesOf(said) {
        const lines = said.flatMap(({ place, text, to, kind, title }) => {
            const words = wrapped(to === "" ? text : `${text} → ${to}`, this.letters);
            return words.map((line, number) => ({ place, text: number > 0 ? ` ${cut(line, this.letters - 1)}` : line, kind, title }));
        });
        const more = said.filter(({ place }) => lines.findIndex((line) => line.place === place) >= MOST_LINES - 1).length;
        return lines.length > MOST_LINES ? [...lines.slice(0, MOST_LINES - 1), { ...lines[MOST_LINES - 1], text: `and ${Math.max(more, 1)} more`, kind: "more" }] : lines;
    }

    toldBy(words, step) {
        const [replica, title] = [Number(words[1]), words.join(" ")];
        switch (words[0]) {
            case "send": return { replica: Number(words[2]), text: shortly(words.slice(4)), to: words[3], kind: styleOf(words[4]), title };
            case "commit": return { replica, text: `✓ ${words[3]} ${words.slice(10).join(" ")}`, to: "", kind: "commit", title };
            case "reply": return { replica, text: `reply ${this.shortNumbers.get(words[3])}: ${words.slice(6).join(" ")}`, to: "", kind: "client", title };
            case "choose": return { replica, text: `◆ chooses log to ${words[9]}, own ${words[11]}`, to: "", kind: "choose", title };
            case "wait": return { replica, text: `◇ waits for ${words[5]}`, to: "", kind: "wait", title };
            case "start": return { replica, text: `starts v${words[3]} log v${words[5]} ${words[7]}`, to: "", kind: "start", title };
            case "halt": return { replica, text: "halts", to: "", kind: "stop", title };
            default: {
                const at = Number(step.line.split(" ")[1]);
                return Number.isNaN(at) ? null : { replica: at, text: title, to: "", kind: "fault", title };
            }
        }
    }

    text(x, y, words, kind, mark = "", title = "") {
        return `<text x="${x}" y="${y}" class="t ${kind}"${mark}>${escapeText(words)}${title && `<title>${escapeText(title)}</title>`}</text>`;
    }

    mark(at, place = -1) {
        return ` data-step="${at}"${place < 0 ? "" : ` data-output="${place}"`}`;
    }

    // The lanes themselves: thick where a replica is known to lead, dashed while it changes the view, dotted while it is stopped.
    lanes() {
        const marks = [];
        const world = worldAfter(this.run, -1);
        const since = world.replicas.map((replica) => ({ role: roleOf(this.run, replica), y: 0 }));
        const draw = (index, until) => {
            const { role, y } = since[index];
            marks.push(`<path class="lane ${role.split(" ")[0]}" d="M${this.x(index)} ${y}V${until}"/>`);
        };
        this.run.steps.forEach((step, at) => {
            happen(world, step, this.run, this.messages);
            world.replicas.forEach((replica, index) => {
                const role = roleOf(this.run, replica);
                if (role === since[index].role) return;
                draw(index, this.y(at));
                since[index] = { role, y: this.y(at) };
            });
        });
        since.forEach((_, index) => draw(index, this.height));
        for (let lane = 0; lane < this.clientLanes; lane += 1) {
            marks.push(`<path class="lane client" d="M${this.gutter + lane * CLIENT_LANE + CLIENT_LANE / 2} 0V${this.height}"/>`);
        }
        return marks;
    }

    clientArrows() {
        const marks = [];
        const draw = (from, to, y, mark, title) => marks.push(
            `<path class="arrow client" d="M${from} ${y}H${to + (from < to ? -5 : 5)}" marker-end="url(#tip)"${mark}><title>${escapeText(title)}</title></path>`);
        this.run.steps.forEach((step, at) => {
            const words = step.line.split(" ");
            if (words[0] === "request") draw(this.clientX(words[2]), this.x(Number(words[1])), this.y(at), this.mark(at), step.line);
            step.outputs.forEach((output, place) => {
                const parts = output.split(" ");
                if (parts[0] === "reply") draw(this.x(Number(parts[1])), this.clientX(parts[3]), this.y(at) + 8, this.mark(at, place), output);
            });
        });
        return marks;
    }

    // The arrows of messages, and short ones of those that never arrive.
    messageArrows() {
        const routes = new Routes(this);
        return this.messages.flatMap((message, number) => {
            const kind = styleOf(message.words[0]);
            const title = `message ${number}, from ${message.from} to ${message.to}: ${message.words.join(" ")}`;
            if (message.arrivals.length === 0) {
                const [x, y] = [this.x(message.from), this.foot(message.sent)];
                const lost = this.run.members ? "no line tells that it arrived" : "it never arrives";
                return [`<path class="stub lost ${kind}" d="M${x} ${y}l${message.to > message.from ? 14 : -14} 5"${this.mark(message.sent)}><title>${escapeText(title)}: ${lost}</title></path>`];
            }
            return message.arrivals.map((at) => {
                const again = this.repeats[number].has(at) ? " again" : "";
                return `<path class="arrow ${kind}${again}" d="${routes.path(message, at)}" marker-end="url(#tip)"${this.mark(at)} data-message="${number}"><title>${escapeText(title)}</title></path>`;
            });
        });
    }

    // How many marks are hidden at first.
    hidden() {
        const lines = this.run.steps.filter((_, at) => !this.whole && this.rows[at].first !== at).length;
        return this.messages.filter((message) => message.arrivals.length === 0).length + this.repeats.reduce((sum, some) => sum + some.size, 0) + lines;
    }

    // The form on the lane where a line happens.
    form(at) {
        const step = this.run.steps[at];
        const words = step.line.split(" ");
        const event = eventOf(this.run, this.messages, at);
        if (event.at === null || Number.isNaN(event.at)) return "";
        const [x, y, mark] = [this.x(event.at), this.y(at), this.mark(at)];
        const title = `<title>${escapeText(step.line)}</title>`;
        const kind = step.outputs.some((output) => output.startsWith("start ")) ? "start" : words[0];
        switch (kind) {
            case "stop": return `<path class="form stop" d="M${x - 6} ${y - 6}l12 12m0 -12l-12 12"${mark}>${title}</path>`;
            case "start": return `<path class="form start" d="M${x} ${y - 7}l7 12h-14z"${mark}>${title}</path>`;
            case "fuse": return `<path class="form fault" d="M${x - 6} ${y - 6}h12v12h-12zm3 6h6"${mark}>${title}</path>`;
            case "damage": case "stale": case "unread": case "misdirect":
                return `<path class="form fault" d="M${x + 2} ${y - 8}l-6 9h5l-3 8l7 -10h-5z"${mark}>${title}</path>`;
            case "tick": return `<circle class="form tick" cx="${x}" cy="${y}" r="3"${mark}>${title}</circle>`;
            default: return `<circle class="form event" cx="${x}" cy="${y}" r="4"${mark}>${title}</circle>`;
        }
    }

    // What stands at the margin of a row: its number and its line; of lines that repeat the numbers of the first and the last.
    margin(at) {
        const { last } = this.rows[at];
        const times = last > at && !this.run.members ? ` ×${last - at + 1}` : "";
        const number = last > at ? `${at + 1}–${last + 1}` : String(at + 1);
        const room = this.lettersOfLine - 1 - times.length;
        const line = cut(this.fitting(this.run.steps[at], room), room) + times;
        return this.text(this.numbers, this.y(at) + 4, number, "number", ' text-anchor="end"') + this.text(this.numbers + 8, this.y(at) + 4, line, "line", "", this.run.steps[at].line);
    }

    row(at) {
        return `<rect id="row-${at}" class="row" x="0" y="${this.rows[at].y}" width="${this.width}" height="${this.rows[at].height}"${this.mark(at)}/>`;
    }

    words(at) {
        const marks = [this.margin(at)];
        for (const label of this.labels[at]) {
            label.lines.forEach((line, place) => {
                marks.push(this.text(this.x(label.replica) + 15, this.y(at) + 4 + LINE * place, line.text, line.kind, this.mark(at, line.place), line.title));
            });
        }
        return `<g id="words-${at}" class="words">${marks.join("")}</g>`;
    }

    heading() {
        const names = [this.text(this.numbers + 8, 22, "line", "line")];
        const middle = ' text-anchor="middle"';
        if (this.clients.length === 0 && this.clientLanes > 0) names.push(this.text(this.clientX(""), 22, "clients", "name", middle));
        for (const client of this.clients) {
            names.push(this.text(this.clientX(client), 13, "client", "name", middle, `client ${client}`));
            names.push(this.text(this.clientX(client), 26, cut(this.shortNumbers.get(client), 8), "name", middle, `client ${client}`));
        }
        for (let replica = 0; replica < this.run.size; replica += 1) names.push(this.text(this.x(replica) - 8, 22, `replica ${replica}`, "name"));
        return `<svg width="${this.width}" height="32" aria-hidden="true">${names.join("")}</svg>`;
    }

    svg() {
        const firsts = this.firsts();
        return [
            `<svg id="picture" width="${this.width}" height="${this.height}" role="img" aria-label="The run as a picture: its lines, replicas and messages. The panel beside it says the same of each line in words.">`,
            '<defs><marker id="tip" viewBox="0 0 8 8" refX="7" refY="4" markerWidth="9" markerHeight="9" markerUnits="userSpaceOnUse" orient="auto"><path d="M0 0L8 4L0 8z" fill="context-stroke"/></marker></defs>',
            ...firsts.map((at) => this.row(at)),
            ...this.lanes(),
            ...this.clientArrows(),
            ...this.messageArrows(),
            ...firsts.map((at) => this.form(at)),
            ...firsts.map((at) => this.words(at)),
            "</svg>",
        ].join("");
    }
}
