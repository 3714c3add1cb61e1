// The picture of what happened so far, by the lanes of the explorer, and below it what is under way: messages whose arrows end in buttons.
"use strict";

const ROWS_SHOWN = 60;
const NARROW = 560;
const NARROW_GUTTER = 34;
const NARROW_CLIENT = 24;
const LEAST_LANE = 104;
const FLIGHT_ROW = 32;
const MOST_FLIGHTS = 8;

// Of a run's steps those from `first` on, with the messages that are seen there under their own numbers.
function partOf(run, messages, first, last, flying) {
    const seen = [];
    messages.forEach((message, number) => {
        const arrivals = message.arrivals.filter((at) => at >= first && at <= last).map((at) => at - first);
        if (arrivals.length === 0 && !flying.includes(number) && (message.sent < first || message.sent > last)) return;
        seen[number] = { ...message, sent: message.sent - first, arrivals };
    });
    return { run: { ...run, steps: run.steps.slice(first, last + 1) }, messages: seen };
}

class Board extends Lanes {
    // `before` is the world before the first step that is shown.
    constructor(part, room, before, first, flying) {
        super(part.run, part.messages, room);
        this.before = before;
        this.first = first;
        this.flying = new Set(flying);
    }

    // Less beside the lanes where there is little room.
    layOut(room) {
        super.layOut(room);
        this.isNarrow = room < NARROW;
        if (this.isNarrow) Object.assign(this, { gutter: NARROW_GUTTER, clients: [], clientLanes: 0 });
        else if (this.width <= room) return;
        const before = this.gutter + this.clientLanes * CLIENT_LANE;
        this.lane = Math.min(Math.max(Math.floor((room - before) / this.run.size), LEAST_LANE), WIDEST_LANE);
        this.width = before + this.run.size * this.lane;
        this.letters = Math.floor((this.lane - 15 - (this.isNarrow ? 0 : CHANNEL)) / LETTER) - (this.isNarrow ? 1 : 0);
    }

    x(replica) {
        return this.isNarrow ? this.gutter + replica * this.lane + 12 : super.x(replica);
    }

    clientX(client) {
        return this.isNarrow ? NARROW_CLIENT : super.clientX(client);
    }

    margin(at) {
        const { last } = this.rows[at];
        const times = last > at ? ` ×${last - at + 1}` : "";
        const number = String(this.first + at + 1);
        if (this.isNarrow) return this.text(NARROW_CLIENT - 3, this.y(at) + 4, number, "number", ' text-anchor="end"');
        const room = this.lettersOfLine - 1 - times.length;
        const line = cut(this.fitting(this.run.steps[at], room), room) + times;
        return this.text(this.numbers, this.y(at) + 4, number, "number", ' text-anchor="end"') + this.text(this.numbers + 8, this.y(at) + 4, line, "line", "", this.run.steps[at].line);
    }

    // The lanes begin with what was known before the first step, and reach down to what is under way.
    lanes() {
        const marks = [];
        const since = this.before.replicas.map((replica) => ({ role: roleOf(this.run, replica), y: 0 }));
        const draw = ({ role, y }, index, until) => marks.push(`<path class="lane ${role.split(" ")[0]}" d="M${this.x(index)} ${y}V${until}"/>`);
        this.run.steps.forEach((step, at) => {
            happen(this.before, step, this.run, this.messages);
            this.before.replicas.forEach((replica, index) => {
                const role = roleOf(this.run, replica);
                if (role === since[index].role) return;
                draw(since[index], index, this.y(at));
                since[index] = { role, y: this.y(at) };
            });
        });
        since.forEach((one, index) => draw(one, index, this.height + this.flightsHeight()));
        for (let lane = 0; lane < this.clientLanes; lane += 1) {
            marks.push(`<path class="lane client" d="M${this.gutter + lane * CLIENT_LANE + CLIENT_LANE / 2} 0V${this.height}"/>`);
        }
        return marks;
    }

    // What is under way has arrows of its own; what was sent before the first row comes from above.
    messageArrows() {
        const all = this.messages;
        const early = [];
        this.messages = [];
        all.forEach((message, number) => {
            if (this.flying.has(number)) return;
            if (message.sent >= 0) this.messages[number] = message;
            else for (const at of message.arrivals) early.push(`<path class="arrow ${styleOf(message.words[0])}" d="M${this.x(message.from)} 0L${this.x(message.to) + (message.from < message.to ? -5 : 5)} ${this.y(at)}" marker-end="url(#tip)"${this.mark(at)}/>`);
        });
        const drawn = super.messageArrows();
        this.messages = all;
        return [...early, ...drawn];
    }

    flightsHeight() {
        return this.flying.size * FLIGHT_ROW + 16;
    }

    flightY(place) {
        return this.height + 8 + FLIGHT_ROW * (place + 0.5);
    }

    // The arrows of what is under way, from where each was sent to its button.
    air() {
        return [...this.flying].map((number, place) => {
            const { from, to, sent, words } = this.messages[number];
            const y = sent < 0 ? 0 : this.foot(sent);
            const way = `data-flying="${number}" d="M${this.x(from)} ${y}L${this.x(to)} ${this.flightY(place)}"`;
            return `<path class="touch" ${way}><title>deliver message ${number}</title></path><path class="air ${styleOf(words[0])}" ${way}/>`;
        });
    }

    svg() {
        const height = this.height + this.flightsHeight();
        return super.svg().replace(` height="${this.height}" role`, ` height="${height}" role`)
            .replace("</svg>", `<path class="horizon" d="M0 ${this.height}H${this.width}"/>${this.air().join("")}</svg>`);
    }
}
