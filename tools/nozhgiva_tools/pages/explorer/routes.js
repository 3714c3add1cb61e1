// The ways of arrows between the words of a picture: straight where no words stand in the way, else along the free strip under a row and the free
// channel left of a lane.
"use strict";

const TRACK = 4;

class Routes {
    constructor(lanes) {
        this.lanes = lanes;
        this.tracks = lanes.run.size === 0 ? [] : Array.from({ length: lanes.run.size }, () => Array.from({ length: TRACKS }, () => []));
    }

    // The boxes of words beside the lanes in a row.
    boxes(at) {
        const { lanes } = this;
        const { y, height } = lanes.rows[at];
        return lanes.labels[at].map((label) => {
            const x = lanes.x(label.replica) + 12;
            return { x, y: y + 4, right: x + 6 + LETTER * Math.max(...label.lines.map((line) => line.text.length)), bottom: y + height - 6 };
        });
    }

    // Whether the straight line meets words.
    meets(x, y, toX, toY, from, to) {
        const xAt = (height) => x + (toX - x) * ((height - y) / (toY - y));
        for (let at = from; at <= to; at += 1) {
            for (const box of this.boxes(at)) {
                const [top, bottom] = [Math.max(box.y, y), Math.min(box.bottom, toY)];
                if (top > bottom) continue;
                const ends = [xAt(top), xAt(bottom)];
                if (Math.min(...ends) < box.right && Math.max(...ends) > box.x) return true;
            }
        }
        return false;
    }

    // A place in the channel left of a lane that no other arrow has at these heights; the outermost one where all are taken.
    track(lane, from, to) {
        const all = this.tracks[lane];
        const free = all.findIndex((taken) => taken.every(([top, bottom]) => to < top || from > bottom));
        const number = free < 0 ? TRACKS - 1 : free;
        all[number].push([from, to]);
        return this.lanes.x(lane) - 9 - TRACK * number;
    }

    path(message, at) {
        const { lanes } = this;
        const [x, toX, toY] = [lanes.x(message.from), lanes.x(message.to), lanes.y(at)];
        const y = lanes.labels[message.sent].some((label) => label.replica === message.from) ? lanes.foot(message.sent) : lanes.y(message.sent);
        const right = x < toX;
        const tip = toX + (right ? -5 : 5);
        if (!this.meets(x, y, tip, toY, message.sent, at)) return `M${x} ${y}L${tip} ${toY}`;
        if (right) {
            const channel = this.track(message.to, y, toY);
            return `M${x} ${y}H${channel - 3}l3 3V${toY - 3}l2 3H${toX - 5}`;
        }
        const strip = lanes.rows[at].y - 1;
        if (strip <= y + 4) return `M${x} ${y}H${toX + 14}L${toX + 5} ${toY - 2}`;
        const channel = this.track(message.from, y, strip);
        return `M${x} ${y}H${channel + 3}l-3 3V${strip - 3}l-3 3H${toX + 14}L${toX + 5} ${toY - 2}`;
    }
}
