// The lines that `soak` makes of a number (docs/SCHEDULE.md), drawn here one by one, since each rests on what the lines before came to.
"use strict";

const RANGE = 1n << 64n;
const SOAK_SECTORS = 1424;

class Soak {
    constructor(seed) {
        this.x = BigInt(seed);
        this.size = 2 + this.draw(5);
        this.answered = new Map();
        this.messages = 0;
    }

    draw(below) {
        this.x = (this.x * 6364136223846793005n + 1442695040888963407n) % RANGE;
        return Number((this.x >> 33n) % BigInt(below));
    }

    first() {
        return `cluster ${this.size}`;
    }

    request() {
        const replica = this.draw(this.size);
        const client = 1 + this.draw(4);
        if (!this.answered.has(client)) return `request ${replica} ${client} 0 register`;
        const number = Math.min(2 ** 32 - 1, this.answered.get(client) + 1);
        const kind = this.draw(3);
        const key = `k${this.draw(8)}`;
        const operation = kind === 0 ? `put ${key} v${this.draw(1000)}` : `${kind === 1 ? "get" : "del"} ${key}`;
        return `request ${replica} ${client} ${number} ${operation}`;
    }

    next() {
        const kind = this.draw(64);
        if (kind < 10) return this.request();
        if (kind < 42) return this.messages === 0 ? "deliver 0" : `deliver ${this.messages - 1 - this.draw(Math.min(this.messages, 16))}`;
        if (kind < 56) return `tick ${this.draw(this.size)}`;
        if (kind < 61) return `${kind === 56 ? "stop" : "start"} ${this.draw(this.size)}`;
        const replica = this.draw(this.size);
        return `${["damage", "stale", "unread"][kind - 61]} ${replica} ${this.draw(SOAK_SECTORS)}`;
    }

    // What the line came to; of lines that a person put between them, too.
    hear(outputs) {
        for (const output of outputs) {
            const words = output.split(" ");
            if (words[0] === "send") this.messages += 1;
            if (words[0] === "reply" && words[6] === "op") {
                const [client, number] = [Number(words[3]), Number(words[5])];
                this.answered.set(client, Math.max(number, this.answered.get(client) || 0));
            }
        }
    }
}
