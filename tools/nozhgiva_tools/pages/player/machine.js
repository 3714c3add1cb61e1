// The plain sessions and the plain machine (docs/STATE.md): what the entries of a log come to, one after the other. Nothing here touches the page.
"use strict";

const SESSIONS_LEFT = { 1: 32, 2: 64 };
const KEYS_HELD = 128;

class PlainMachine {
    constructor() {
        this.sessions = new Map();
        this.keys = new Map();
        this.past = new Map();
        this.answers = [];
    }

    // The next entry of the log: `answer` is fresh, old, gap, evicted or again; a fresh one has an outcome.
    apply({ client, request, operation, version }) {
        const op = this.answers.length + 1;
        const answer = this.says(client, request, op - 1);
        let outcome = null;
        if (answer === "fresh") {
            outcome = operation[0] === "register" ? this.register(client, op, version) : this.execute(operation);
            this.note(client, op, { request, op });
        }
        this.answers.push({ client, request, answer, outcome, session: this.sessions.get(client)?.since });
    }

    register(client, op, version) {
        if (this.sessions.size >= SESSIONS_LEFT[version]) {
            const [oldest] = [...this.sessions].reduce((one, other) => (other[1].op < one[1].op ? other : one));
            this.sessions.delete(oldest);
            this.remember(oldest, op, null);
        }
        this.sessions.set(client, { since: op });
        return "session";
    }

    execute([name, key, value]) {
        if (name === "get") return this.keys.has(key) ? `value ${this.keys.get(key)}` : "absent";
        if (name === "del") return this.keys.delete(key) ? "ok" : "absent";
        if (!this.keys.has(key) && this.keys.size >= KEYS_HELD) return "full";
        this.keys.set(key, value);
        return "ok";
    }

    note(client, op, latest) {
        const session = { ...this.sessions.get(client), ...latest };
        this.sessions.set(client, session);
        this.remember(client, op, session);
    }

    remember(client, op, session) {
        if (!this.past.has(client)) this.past.set(client, []);
        this.past.get(client).push({ op, session });
    }

    // What the sessions say to a request after the first `count` entries.
    says(client, request, count) {
        const session = (this.past.get(client) || []).findLast((one) => one.op <= count)?.session;
        if (!session) return request === 0 ? "fresh" : "evicted";
        if (request === session.request) return "again";
        if (request < session.request) return "old";
        return request === session.request + 1 ? "fresh" : "gap";
    }
}
