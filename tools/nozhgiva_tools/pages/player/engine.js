// The program's WebAssembly module at work: what it reads is given to it line by line, and where the module can be kept waiting in a read
// (Asyncify), it waits there for the next line; else a run reads all its lines and ends. Nothing here touches the page.
"use strict";

// What the program calls of the system, of which `replay` and `soak` need seven. The others are refused; these of them answer 64 bits.
const LONG_ANSWERS = new Set(["readlink", "pwrite", "pread", "sendto", "send", "recvfrom", "recv", "rattle_lookup_host", "rattle_epoll_wait", "rattle_env", "rattle_env_at"]);
const KEPT_STACK = 1 << 16;
// At its start the program looks whether a standard stream is missing, by the number of a descriptor that it opens: 0 to 2 aren't free here.
const FIRST_FREE = 3;
const ENDINGS = { 0: "", 2: "usage", 3: "refused", 5: "read fault", 6: "write fault", 11: "no memory" };

const spell = (text) => new TextEncoder().encode(text);

// One run of the program, with these words after its name.
class Program {
    constructor(module, ...words) {
        this.words = ["nozhgiva", ...words].map(spell);
        this.waiting = [];
        this.piece = new Uint8Array(0);
        this.said = "";
        this.outputs = [];
        this.status = null;
        this.isKept = false;
        this.isClosed = false;
        this.instance = new WebAssembly.Instance(module, { env: this.imports(module) });
        this.exports = this.instance.exports;
        this.canWait = "asyncify_start_unwind" in this.exports;
    }

    imports(module) {
        const given = {
            rattle_arg: (at, to, room) => this.giveWord(Number(at), to, room),
            read: (file, to, room) => this.read(to, room),
            write: (file, from, count) => this.write(file, from, count),
            readlink: () => -1n,
            __sysv_signal: () => 0n,
            epoll_create1: () => FIRST_FREE,
            close: () => 0,
        };
        const imports = {};
        for (const { name, kind } of WebAssembly.Module.imports(module)) {
            if (kind === "function") imports[name] = given[name] || (() => (LONG_ANSWERS.has(name) ? -1n : -1));
        }
        return imports;
    }

    bytes(at, count) {
        return new Uint8Array(this.exports.memory.buffer, Number(at), Number(count));
    }

    giveWord(at, to, room) {
        const word = this.words[at];
        if (!word) return -1n;
        if (word.length > Number(room)) return -2n;
        this.bytes(to, word.length).set(word);
        return BigInt(word.length);
    }

    // The next line that waits, at most one at a read, so that what is written before the next read is of this line.
    read(to, room) {
        if (this.isKept) {
            this.exports.asyncify_stop_rewind();
            this.isKept = false;
        }
        if (this.piece.length === 0 && this.waiting.length > 0) {
            this.piece = spell(this.waiting.shift());
            this.outputs.push("");
        }
        if (this.piece.length === 0 && this.canWait && !this.isClosed) return this.keepWaiting();
        const count = Math.min(Number(room), this.piece.length);
        this.bytes(to, count).set(this.piece.subarray(0, count));
        this.piece = this.piece.subarray(count);
        return BigInt(count);
    }

    // Leaves the program in its read; its stack is kept in memory.
    keepWaiting() {
        const area = Number(this.exports.kept_stack());
        const ends = new DataView(this.exports.memory.buffer);
        ends.setInt32(area, area + 8, true);
        ends.setInt32(area + 4, area + KEPT_STACK, true);
        this.exports.asyncify_start_unwind(area);
        this.isKept = true;
        return 0n;
    }

    write(file, from, count) {
        const text = new TextDecoder().decode(this.bytes(from, count));
        if (file === 2) this.said += text;
        else if (this.outputs.length > 0) this.outputs[this.outputs.length - 1] += text;
        else this.outputs.push(text);
        return count;
    }

    run() {
        if (this.isKept) this.exports.asyncify_start_rewind(Number(this.exports.kept_stack()));
        const status = this.exports.main(this.words.length, 0n);
        if (this.isKept) this.exports.asyncify_stop_unwind();
        else this.status = status;
    }

    // Plays lines, and gives the text that each of them came to. A program that can't wait ends behind them.
    play(lines) {
        this.outputs = [];
        this.waiting.push(...lines.map((line) => `${line}\n`));
        if (lines.length > 0 && this.status === null) this.run();
        return this.outputs.slice(0, lines.length);
    }

    // No more lines come: the program ends.
    close() {
        this.isClosed = true;
        this.outputs = [];
        if (this.status === null) this.run();
        return this.outputs.join("");
    }

    ending() {
        return this.status === null ? "" : this.said.trim() || ENDINGS[this.status] || `status ${this.status}`;
    }
}

// A schedule as it is played: the lines that the program has taken, with what each came to.
class Player {
    constructor(module) {
        this.module = module;
        this.lines = [];
        this.texts = [];
        this.program = null;
    }

    // Makes these the lines, and says what they came to: outputs of the lines from `since` on, and why the first that wasn't taken was refused.
    become(lines) {
        let since = 0;
        while (since < lines.length && since < this.lines.length && lines[since] === this.lines[since]) since += 1;
        const goesOn = this.program !== null && this.program.status === null && since === this.lines.length;
        const ending = goesOn ? this.feed(lines, since) : this.feedAnew(lines);
        return { since, texts: this.texts.slice(since), taken: this.lines.length, ending, anew: !goesOn };
    }

    feedAnew(lines) {
        this.program = new Program(this.module, "replay");
        this.lines = [];
        this.texts = [];
        return this.feed(lines, 0);
    }

    feed(lines, since) {
        const texts = this.program.play(lines.slice(since));
        const ended = this.program.status;
        const refused = ended !== null && ended !== 0;
        const taken = refused ? Math.max(texts.length - 1, 0) : texts.length;
        this.lines = lines.slice(0, since + taken);
        this.texts.push(...texts.slice(0, taken));
        return refused ? this.program.ending() : "";
    }
}

// A whole run of a command: what it writes, and its status.
function wholeRun(module, words, lines = []) {
    const program = new Program(module, ...words);
    program.isClosed = true;
    program.waiting = lines.map((line) => `${line}\n`);
    program.run();
    return { text: program.outputs.join(""), status: program.status, said: program.said };
}
