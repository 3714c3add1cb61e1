// What the page's worker does: it holds the program, and answers one question after the other.
"use strict";

let player = null;

const ANSWERS = {
    async begin({ bytes }) {
        const opened = new Response(new Blob([bytes]).stream().pipeThrough(new DecompressionStream("gzip")));
        const module = await WebAssembly.compile(await opened.arrayBuffer());
        player = new Player(module);
        return { waits: WebAssembly.Module.exports(module).some((one) => one.name === "asyncify_start_unwind") };
    },
    become: ({ lines }) => player.become(lines),
    wholeRun: ({ words, lines }) => wholeRun(player.module, words, lines),
};

onmessage = async ({ data }) => {
    const began = performance.now();
    try {
        const answer = await ANSWERS[data.what](data);
        postMessage({ id: data.id, answer, ms: performance.now() - began });
    } catch (error) {
        if (player) player.program = null;
        postMessage({ id: data.id, error: String(error), ms: performance.now() - began });
    }
};
