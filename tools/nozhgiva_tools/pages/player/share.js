// A schedule in the page's address, and as a file.
"use strict";

const ADDRESS_KEEPS = 400;

async function squeezed(bytes, Kind) {
    return new Uint8Array(await new Response(new Blob([bytes]).stream().pipeThrough(new Kind("deflate-raw"))).arrayBuffer());
}

// The part of an address behind `#`: the lines, which line is shown where it isn't the last, and which messages were given up.
async function addressOf({ lines, at, lost }) {
    const bytes = await squeezed(new TextEncoder().encode(lines.join("\n")), CompressionStream);
    const text = btoa(Array.from(bytes, (byte) => String.fromCharCode(byte)).join("")).replaceAll("+", "-").replaceAll("/", "_").replaceAll("=", "");
    return `s=${text}${at === lines.length - 1 ? "" : `&at=${at + 1}`}${lost.size === 0 ? "" : `&lost=${[...lost].join(".")}`}`;
}

// What an address says; null where it says nothing, or nothing that can be read.
async function fromAddress(text) {
    const words = new URLSearchParams(text);
    if (!words.get("s")) return null;
    try {
        const bytes = Uint8Array.from(atob(words.get("s").replaceAll("-", "+").replaceAll("_", "/")), (letter) => letter.charCodeAt(0));
        const lines = new TextDecoder().decode(await squeezed(bytes, DecompressionStream)).split("\n");
        const lost = (words.get("lost") || "").split(".").filter((word) => /^[0-9]+$/.test(word)).map(Number);
        return { lines, at: Number(words.get("at") || lines.length) - 1, lost: new Set(lost) };
    } catch {
        return null;
    }
}

// The lines of a text with comments and outputs between them, the comment above each, and the line that it is about, where a comment `# at N` says so.
function readSchedule(text) {
    const lines = [];
    const notes = new Map();
    let note = [];
    let at = null;
    for (const line of text.replaceAll("\r\n", "\n").split("\n")) {
        const about = /^# at ([0-9]+)$/.exec(line);
        if (about) at = Number(about[1]) - 1;
        else if (line.startsWith("#")) note.push(line.replace(/^#+ ?/, ""));
        else if (line.trim() !== "" && !line.startsWith("  ")) {
            if (note.length > 0) notes.set(lines.length, note.join(" "));
            note = [];
            lines.push(line);
        }
    }
    return { lines, notes, at };
}
