// The page's parts that don't touch the page, for node.
import fs from "node:fs";
import path from "node:path";
import vm from "node:vm";
import { fileURLToPath } from "node:url";

const HERE = path.dirname(fileURLToPath(import.meta.url));
const PAGES = path.join(HERE, "..", "..", "..", "tools", "nozhgiva_tools", "pages");
const NAMES = ["explorer/run.js", "player/engine.js", "player/machine.js", "player/watch.js", "player/soak.js", "player/grammar.js", "player/share.js", "player/moves.js", "player/scenes.js"];
const WANTED = "Program, Player, wholeRun, PlainMachine, Watch, PROMISES, Soak, whyRefused, groupOf, addressOf, fromAddress, readSchedule, nextNumber, regionsOf, codeOf, SCENES";

const text = NAMES.map((name) => fs.readFileSync(path.join(PAGES, name), "utf8").replace('"use strict";\n', "")).join("\n");
export const parts = vm.runInThisContext(`"use strict";\n(() => {\n${text}\nreturn { ${WANTED} };\n})()`);
export const openProgram = (file) => new WebAssembly.Module(fs.readFileSync(file));
export const linesOf = (file) => fs.readFileSync(file, "ascii").split("\n").filter((line) => /^[a-z]/.test(line));
