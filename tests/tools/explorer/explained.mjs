// The rules that the explorer's page names for each step of a run, which is read from standard input, as JSON on standard output.
import fs from "node:fs";
import path from "node:path";
import vm from "node:vm";
import { fileURLToPath } from "node:url";

const EXPLORER = path.join(path.dirname(fileURLToPath(import.meta.url)), "..", "..", "..", "tools", "nozhgiva_tools", "pages", "explorer");
const text = ["run.js", "explain.js"].map((name) => fs.readFileSync(path.join(EXPLORER, name), "utf8").replace('"use strict";\n', "")).join("\n");
const parts = vm.runInThisContext(`"use strict";\n(() => {\n${text}\nreturn { messagesOf, explainStep };\n})()`);
const run = JSON.parse(fs.readFileSync(0, "utf8"));
const messages = parts.messagesOf(run);
process.stdout.write(JSON.stringify(run.steps.map((_, at) => parts.explainStep(run, messages, at).fit)));
