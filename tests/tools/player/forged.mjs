// The watch on forged outputs: of each row which promises it finds broken, as JSON. Each row begins as three replicas that commit operation 1.
import { parts } from "./parts.mjs";

const ONE = [
    "send 0 0 1 prepare view 0 op 1 made 0 commit 0", "send 1 0 2 prepare view 0 op 1 made 0 commit 0", "send 2 1 0 prepare_ok view 0 op 1 made 0",
    "commit 0 op 1 view 0 client 7 request 0 register", "reply 0 client 7 request 0 op 1 session",
];
const TWO = [
    "send 3 0 1 prepare view 0 op 2 made 0 commit 1", "send 4 1 0 prepare_ok view 0 op 2 made 0", "commit 0 op 2 view 0 client 7 request 1 put a b",
];
const TWICE = [
    "send 5 0 1 prepare view 0 op 3 made 0 commit 2", "send 6 1 0 prepare_ok view 0 op 3 made 0", "commit 0 op 3 view 0 client 7 request 1 put a b",
];
const QUORUM_OF_VIEW_1 = ["send 0 1 2 prepare view 1 op 1 made 1 commit 0", "send 1 2 1 prepare_ok view 1 op 1 made 1"];
const CHOOSES = (head) => `choose 1 view 1 log 0 commit 0 head ${head} own -`;

// What is forged, the outputs, and the promises that they break.
const ROWS = [
    ["nothing", [...ONE, ...TWO, "reply 0 client 7 request 1 op 2 ok", "commit 1 op 1 view 0 client 7 request 0 register"], []],
    ["a stored answer, old, gap and evicted", [...ONE, ...TWO, "reply 0 client 7 request 1 op 2 ok", "reply 0 client 7 request 0 old", "reply 0 client 7 request 5 gap", "reply 0 client 8 request 1 evicted"], []],
    ["a log that ends above what is committed", [...ONE, CHOOSES(1)], []],
    ["a request that stands in the log twice", [...ONE, ...TWO, "reply 0 client 7 request 1 op 2 ok", ...TWICE], []],
    ["another operation at a number", [...ONE, "commit 1 op 1 view 0 client 8 request 0 register"], ["lines"]],
    ["two quorums at a number", [...QUORUM_OF_VIEW_1, "send 3 1 0 prepare view 1 op 1 made 0 commit 0", "send 4 2 1 prepare_ok view 1 op 1 made 0"], ["one"]],
    ["a commit without an acknowledgement", [...ONE.slice(0, 2), ...ONE.slice(3)], ["rests"]],
    ["a commit number too high", [...ONE, "send 3 0 1 commit view 0 op 2 commit 2"], ["rests"]],
    ["a commit number in a view before that of the quorum", [...QUORUM_OF_VIEW_1, "send 2 0 1 commit view 0 op 1 commit 1"], ["rests"]],
    ["a wrong outcome", [...ONE, ...TWO, "reply 0 client 7 request 1 op 2 absent"], ["replies"]],
    ["another client's operation", [...ONE, ...TWO, "reply 0 client 8 request 1 op 2 ok"], ["replies"]],
    ["evicted without an eviction", [...ONE, "reply 0 client 7 request 1 evicted"], ["replies"]],
    ["old that is to come", [...ONE, ...TWO, "reply 0 client 7 request 2 old"], ["replies"]],
    ["an answer of what isn't in the log", [...ONE, "reply 0 client 7 request 1 op 2 ok"], ["replies"]],
    ["a request executed as two numbers", [...ONE, ...TWO, "reply 0 client 7 request 1 op 2 ok", ...TWICE, "reply 0 client 7 request 1 op 3 ok"], ["once", "replies"]],
    ["a committed entry, prepared as another one", [...ONE, "send 3 1 2 prepare view 1 op 1 made 1 commit 0"], ["kept"]],
    ["a committed entry, cut off", [...ONE, CHOOSES(0)], ["cut", "kept"]],
    ["an entry that was cut off, committed", [...ONE, "send 3 0 1 prepare view 0 op 2 made 0 commit 1", CHOOSES(1), "send 4 1 0 prepare_ok view 0 op 2 made 0"], ["cut", "kept"]],
    ["a cut of what two vouch for", ["send 0 0 1 prepare view 0 op 2 made 0 commit 0", "send 1 1 0 prepare_ok view 0 op 2 made 0", CHOOSES(1)], ["cut"]],
];

function broken(outputs) {
    const watch = new parts.Watch(parts.groupOf("cluster 3"));
    watch.hear(outputs);
    return [...new Set(watch.broken.map((one) => one.promise))].sort();
}

console.log(JSON.stringify(ROWS.map(([name, outputs, wanted]) => ({ name, wanted, broken: broken(outputs) }))));
