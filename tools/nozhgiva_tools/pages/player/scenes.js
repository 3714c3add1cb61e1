// The tour: six scenes. Each plays lines with words to them, and asks the reader for the last step.
"use strict";

const SETTLED = ["cluster 3", "request 0 7 0 register", "deliver 0", "deliver 1", "deliver 2", "deliver 3"];

// Two replicas that have put a value 32 times, so that each has a checkpoint, and once more.
function withCheckpoint() {
    const lines = ["cluster 2", "request 0 7 0 register", "deliver 0", "deliver 1"];
    for (let number = 1; number <= 32; number += 1) lines.push(`request 0 7 ${number} put color ${number % 2 ? "green" : "blue"}`, `deliver ${2 * number}`, `deliver ${2 * number + 1}`);
    return lines;
}

const SCENES = [
    {
        title: "A put",
        steps: [
            { lines: ["cluster 3"], text: "Three replicas, each with a disk of its own. They count views; in view 0 replica 0 leads." },
            { lines: ["request 0 7 0 register"], text: "Client 7 asks for a session. Replica 0 writes the operation to its disk as number 1, and sends a prepare to each of the others. The two moving arrows are these messages: they are in your hands." },
            { lines: ["deliver 0"], text: "You delivered one. Replica 1 has written the operation too, and acknowledges it. The other prepare may take as long as it likes." },
            { lines: ["deliver 2"], text: "With the acknowledgement two of three have it: a quorum. So operation 1 is committed and applied, and the client hears that it has a session. At the right the log has its first line." },
            { lines: ["request 0 7 1 put color green"], text: "Now the client puts a value. Two prepares again, and they tell that operation 1 is committed." },
            { lines: ["deliver 3"], text: "Replica 1 has the put, and has applied operation 1. One message is missing for the client to hear `ok`." },
        ],
        ask: "Your step: bring the acknowledgement of replica 1 (message 5) to replica 0.",
        hint: "deliver 5", wants: /^reply 0 client 7 request 1 op 2 ok$/,
        end: "Committed, applied, answered. Replica 2 has heard of nothing yet, and nobody had to wait for it.",
    },
    {
        title: "A lost primary",
        steps: [
            { lines: SETTLED, text: "Operation 1 is committed, and replica 2 has it as well." },
            { lines: ["request 0 7 1 put color green"], text: "Replica 0 takes a put as operation 2, and sends its prepares." },
            { lines: ["stop 0"], lost: [4, 5], text: "Both prepares are lost, and replica 0 stops. The client was told nothing: the put isn't committed." },
            { lines: ["tick 1", "tick 1", "tick 1", "tick 1", "tick 1"], text: "Time goes by at replica 1. At its fifth tick without a word from the primary it enters view 1, which it leads, and says so." },
            { lines: ["deliver 7"], lost: [6, 8, 9], text: "Replica 2 enters view 1 too, and states what it has: h, operation 1 is here. Replica 1 needs the statements of two of three, its own among them." },
        ],
        ask: "Your step: bring replica 2's statement (message 10, do_view_change) to replica 1.",
        hint: "deliver 10", wants: /^choose 1 view 1 .* head 1 /,
        end: "Replica 1 has chosen a log: it ends at 1. The put that reached nobody is gone, and that breaks no promise: nobody was told that it was done. Operation 1, which was committed, stays for good.",
    },
    {
        title: "A torn write",
        steps: [
            { lines: ["cluster 3", "request 0 7 0 register"], text: "Operation 1 is on its way to the others." },
            { lines: ["fuse 1 3 26"], text: "A fuse: replica 1 will stop at the third write of its disk, in the midst of the prepare. The code 26 says that the three sectors written so far are left damaged." },
            { lines: ["deliver 0"], text: "The message comes, replica 1 begins to write, and is cut. It put out nothing but this: it acknowledged nothing." },
            { lines: ["start 1"], text: "It is recovered from that disk. The header of the operation was never written, so it knows that it has acknowledged nothing there." },
            { lines: ["tick 1", "tick 1", "tick 1", "tick 1", "tick 1", "deliver 3"], lost: [1, 2, 4, 5], text: "It hears no more of replica 0, enters view 1, and replica 2 follows it, with the statement that it has nothing." },
        ],
        ask: "Your step: bring that statement (message 6) to replica 1.",
        hint: "deliver 6", wants: /^choose 1 view 1 .* head 0 /,
        end: "The log is empty: two of three deny operation 1, and so it can't have been committed. Half a write never counts as one, and never stands in the way.",
    },
    {
        title: "A damaged copy isn't denied",
        steps: [
            { lines: ["cluster 3", "request 0 7 0 register", "deliver 0"], text: "Replica 1 has operation 1, and has acknowledged it. Its acknowledgement is under way: with it the operation will be committed." },
            { lines: ["stop 1", "damage 1 81", "damage 1 148", "start 1"], text: "Replica 1 stops, and both places of the operation on its disk go bad: the header in sector 81, the prepare in sector 148. It starts again, and can't tell what was there." },
            { lines: ["stop 0", "tick 1", "tick 1", "tick 1", "tick 1", "tick 1", "deliver 4"], lost: [1, 2, 5, 6], text: "Replica 0 stops. Replica 1 enters view 1, and replica 2 states that it never had anything." },
            { lines: ["deliver 7"], text: "It has two statements of three, and yet it waits: replica 2 denies operation 1, replica 1 can't. With replica 0 that would be two that had it, and it may be committed. A forgetful system would end the log here." },
            { lines: ["start 0", "deliver 3"], lost: [8, 9], text: "Replica 0 comes back, and states that it has operation 1." },
        ],
        ask: "Your step: bring the statement of replica 0 (message 10) to replica 1.",
        hint: "deliver 10", wants: /^choose 1 view 1 .* head 1 /,
        end: "Now operation 1 is in the log. Tick replica 1, and it asks for the copy that it lost.",
    },
    {
        title: "A nack cuts a log",
        steps: [
            { lines: SETTLED, text: "Operation 1 is committed, and all three have it." },
            { lines: ["request 0 7 1 put color red", "stop 0"], lost: [4, 5], text: "A put reached replica 0 alone, which stops. Its prepares are lost." },
            { lines: ["damage 0 82", "damage 0 152", "start 0"], text: "Both places of operation 2 on its disk go bad. Replica 0 is recovered: it may have had something there, and can't tell what (u, unknown)." },
            { lines: ["deliver 6", "deliver 8"], text: "Replicas 0 and 1 enter view 1, and replica 0 states what it knows." },
            { lines: ["deliver 10"], text: "Replica 1 waits at operation 2: it has none itself, a nack; replica 0 doesn't deny it. One nack isn't enough: it takes two of three, so that too few are left for a quorum." },
            { lines: ["deliver 9"], lost: [7, 11, 12], text: "Replica 2 enters view 1 as well, and states that it has operation 1, and nothing after it." },
        ],
        ask: "Your step: bring this second nack (message 13) to replica 1.",
        hint: "deliver 13", wants: /^choose 1 view 1 .* head 1 /,
        end: "Two deny operation 2, so it can't have been committed: the log is cut after 1. Look at “Cut by denial alone” at the right.",
    },
    {
        title: "A peer repairs a block",
        steps: [
            { lines: withCheckpoint(), text: "33 operations went by. At the 32nd each replica wrote its state to blocks on its disk: a checkpoint." },
            { lines: ["damage 1 912"], text: "A block of replica 1's checkpoint goes bad: its root, at sector 912. (The picture of its disk has it as block 64.)" },
            { lines: ["stop 1", "start 1"], text: "It stops and starts. It can't read its checkpoint, so it has no state, and applies nothing." },
            { lines: ["tick 0", "deliver 66"], text: "Replica 0 tells it that 33 operations are committed. It would have to apply the last one, and can't." },
            { lines: ["tick 1"], text: "At its tick it asks replica 0 for the block." },
            { lines: ["deliver 67"], text: "Replica 0 gives it. The block is known by its name, a hash: another one wouldn't be taken." },
        ],
        ask: "Your step: bring the block (message 68) to replica 1.",
        hint: "deliver 68", wants: /^commit 1 op 33 /,
        end: "The block is written, the checkpoint is loaded, and operation 33 is applied: replica 1 has the same keys as replica 0 again.",
    },
];
