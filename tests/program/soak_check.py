"""Draws the lines of `soak SEED COUNT` by the rule, apart from the program, plays them through `replay`, and compares the summary of
`soak` with what `replay` put out.
  ./nozhgiva test soak SEED COUNT [FILE]     FILE keeps the schedule
Each line rests on what the lines before it came to: how many messages there are, and which requests were answered. So the lines go to
`replay` one by one, and the next is drawn once the program waits for it (Linux: /proc)."""

import hashlib
import subprocess
import sys
from typing import Dict, List

from nozhgiva_tools.run.built import or_end as program
from nozhgiva_tools.run.replays import Ended, Replay
from nozhgiva_tools.run.scripts import answer_help
from nozhgiva_tools.told.lines import applied_of, message_of, reply_of


class Soak:
    """Draws lines, and sums up what they come to."""

    def __init__(self, seed: int) -> None:
        self.x = seed
        self.n = 2 + self.draw() % 5
        self.answered: Dict[int, int] = {}
        self.messages = self.commits = self.view = self.done = self.kept_out = 0
        self.sum = hashlib.sha256()

    def draw(self) -> int:
        self.x = (self.x * 6364136223846793005 + 1442695040888963407) % 2**64
        return self.x >> 33

    def request(self) -> str:
        replica, client = self.draw() % self.n, 1 + self.draw() % 4
        if client not in self.answered:
            return f"request {replica} {client} 0 register"
        number = min(2**32 - 1, self.answered[client] + 1)
        kind, key = self.draw() % 3, self.draw() % 8
        operation = [f"put k{key} v", f"get k{key}", f"del k{key}"][kind]
        if kind == 0:
            operation += str(self.draw() % 1000)
        return f"request {replica} {client} {number} {operation}"

    def line(self) -> str:
        kind = self.draw() % 64
        if kind < 10:
            return self.request()
        if kind < 42:
            if not self.messages:
                return "deliver 0"
            return f"deliver {self.messages - 1 - self.draw() % min(self.messages, 16)}"
        if kind < 61:
            return f"{'tick' if kind < 56 else 'stop' if kind == 56 else 'start'} {self.draw() % self.n}"
        replica, sector = self.draw() % self.n, self.draw() % 1424
        return f"{['damage', 'stale', 'unread'][kind - 61]} {replica} {sector}"

    def hear(self, outputs: List[str]) -> None:
        self.sum.update("".join(f"{line}\n" for line in outputs).encode())
        for line in outputs:
            words = line.split()
            self.messages += message_of(words) is not None
            self.commits += applied_of(words) is not None
            self.done += line == "done"
            self.kept_out += line == "kept out"
            # Whoever enters a view says so to all others, and whoever is recovered tells its view.
            if words[0] in ("send", "start") and "view" in words:
                self.view = max(self.view, int(words[words.index("view") + 1]))
            reply = reply_of(words)
            if reply is not None and reply.words[0] == "op":
                self.answered[reply.client] = max(reply.request, self.answered.get(reply.client, 0))

    def summary(self, count: int) -> str:
        return (f"events {count}\nmessages {self.messages}\ncommits {self.commits}\nview {self.view}\ndone {self.done}\n"
                f"kept out {self.kept_out}\nsum {self.sum.hexdigest()[:32]}\n")


def main() -> None:
    answer_help()
    if len(sys.argv) not in (3, 4) or not (sys.argv[1] + sys.argv[2]).isdigit() or not int(sys.argv[2]) or sys.argv[-1].startswith("-"):
        print(__doc__, file=sys.stderr)
        sys.exit(2)
    seed, count = int(sys.argv[1]), int(sys.argv[2])
    replay, soak = Replay(program()), Soak(seed)
    lines = [f"cluster {soak.n}"]
    try:
        replay.play(lines[0])
        for _ in range(count):
            lines.append(soak.line())
            soak.hear(replay.play(lines[-1]))
    except Ended as ended:
        sys.exit(f"replay ended with {ended.status} at: {lines[-1]}")
    status, said = replay.end()
    if status:
        sys.exit(f"replay ended with {status}: {said}")
    if len(sys.argv) > 3:
        with open(sys.argv[3], "w") as file:
            file.write("".join(line + "\n" for line in lines))
    made = subprocess.run([program(), "soak", str(seed), str(count)], stdout=subprocess.PIPE, check=True, text=True).stdout
    if made != soak.summary(count):
        sys.exit(f"soak wrote\n{made}and replay's outputs come to\n{soak.summary(count)}")
    print(made, end="")


if __name__ == "__main__":
    main()
