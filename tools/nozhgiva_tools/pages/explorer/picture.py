"""A run as one picture: rows go down, each replica is a lane, and arrows run between the words."""

import re
from html import escape
from typing import Callable, Dict, List, NamedTuple, Optional, Set, Tuple

from .reading import ShownRun, ShownStep

MOST_STEPS = 2_000
TOP = 74
LINE = 16  # from one line of words to the next
LETTER = 7.3
BESIDE = 20  # from a lane to its words
CHANNEL = 24  # left of a lane, where arrows run and no words stand
TRACKS = 3
STRIP = 14  # above a row's middle, where arrows run
NARROWEST = 120
MOST_LETTERS = 64
MOST_OF_LINE = 44
FONT = "ui-monospace, SFMono-Regular, Menlo, Consolas, monospace"
INK, FAINT, GROUND = "#1d1d1f", "#5f5e5a", "#ffffff"
COLOURS = {"normal": "#1554a3", "change": "#a33a00", "repair": "#6d4a86", "client": "#0d6b52", "commit": "#1d6b25", "bad": "#ad1f2d", "ink": INK, "faint": FAINT}
DASHES = {"change": "7 4", "repair": "2 3", "client": "8 3 2 3"}
STYLES = {
    "prepare": "normal", "prepare_ok": "normal", "commit": "normal",
    "start_view_change": "change", "do_view_change": "change", "start_view": "change", "get_view": "change",
}
KEY = (("normal", "prepares, acknowledgements, commit numbers"), ("change", "change of view"), ("repair", "repair"), ("client", "a client's request"))
MARKS = (("tick", "tick"), ("stop", "stops"), ("start", "starts"), ("view", "enters view 1"))
FAULTS = ("damage", "stale", "unread", "misdirect")


class Label(NamedTuple):
    """Words beside the lane of a replica."""

    replica: int
    text: str
    style: str
    bold: bool = False


class Row(NamedTuple):
    """A line of the schedule, or several that say the same, with what stands beside the lanes."""

    line: str
    y: float
    foot: float
    labels: List[Label]


def style_of(kind: str) -> str:
    return STYLES.get(kind, "repair")


def short(words: str) -> str:
    """What a message says, in fewer words."""
    words = re.sub(r" made \d+", "", words)
    words = re.sub(r"\bview (\d+)", r"v\1", words)
    return words.replace(" parts ", " ")


def cut(words: str, most: int) -> str:
    return words if len(words) <= most else words[:most - 1] + "…"


def label_of(output: str, step: ShownStep) -> Optional[Label]:
    """What stands beside the lane for an output, where it is no message."""
    words = output.split()
    kind = words[0]
    if kind == "commit":
        return Label(int(words[1]), "commit " + " ".join(words[2:4] + words[10:]), "commit", True)
    if kind == "reply":
        return Label(int(words[1]), f"reply {words[3]}: " + " ".join(words[6:]), "client", True)
    if kind in ("choose", "wait"):
        said = {"choose": "chooses", "wait": "waits for"}[kind]
        return Label(int(words[1]), short(output.replace(f"{kind} {words[1]}", said)), "change", True)
    if kind == "start":
        return Label(int(words[1]), short(output.replace(f"start {words[1]}", "starts,")), "commit")
    if kind == "migrated":
        return Label(int(words[1]), "its file is of version 2", "commit")
    if kind == "halt":
        return Label(int(words[1]), "halts", "bad", True)
    line = step["line"].split()
    return Label(int(line[1]), " ".join([line[0], "sector", *line[2:]]) + (", kept out" if output == "kept out" else ""), "bad") if line[0] in FAULTS else None


def labels_of(step: ShownStep) -> List[Label]:
    """What stands beside the lanes for a step; one message that goes to several is said once."""
    labels: List[Label] = []
    line = step["line"].split()
    if line[0] == "fuse":
        labels.append(Label(int(line[1]), f"fuse: call {line[2]}, code {line[3]}", "bad"))
    before: Tuple[str, ...] = ()
    for output in step["outputs"]:
        words = tuple(output.split())
        if words[0] != "send":
            label = label_of(output, step)
            labels += [label] if label else []
        elif words[4:] == before[4:] and words[2] == before[2]:
            labels[-1] = labels[-1]._replace(text=f"{labels[-1].text} {words[3]}")
        else:
            labels.append(Label(int(words[2]), f"{short(' '.join(words[4:]))} → {words[3]}", style_of(words[4])))
        before = words if words[0] == "send" else ()
    return [label._replace(text=cut(label.text, MOST_LETTERS)) for label in labels]


class Sent(NamedTuple):
    """A message: in which step and by whom it was sent, and to whom."""

    step: int
    sender: int
    to: int
    words: str


class Picture:
    """Draws a run as explorer/reading.py gives it."""

    def __init__(self, run: ShownRun) -> None:
        self.steps, self.size = run["steps"], run["size"]
        self.marks: List[str] = []
        self.rows: List[Row] = []  # of each step
        self.tracks: Dict[int, List[List[Tuple[float, float]]]] = {replica: [[] for _ in range(TRACKS)] for replica in range(self.size)}
        self.lay_out([labels_of(step) for step in self.steps])
        self.sent: List[Sent] = []
        self.stopped: Dict[int, float] = {}
        self.gaps: List[str] = []
        self.views = [0] * self.size
        self.used: Set[str] = set()
        for at, step in enumerate(self.steps):
            self.happen(at, step)

    # Where things stand.

    def lay_out(self, labels: List[List[Label]]) -> None:
        """Rows from top to bottom, of lines that repeat without a word one; lanes as far apart as their words need."""
        y = TOP
        for at, step in enumerate(self.steps):
            if self.repeats(at):
                times = 1 + sum(row.y == self.rows[-1].y for row in self.rows)
                same = self.rows[-1]._replace(line=f"{step['line']} ×{times}")
                self.rows = [same if row.y == same.y else row for row in self.rows] + [same]
                continue
            height = LINE * max(1, len(labels[at])) + 12
            self.rows.append(Row(step["line"], y, y + height - STRIP, labels[at]))
            y += height
        self.end = y
        longest = max(len(cut(row.line, MOST_OF_LINE)) for row in self.rows)
        widths = [max([len(label.text) for row in self.rows for label in row.labels if label.replica == replica], default=0) for replica in range(self.size)]
        self.lanes = [12 + LETTER * longest + 70]
        for width in widths[:-1]:
            self.lanes.append(self.lanes[-1] + max(NARROWEST, BESIDE + LETTER * width + CHANNEL + 8))
        self.width = max(self.lanes[-1] + max(NARROWEST, BESIDE + LETTER * widths[-1]) + 16, 760)

    def repeats(self, at: int) -> bool:
        step, before = self.steps[at], self.steps[at - 1]
        silent = not step["outputs"] and not before["outputs"]
        return at > 0 and silent and step["line"] == before["line"] and not step["line"].startswith("deliver")

    # What happens, step by step.

    def happen(self, at: int, step: ShownStep) -> None:
        row, words = self.rows[at], step["line"].split()
        if at == 0 or self.rows[at - 1] != row:
            self.text(12, row.y + 4, cut(row.line, MOST_OF_LINE), "faint")
        kind = words[0]
        if step["came"] and self.sent[step["came"][0]].to not in self.stopped:
            self.arrive(self.sent[step["came"][0]], at)
        elif kind == "request":
            self.used.add("client")
            self.path(f"M{self.lanes[0] - 50:.1f} {row.y}H{self.lanes[int(words[1])] - 5:.1f}", "client", step["line"])
        elif kind == "tick":
            self.used.add("tick")
            self.dot(int(words[1]), row.y, GROUND, FAINT)
        elif kind == "stop" and int(words[1]) not in self.stopped:
            self.end_lane(int(words[1]), row.y)
        elif kind == "start":
            self.begin_lane(int(words[1]), row.y)
        for output in step["outputs"]:
            self.put_out(at, output.split())
        for number, label in enumerate(row.labels):
            self.text(self.lanes[label.replica] + BESIDE, row.y + 4 + LINE * number, label.text, label.style, label.bold)

    def put_out(self, at: int, words: List[str]) -> None:
        if words[0] == "send":
            self.sent.append(Sent(at, int(words[2]), int(words[3]), " ".join(words[4:])))
            if words[4] == "start_view_change":
                self.enter(int(words[2]), int(words[6]), self.rows[at].y)
        elif words[0] == "start":
            self.views[int(words[1])] = int(words[3])
        elif words[0] == "halt":
            self.end_lane(int(words[1]), self.rows[at].y)

    def end_lane(self, replica: int, y: float) -> None:
        self.used.add("stop")
        self.marks.append(stop_mark(self.lanes[replica], y))
        self.stopped[replica] = y

    def begin_lane(self, replica: int, y: float) -> None:
        if replica in self.stopped:
            self.gap(replica, self.stopped.pop(replica), y)
            self.used.add("start")
            self.marks.append(start_mark(self.lanes[replica], y))

    def gap(self, replica: int, since: float, until: float) -> None:
        way = f"M{self.lanes[replica]:.1f} {since}V{until}"
        self.gaps.append(f'<path d="{way}" stroke="{GROUND}" stroke-width="3"/><path d="{way}" stroke="{FAINT}" stroke-width="1.5" stroke-dasharray="1 6"/>')

    def enter(self, replica: int, view: int, y: float) -> None:
        if self.views[replica] != view:
            self.used.add("view")
            self.views[replica] = view
            self.marks.append(view_mark(self.lanes[replica], y, view))

    # Arrows.

    def arrive(self, message: Sent, at: int) -> None:
        """An arrow: straight where no words stand in the way, else by the free strip under the words and the free channel left of a lane."""
        kind = message.words.split()[0]
        self.used.add(style_of(kind))
        self.path(self.way(message, at), style_of(kind), f"from {message.sender} to {message.to}: {message.words}")
        self.dot(message.to, self.rows[at].y, INK, INK)

    def way(self, message: Sent, at: int) -> str:
        x, to, y = self.lanes[message.sender], self.lanes[message.to], self.rows[at].y
        foot = self.rows[message.step].foot
        right, near = x < to, 19 if self.enters(at) else 6
        tip = to - near if right else to + near
        if not self.meets((x, foot), (tip, y), message.step, at):
            return f"M{x:.1f} {foot}L{tip:.1f} {y}"
        if right:
            channel = self.track(message.to, foot, y)
            return f"M{x:.1f} {foot}H{channel - 3:.1f}l3 3V{y - 3}l{1 if near > 6 else 2} 3H{to - near:.1f}"
        strip = y - STRIP
        end = f"{to + 9:.1f} {y - 10}" if near > 6 else f"{to + 6:.1f} {y - 2}"
        if strip <= foot + 4:
            return f"M{x:.1f} {foot}H{to + 16:.1f}L{end}"
        channel = self.track(message.sender, foot, strip)
        return f"M{x:.1f} {foot}H{channel + 3:.1f}l-3 3V{strip - 3}l-3 3H{to + 16:.1f}L{end}"

    def enters(self, at: int) -> bool:
        """Whether a replica enters a view in a step, which stands on its lane."""
        sent = [output.split() for output in self.steps[at]["outputs"] if " start_view_change " in output]
        return any(self.views[int(words[2])] != int(words[6]) for words in sent)

    def meets(self, start: Tuple[float, float], end: Tuple[float, float], first: int, last: int) -> bool:
        """Whether the straight line meets words."""
        (x, y), (to_x, to_y) = start, end
        for row in self.rows[first:last + 1]:
            for number, label in enumerate(row.labels):
                left = self.lanes[label.replica] + BESIDE - 5
                top, bottom = max(row.y - 8 + LINE * number, y), min(row.y + 8 + LINE * number, to_y)
                if top <= bottom:
                    ends = [x + (to_x - x) * (height - y) / (to_y - y) for height in (top, bottom)]
                    if min(ends) < left + LETTER * len(label.text) + 8 and max(ends) > left:
                        return True
        return False

    def track(self, lane: int, since: float, until: float) -> float:
        """A place in the channel left of a lane that no other arrow has at these heights; the outermost one where all are taken."""
        taken = self.tracks[lane]
        number = next((place for place, ways in enumerate(taken) if all(until < top or since > bottom for top, bottom in ways)), TRACKS - 1)
        taken[number].append((since, until))
        return self.lanes[lane] - 12 - 5 * number

    # What is written.

    def text(self, x: float, y: float, words: str, style: str, bold: bool = False) -> None:
        weight = ' font-weight="bold"' if bold else ""
        self.marks.append(f'<text x="{x:.1f}" y="{y}" fill="{COLOURS[style]}"{weight}>{escape(words)}</text>')

    def dot(self, replica: int, y: float, fill: str, line: str) -> None:
        self.marks.append(f'<circle cx="{self.lanes[replica]:.1f}" cy="{y}" r="3.5" fill="{fill}" stroke="{line}" stroke-width="1.5"/>')

    def path(self, way: str, style: str, title: str) -> None:
        self.gaps.append(arrow(way, style, f"<title>{escape(title)}</title>"))

    def key(self) -> List[str]:
        """What the colours and the marks that are used mean, in one row."""
        marks, x, y = [], 12.0, 20
        for name, words in [entry for entry in KEY + MARKS if entry[0] in self.used]:
            if name in DASHES or name == "normal":
                marks.append(arrow(f"M{x} {y - 4}h24", name))
                x += 32
            else:
                marks.append(MARK_OF_KEY[name](x + 7, y - 4))
                x += 34 if name == "view" else 20
            marks.append(f'<text x="{x:.1f}" y="{y}" fill="{INK}">{words}</text>')
            x += LETTER * len(words) + 18
        self.width = max(self.width, x)
        return marks

    def svg(self) -> str:
        """The whole picture."""
        for replica, since in list(self.stopped.items()):
            self.gap(replica, since, self.end)
        lanes, key = [], self.key()
        for replica, x in enumerate(self.lanes):
            lanes.append(f'<path d="M{x:.1f} {TOP - 20}V{self.end}" stroke="{INK}" stroke-width="1.5"/>')
            lanes.append(f'<text x="{x:.1f}" y="{TOP - 26}" text-anchor="middle" font-weight="bold" fill="{INK}">replica {replica}</text>')
        width, height = round(self.width), round(self.end + 10)
        arrows = [mark for mark in self.gaps if 'class="arrow"' in mark]
        return "\n".join([
            f'<svg xmlns="http://www.w3.org/2000/svg" viewBox="0 0 {width} {height}" width="{width}" height="{height}" font-family="{FONT}" font-size="12">',
            '<defs><marker id="tip" viewBox="0 0 8 8" refX="7" refY="4" markerWidth="7" markerHeight="7" orient="auto"><path d="M0 0 L8 4 L0 8 z" fill="context-stroke"/></marker></defs>',
            "<style>.arrow { fill: none; stroke-width: 1.4 }</style>",
            f'<rect width="{width}" height="{height}" fill="{GROUND}"/>',
            *key, *lanes, *[mark for mark in self.gaps if mark not in arrows], *arrows, *self.marks, "</svg>", "",
        ])


def arrow(way: str, style: str, inside: str = "") -> str:
    dash = f' stroke-dasharray="{DASHES[style]}"' if style in DASHES else ""
    return f'<path class="arrow" d="{way}" stroke="{COLOURS[style]}"{dash} marker-end="url(#tip)">{inside}</path>'


def tick_mark(x: float, y: float) -> str:
    return f'<circle cx="{x:.1f}" cy="{y}" r="3.5" fill="{GROUND}" stroke="{FAINT}" stroke-width="1.5"/>'


def stop_mark(x: float, y: float) -> str:
    return f'<path d="M{x - 6:.1f} {y - 6}l12 12m0 -12l-12 12" stroke="{COLOURS["bad"]}" stroke-width="2.5" fill="none"/>'


def start_mark(x: float, y: float) -> str:
    return f'<path d="M{x:.1f} {y - 7}l7 12h-14z" fill="{COLOURS["commit"]}"/>'


def view_mark(x: float, y: float, view: int) -> str:
    half = 7 + LETTER * len(str(view)) / 2 + 4
    return f'<rect x="{x - half:.1f}" y="{y - 9}" width="{2 * half:.1f}" height="18" rx="4" fill="#fff0bd" stroke="#a33a00"/>' \
           f'<text x="{x:.1f}" y="{y + 4}" text-anchor="middle" font-weight="bold" fill="{INK}">v{view}</text>'


def view_of_key(x: float, y: float) -> str:
    return view_mark(x + 6, y, 1)


MARK_OF_KEY: Dict[str, Callable[[float, float], str]] = {"tick": tick_mark, "stop": stop_mark, "start": start_mark, "view": view_of_key}
