"""The page in a headless Chromium: it loads, steps, and shows what the text of the run says. PICTURES names a folder for its screenshots."""

import os
import re
import subprocess
import tempfile
import unittest
from pathlib import Path
from typing import List, Tuple, Union

from nozhgiva_tools.pages import explore
from nozhgiva_tools.pages.explorer.rules import read_rules
from nozhgiva_tools.places import EXAMPLES, TOOLS, words_of_module

from .browser import Browser, Colour, contrast, find_browser, parts_of

LIMIT = 2_000_000
WORKED = ("view-change.txt", "damaged-copy.txt", "put-get.txt", "stop-between-writes.txt", "laggard.txt")

# Of each schedule, after which line, what its text says of the replicas: view, role, commit number, last op applied, letters of the log, keys.
# `start_view_change` tells that a replica entered a view; the letters are those of prepares, acknowledgements, commits and statements.
SHOWN = {
    "view-change.txt": [
        (5, [("0", "primary", "1", "1", "1h", "none"), ("0", "backup", "0", "0", "1h", "none"), ("0", "backup", "0", "0", "1h", "none")]),
        (12, [("0", "stopped", "1", "1", "1h 2h", "its memory is lost"), ("1", "changing view", "0", "0", "1h", "none"), ("0", "backup", "0", "0", "1h", "none")]),
        (14, [("0", "stopped", "1", "1", "1h 2h", "its memory is lost"), ("1", "primary", "0", "0", "1h", "none"), ("1", "changing view", "0", "0", "1h", "none")]),
        (19, [("0", "stopped", "1", "1", "1h 2h", "its memory is lost"), ("1", "primary", "2", "2", "1h 2h", "none"), ("1", "backup", "1", "1", "1h 2h", "none")]),
    ],
    "damaged-copy.txt": [
        (7, [("0", "primary", "0", "0", "1h", "none"), ("0", "backup", "0", "0", "nothing is told", "none"), ("0", "backup", "0", "0", "nothing is told", "none")]),
        (15, [("0", "stopped", "0", "0", "1h", "its memory is lost"), ("1", "changing view", "0", "0", "nothing is told", "none"),
              ("1", "changing view", "0", "0", "nothing is told", "none")]),
        (19, [("1", "changing view", "0", "0", "1h", "none"), ("1", "primary", "0", "0", "1?", "none"), ("1", "changing view", "0", "0", "nothing is told", "none")]),
    ],
    "put-get.txt": [
        (6, [("0", "primary", "1", "1", "1h 2h", "none"), ("0", "backup", "1", "1", "1h 2h", "none")]),
        (7, [("0", "primary", "2", "2", "1h 2h", "color = green"), ("0", "backup", "1", "1", "1h 2h", "none")]),
        (10, [("0", "primary", "3", "3", "1h 2h 3h", "color = green"), ("0", "backup", "2", "2", "1h 2h 3h", "color = green")]),
    ],
    "stop-between-writes.txt": [
        (4, [("0", "primary", "0", "0", "1h", "none"), ("0", "stopped", "0", "0", "nothing is told", "its memory is lost")]),
        (6, [("0", "primary", "0", "0", "1h", "none"), ("0", "backup", "0", "0", "1h", "none")]),
    ],
    "laggard.txt": [
        (11, [("0", "primary", "2", "2", "1h 2h", "a = b"), ("0", "backup", "1", "1", "1h 2h", "none"), ("0", "backup", "0", "0", "1?", "none")]),
        (13, [("0", "primary", "2", "2", "1h 2h", "a = b"), ("0", "backup", "1", "1", "1h 2h", "none"), ("0", "backup", "1", "1", "1h", "none")]),
        (18, [("0", "primary", "2", "2", "1h 2h 3h 4h", "a = b"), ("0", "backup", "1", "1", "1h 2h", "none"), ("0", "backup", "1", "1", "1h 3h 4h", "none")]),
    ],
}


def read_text(path: Path) -> List[Tuple[str, List[str]]]:
    """The schedule's lines with the outputs under each."""
    lines: List[Tuple[str, List[str]]] = []
    for line in path.read_text().splitlines():
        if line.startswith("  "):
            lines[-1][1].append(line.strip())
        elif line and not line.startswith("#"):
            lines.append((line, []))
    return lines


def make_page(folder: str, *words: Union[str, Path]) -> Path:
    page = Path(folder) / "run.html"
    with open(page, "wb") as file:
        made = subprocess.run(words_of_module(explore, *map(str, words)), stdout=file, stderr=subprocess.PIPE, check=False)
    if made.returncode:
        raise AssertionError(made.stderr.decode())
    return page


def long_example(count: int) -> str:
    """Two replicas and puts of the longest values, as replay would write them: the largest text that so many lines come to."""
    value = "v" * 1_024
    lines, sent, before = ["cluster 2"], 0, ""
    for op in range(1, (count - 1) // 3 + 1):
        operation = "register" if op == 1 else f"put key{op % 100} {value}"
        request = f"client 7 request {op - 1} {operation}"
        lines += [f"request 0 7 {op - 1} {operation}", f"  send {sent} 0 1 prepare view 0 op {op} made 0 commit {op - 1}"]
        lines += [f"deliver {sent}", f"  send {sent + 1} 1 0 prepare_ok view 0 op {op} made 0"]
        lines += [f"  commit 1 op {op - 1} view 0 {before}"] if op > 1 else []
        lines += [f"deliver {sent + 1}", f"  commit 0 op {op} view 0 {request}", f"  reply 0 client 7 request {op - 1} op {op} {'session' if op == 1 else 'ok'}"]
        sent, before = sent + 2, request
    return "\n".join(lines) + "\n"


@unittest.skipUnless(find_browser(), "no Chromium (Debian's package is chromium)")
class Page(unittest.TestCase):
    browser: Browser
    folder: "tempfile.TemporaryDirectory[str]"

    @classmethod
    def setUpClass(cls) -> None:
        cls.browser = Browser()
        cls.folder = tempfile.TemporaryDirectory()

    @classmethod
    def tearDownClass(cls) -> None:
        cls.browser.close()
        cls.folder.cleanup()

    def open(self, *words: Union[str, Path]) -> Path:
        page = make_page(self.folder.name, *words)
        self.browser.open(page)
        self.assertEqual(self.browser.errors, [])
        self.assertEqual([url for url in self.browser.asked if not url.startswith(("file://", "data:"))], [])
        return page

    def go(self, line: int) -> None:
        self.browser.value(f"location.hash = '#{line}'; choose({line} - 1)")

    def shown(self, replica: int) -> Tuple[str, ...]:
        """What its card says, as a reader sees it."""
        return tuple(self.browser.value(f"""(() => {{
            const card = document.querySelector('[data-replica="{replica}"]');
            const text = (name) => card.querySelector(name).textContent;
            const each = (name, between) => [...card.querySelectorAll(name)].map((e) => e.textContent).join(between);
            return [text('.view'), text('.role'), text('.commit'), text('.applied'), each('.letters span', ' ') || text('.letters'), each('.keys li', ', ') || text('.state')];
        }})()"""))

    def test_each_line_shows_its_text(self) -> None:
        walk = """(() => {
            const seen = [];
            choose(0);
            for (let line = 0; line < run.steps.length; line += 1) {
                const outputs = [...document.querySelectorAll('#step .said')].map((e) => e.textContent);
                seen.push([document.getElementById('line').textContent, outputs, document.getElementById('place').textContent]);
                document.dispatchEvent(new KeyboardEvent('keydown', { key: 'ArrowRight' }));
            }
            return seen;
        })()"""
        for name in WORKED:
            self.open(EXAMPLES / name)
            lines = read_text(EXAMPLES / name)
            wanted = [[line, outputs, f"{number} of {len(lines)}"] for number, (line, outputs) in enumerate(lines, 1)]
            with self.subTest(name):
                self.assertEqual(self.browser.value(walk), wanted)
            self.assertEqual(self.browser.errors, [])

    def test_the_replicas_after_a_line(self) -> None:
        for name, rows in SHOWN.items():
            self.open(EXAMPLES / name)
            for line, replicas in rows:
                self.go(line)
                for replica, wanted in enumerate(replicas):
                    with self.subTest(name, line=line, replica=replica):
                        self.assertEqual(self.shown(replica), wanted)

    def test_answers_and_openings(self) -> None:
        """In each example: what a get was answered is what the keys of the page say; and a replica that starts is in the view that it was known
        to be in or in a later one."""
        check = """(() => {
            const faults = [];
            let gets = 0, starts = 0;
            run.steps.forEach((step, at) => step.outputs.forEach((output) => {
                const words = output.split(" ");
                const answers = words[0] === "reply" && words[6] === "op";
                const world = answers ? worldAfter(run, at) : null;
                const entry = answers ? world.log.get(Number(words[7])) : null;
                if (entry && entry.operation[0] === "get") {
                    const value = keysOf(world, entry.op).keys.get(entry.operation[1]);
                    gets += 1;
                    if ((value === undefined ? "absent" : `value ${value}`) !== words.slice(8).join(" ")) faults.push(output);
                }
                if (words[0] === "start") {
                    starts += 1;
                    if (worldAfter(run, at - 1).replicas[words[1]].view > Number(words[3])) faults.push(output);
                }
            }));
            return [faults, gets, starts];
        })()"""
        gets = starts = 0
        for example in sorted(EXAMPLES.glob("*.txt")):
            self.open(example)
            faults, some_gets, some_starts = self.browser.value(check)
            with self.subTest(example.name):
                self.assertEqual(faults, [])
            gets, starts = gets + some_gets, starts + some_starts
        self.assertGreaterEqual(gets, 2)
        self.assertGreaterEqual(starts, 10)

    def test_messages_under_way(self) -> None:
        self.open(EXAMPLES / "view-change.txt")
        self.go(13)
        left = self.browser.value("[...document.querySelectorAll('#way [data-message]')].map(e => Number(e.dataset.message))")
        # Of 0 to 10, sent by then, 0, 1, 2 and 7 have arrived.
        self.assertEqual(left, [10, 9, 8, 6, 5, 4, 3])

    def test_keys_and_slider(self) -> None:
        self.open(EXAMPLES / "view-change.txt")
        place = "document.getElementById('place').textContent"
        for key, wanted in (("End", 23), ("ArrowRight", 23), ("PageUp", 13), ("ArrowLeft", 12), ("PageDown", 22), ("Home", 1), ("ArrowLeft", 1)):
            self.browser.press(key)
            self.assertEqual(self.browser.value(place), f"{wanted} of 23")
        self.browser.value("(() => { const s = document.getElementById('slider'); s.value = '7'; s.dispatchEvent(new Event('input')); })()")
        self.assertEqual(self.browser.value(place), "7 of 23")
        self.assertEqual(self.browser.value("document.getElementById('slider').getAttribute('aria-valuetext')"), "line 7: stop 0")
        for button, wanted in (("last", 23), ("back", 22), ("on", 23), ("first", 1)):
            self.browser.click(f"#{button}")
            self.assertEqual(self.browser.value(place), f"{wanted} of 23")

    def test_why(self) -> None:
        self.open(EXAMPLES / "view-change.txt")
        fits = "[...document.querySelectorAll('#why > .rule')].map(e => e.dataset.rule || e.dataset.word)"
        for line, wanted in (
                (2, ["Made"]), (3, ["Next"]), (5, ["Counted"]), (7, ["stop"]), (8, ["TickedBackup"]), (12, ["TickedBackup"]), (13, ["ChangeLater"]),
                (14, ["Stated"]), (15, ["Taken"]), (20, ["start"]), (21, ["Redirected"]), (22, ["ChangeDone"]), (23, ["Taken"])):
            self.go(line)
            with self.subTest(line=line):
                self.assertEqual(self.browser.value(fits), wanted)
        self.go(2)
        self.assertEqual(self.browser.value(fits), ["Made"])
        self.browser.click("#words-4 [data-output='0']")
        self.assertEqual(self.browser.value("document.getElementById('line').textContent"), "deliver 2")
        self.assertEqual(self.browser.value(fits), ["apply", "Counted"])
        self.assertIn("commit line", self.browser.value("document.getElementById('why').textContent"))
        for line, output, wanted in ((2, 0, ["Made"]), (5, 1, ["Counted"]), (12, 0, ["enter v", "TickedBackup"]), (13, 2, ["speak", "ChangeLater"]),
                                     (14, 0, ["begin a view", "Stated"]), (14, 3, ["begin a view", "Stated"]), (20, 1, ["the opening"])):
            self.browser.value(f"choose({line} - 1, {output})")
            with self.subTest(line=line, output=output):
                self.assertEqual(self.browser.value(fits), wanted)

    def test_by_keyboard_alone(self) -> None:
        self.open(EXAMPLES / "view-change.txt")
        self.go(5)
        for _ in range(12):
            self.browser.press("Tab")
            if self.browser.value("document.activeElement.className") == "said":
                break
        self.browser.press("Enter")
        self.assertEqual(self.browser.value("document.querySelector('.said[aria-pressed=\"true\"]').textContent"), "commit 0 op 1 view 0 client 7 request 0 register")

    def test_light_and_dark(self) -> None:
        self.open(EXAMPLES / "damaged-copy.txt")
        self.go(18)
        grounds = set()
        for scheme in ("light", "dark"):
            self.browser.scheme(scheme)
            grounds.add(self.browser.value("getComputedStyle(document.body).backgroundColor"))
            self.picture(f"damaged-copy-{scheme}")
            for colour in ("--text", "--faint", "--normal", "--change", "--repair", "--client", "--commit", "--bad"):
                for ground in ("--ground", "--raised", "--chosen"):
                    with self.subTest(scheme, colour=colour, ground=ground):
                        self.assertGreaterEqual(contrast(self.colour(colour), self.colour(ground)), 7.0 if colour == "--text" else 4.5)
            self.assertEqual(self.browser.value(FAINT_WORDS), [])
        self.browser.scheme("light")
        self.assertEqual(len(grounds), 2)

    def colour(self, name: str) -> Colour:
        return parts_of(self.browser.value(f"getComputedStyle(document.documentElement).getPropertyValue('{name}').trim()"))

    def picture(self, name: str) -> None:
        if os.environ.get("PICTURES"):
            self.browser.picture(f"{os.environ['PICTURES']}/{name}.png")

    def test_two_thousand_lines(self) -> None:
        example = Path(self.folder.name) / "long.txt"
        example.write_text(long_example(2_000))
        page = self.open(example)
        self.assertLess(page.stat().st_size, LIMIT)
        lines = len(read_text(example))
        self.assertGreater(lines, 1_990)
        self.browser.press("End")
        self.assertEqual(self.browser.value("document.getElementById('place').textContent"), f"{lines} of {lines}")
        self.assertEqual(self.shown(0)[2:4], (str(lines // 3), str(lines // 3)))
        self.assertEqual(self.browser.value("document.querySelectorAll('[data-replica=\"0\"] .keys li').length"), 100)
        self.picture("two-thousand-lines")

    def test_members(self) -> None:
        members = Path(__file__).with_name("members")
        self.open("--members", members / "out.0", members / "out.1", members / "out.2")
        self.browser.press("End")
        for replica, role in enumerate(("backup", "primary", "backup")):
            self.assertEqual(self.shown(replica)[:4], ("1", role, "11", "11"))
            self.assertEqual(self.shown(replica)[5], "size = 3")
        self.picture("members")

    def test_widths(self) -> None:
        """On a phone, a small and a large screen, light and dark: the page isn't wider than the screen, and what it is about is in sight."""
        for width, height in ((390, 844), (1024, 768), (1600, 900)):
            self.browser.size(width, height)
            self.open(EXAMPLES / "damaged-copy.txt")
            with self.subTest(width=width):
                self.assertLessEqual(self.browser.value("document.documentElement.scrollWidth"), width)
                self.assertTrue(self.browser.value(IN_SIGHT))
                self.assertTrue(self.browser.value("document.querySelector('#key li').getClientRects().length > 0"))
            for scheme in ("light", "dark"):
                self.browser.scheme(scheme)
                self.picture(f"damaged-copy-{width}-{scheme}")
        self.browser.scheme("light")
        self.browser.size(1440, 900)

    def test_opens_at_what_it_is_about(self) -> None:
        place = "document.getElementById('place').textContent"
        for name, wanted in (("view-change.txt", "14 of 23"), ("damaged-copy.txt", "18 of 19"), ("put-get.txt", "6 of 14"), ("redirect.txt", "2 of 2")):
            self.open(EXAMPLES / name)
            self.assertEqual(self.browser.value(place), wanted, name)
            self.assertTrue(self.browser.value(IN_SIGHT), name)
        example = Path(self.folder.name) / "at.txt"
        example.write_text("# About.\n# at 9\ncluster 2\nrequest 1 7 0 register\n  reply 1 client 7 request 0 redirect 0\n")
        with self.assertRaisesRegex(AssertionError, "# at 9"):
            make_page(self.folder.name, example)

    def test_no_arrow_runs_through_words(self) -> None:
        for name, width in (("view-change.txt", 1024), ("careful-random-1.txt", 1600), ("version-2-random-2.txt", 1024)):
            self.browser.size(width, 900)
            self.open(EXAMPLES / name)
            for whole in ("false", "true"):
                self.browser.value(f"byId('whole').checked = {whole}; byId('whole').dispatchEvent(new Event('change'))")
                with self.subTest(name, width=width, whole=whole):
                    self.assertEqual(self.browser.value(CROSSED), [])
        self.browser.size(1440, 900)

    def test_what_is_hidden_at_first(self) -> None:
        self.open(EXAMPLES / "view-change.txt")
        seen = "[...document.querySelectorAll('.stub, .arrow')].filter((e) => getComputedStyle(e).display !== 'none').length"
        rows = "document.querySelectorAll('.row').length"
        # Of the five ticks four put nothing out, and share a row. Each message that arrives does so once.
        before = (self.browser.value(seen), self.browser.value(rows))
        self.browser.value("byId('whole').focus()")
        self.browser.press("Space")
        after = (self.browser.value(seen), self.browser.value(rows))
        sent = sum(output.startswith("send ") for _, outputs in read_text(EXAMPLES / "view-change.txt") for output in outputs)
        arrived = sum(line.startswith("deliver ") for line, _ in read_text(EXAMPLES / "view-change.txt"))
        now = self.browser.value("[...document.querySelectorAll('.stub.now')].length")
        self.assertEqual((before[1], after[1]), (20, 23))
        self.assertEqual(after[0] - before[0], sent - arrived - now)
        self.assertEqual(self.browser.value("byId('hidden').textContent"), str(sent - arrived + 3))

    def test_letters_have_words(self) -> None:
        self.open(EXAMPLES / "damaged-copy.txt")
        self.go(17)
        self.assertIn("operation 1: h, here", self.browser.value("document.getElementById('step').textContent"))
        for _ in range(40):
            self.browser.press("Tab")
            if self.browser.value("document.activeElement.dataset.words || ''"):
                break
        self.assertEqual(self.browser.value("document.activeElement.dataset.words"), "operation 1: here")
        self.assertEqual(self.browser.value("getComputedStyle(document.activeElement, '::after').content"), '"operation 1: here"')

    def test_long_numbers_of_clients(self) -> None:
        clients = ("18446744073709551615", "18446744073709551614", "7")
        example = Path(self.folder.name) / "clients.txt"
        example.write_text("cluster 2\n" + "".join(f"request 1 {client} 0 register\n  reply 1 client {client} request 0 redirect 0\n" for client in clients))
        self.open(example)
        boxes = self.browser.value("[...document.querySelectorAll('#heading text')].map((e) => e.getBBox()).map((b) => [b.x, b.y, b.x + b.width, b.y + b.height])")
        for place, one in enumerate(boxes):
            for other in boxes[place + 1:]:
                self.assertTrue(one[2] <= other[0] or other[2] <= one[0] or one[3] <= other[1] + 4 or other[3] <= one[1] + 4, (one, other))
        names = self.browser.value("[...document.querySelectorAll('#heading text')].map((e) => e.firstChild.textContent)")
        self.assertEqual([name for name in names if "…" in name], ["18…615", "18…614"])


IN_SIGHT = """(() => {
    const row = document.querySelector('.row.chosen').getBoundingClientRect();
    const room = document.getElementById('timeline').getBoundingClientRect();
    return row.top >= room.top && row.bottom <= room.bottom;
})()"""

# Words that an arrow which can be seen runs through: each arrow is followed in steps of four pixels.
CROSSED = """(() => {
    const boxes = new Map();
    for (const text of document.querySelectorAll('.t[data-output]')) {
        const box = text.getBBox();
        const found = { left: box.x, right: box.x + box.width, top: box.y + 3, bottom: box.y + box.height - 3, words: text.textContent };
        for (let at = Math.floor(found.top / 50); at <= Math.floor(found.bottom / 50); at += 1) boxes.set(at, [...(boxes.get(at) || []), found]);
    }
    const crossed = [];
    for (const arrow of document.querySelectorAll('.arrow:not(.client)')) {
        if (getComputedStyle(arrow).display === 'none') continue;
        const length = arrow.getTotalLength();
        for (let at = 0; at < length; at += 4) {
            const { x, y } = arrow.getPointAtLength(at);
            const box = (boxes.get(Math.floor(y / 50)) || []).find((one) => x > one.left && x < one.right && y > one.top && y < one.bottom);
            if (box) { crossed.push([arrow.getAttribute('d'), box.words]); break; }
        }
    }
    return crossed;
})()"""

# Words of the page that are fainter than their colour says, by an opacity of their own or of what they stand in.
FAINT_WORDS = """[...document.querySelectorAll('p, li, dt, dd, button, .t')].filter((e) => {
    for (let one = e; one; one = one.parentElement) if (getComputedStyle(one).opacity !== '1') return true;
    return false;
}).map((e) => e.textContent)"""


class Rules(unittest.TestCase):
    def test_each_rule_of_the_page_of_rules_has_its_event(self) -> None:
        rules = read_rules()
        self.assertEqual({row["rule"] for row in rules["told"]}, set(rules["rules"]))
        script = (TOOLS / "nozhgiva_tools/pages/explorer/explain.js").read_text()
        words = script[script.index("const OUTPUT_WORDS"):script.index("// What happened to a replica")]
        for word in set(re.findall(r': "([^"]+)"', words)) | {"cluster", "stop", "start", "fuse", "damage", "stale", "unread", "misdirect"}:
            self.assertTrue(rules["words"].get(word), word)


if __name__ == "__main__":
    unittest.main()
