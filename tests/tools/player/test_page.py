"""The page in a headless Chromium: it loads and asks nobody, its buttons and keys are the lines that they say, and all of it can be undone,
shared and followed. PICTURES names a folder for its screenshots; PLAY_LONG=1 plays 300 schedules in the browser, else a few."""

import hashlib
import json
import os
import re
import subprocess
import time
import unittest
from pathlib import Path
from typing import List

from nozhgiva_tools.places import EXAMPLES
from tests.tools.explorer.browser import Browser, find_browser

from .making import LONG, made, PROGRAM, REASON
from .schedules import schedule

PATIENCE = 60.0
LIMIT = 2_000_000
SCHEDULES, LINES = (300, 260) if LONG else (3, 160)
WIDTHS = (390, 1024, 1600)

# Lines so far, what is done, the lines that it makes: clicks on what these selectors name (`fill:` puts a text into a field, `key:` presses one).
BEGUN = ["cluster 3", "request 0 7 0 register"]
MOVES = [
    (BEGUN, ["[data-deliver='0']"], ["deliver 0"]),
    (BEGUN, ["[data-deliver='1']"], ["deliver 1"]),
    (BEGUN, ["#next"], ["deliver 0"]),
    (BEGUN, ["key: "], ["deliver 0"]),
    (BEGUN, ["key:!Digit2"], ["deliver 1"]),
    (BEGUN, ["[data-lose='0']", "#next"], ["deliver 1"]),
    (BEGUN, ["#all"], ["deliver 0", "deliver 1", "deliver 2", "deliver 3"]),
    (BEGUN, ["#ticks"], ["tick 0", "tick 1", "tick 2"]),
    ([*BEGUN, "deliver 0"], ["#again"], ["deliver 0"]),
    (BEGUN, ["[data-line='tick 1']"], ["tick 1"]),
    (BEGUN, ["[data-line='stop 2']"], ["stop 2"]),
    ([*BEGUN, "stop 2"], ["[data-line='start 2']"], ["start 2"]),
    ([*BEGUN, "stop 2"], ["[data-line='migrate 2']"], ["migrate 2"]),
    (BEGUN, ["key:1", "key:t"], ["tick 1"]),
    (BEGUN, ["key:1", "key:s", "key:s"], ["stop 1", "start 1"]),
    ([*BEGUN, "stop 1"], ["key:1", "key:m"], ["migrate 1"]),
    (BEGUN, ["[data-replica='1'] [data-form='request']", "fill:[name=client]=8", "#form-go"], ["request 1 8 0 register"]),
    ([*BEGUN, "deliver 0", "deliver 2"], ["[data-replica='0'] [data-form='request']", "fill:[name=key]=size", "fill:[name=value]=3", "#form-go"], ["request 0 7 1 put size 3"]),
    (BEGUN, ["[data-replica='1'] [data-form='fuse']", "fill:[name=call]=3", "fill:[name=code]=26", "#form-go"], ["fuse 1 3 26"]),
    (BEGUN, ["[data-replica='0'] [data-form='disk']", ".copies [data-sector='20']"], ["damage 0 20"]),
    (BEGUN, ["[data-replica='0'] [data-form='disk']", "[value=unread]", "[data-sector='81']"], ["unread 0 81"]),
    (BEGUN, ["[data-replica='0'] [data-form='disk']", "[value=stale]", "fill:#within=2", "[data-sector='148']"], ["stale 0 150"]),
    (BEGUN, ["[data-replica='0'] [data-form='disk']", "[value=misdirect]", "[data-sector='82']", "[data-sector='84']"], ["misdirect 0 82 84"]),
    ([*BEGUN], ["fill:#typed=unread 2 1423", "#type button"], ["unread 2 1423"]),
]


@unittest.skipIf(REASON, REASON)
@unittest.skipUnless(find_browser(), "no Chromium (Debian's package is chromium)")
class Page(unittest.TestCase):
    page: Path
    browser: Browser

    @classmethod
    def setUpClass(cls) -> None:
        cls.page = made()
        cls.browser = Browser()

    @classmethod
    def tearDownClass(cls) -> None:
        cls.browser.close()

    def setUp(self) -> None:
        self.browser.size(1440, 900)
        self.open()

    def tearDown(self) -> None:
        self.assertEqual(self.browser.errors, [])

    def open(self, address: str = "") -> None:
        self.browser.open(f"{self.page}{address}")
        self.until("document.body.dataset.ready === 'yes'")

    def until(self, expression: str) -> None:
        """Waits until an expression of the page holds."""
        end = time.monotonic() + PATIENCE
        while not self.browser.value(expression):
            self.assertLess(time.monotonic(), end, expression)
            time.sleep(0.02)

    def settle(self) -> None:
        """Waits until the page has done what it was asked."""
        waiting = "(async () => { let last; do { last = game.busy; await last; } while (game.busy !== last); })()"
        self.browser.call("Runtime.evaluate", expression=waiting, awaitPromise=True)

    def change(self, lines: List[str]) -> None:
        self.browser.value(f"change({{ lines: {json.dumps(lines)}, at: null, lost: new Set(), notes: new Map() }}); 1")
        self.settle()

    def lines(self) -> List[str]:
        lines: List[str] = self.browser.value("game.lines")
        return lines

    def do(self, what: str) -> None:
        """A click, a key, or a text into a field."""
        if what.startswith("fill:"):
            found = re.fullmatch(r"(.*[^=]\]|#\w+)=(.*)", what[5:])
            assert found, what
            selector, text = found.groups()
            self.browser.value(f"(() => {{ const e = document.querySelector({json.dumps(selector)}); e.value = {json.dumps(text)}; e.dispatchEvent(new Event('input', {{ bubbles: true }})); }})()")
        elif what.startswith("key:"):
            key = what[4:]
            event = {"key": "", "code": key[1:], "shiftKey": True} if key.startswith("!") else {"key": key, "code": f"Digit{key}" if key.isdigit() else ""}
            self.browser.value(f"document.body.dispatchEvent(new KeyboardEvent('keydown', {json.dumps({**event, 'bubbles': True})})), 1")
        else:
            self.browser.value(f"document.querySelector({json.dumps(what)}).click(), 1")
        self.settle()

    def test_it_asks_nobody(self) -> None:
        self.assertLess(self.page.stat().st_size, LIMIT)
        self.assertEqual([url for url in self.browser.asked if not url.startswith(("file://", "data:", "blob:"))], [])
        self.assertEqual(self.lines(), BEGUN)
        self.browser.click("[data-deliver='0']")
        self.until("game.lines.length === 3")

    def test_buttons_are_their_lines(self) -> None:
        for before, steps, wanted in MOVES:
            self.browser.value("closeDialog()")
            self.change(before)
            for step in steps:
                self.do(step)
            self.assertEqual(self.lines(), [*before, *wanted], steps)

    def test_refusals(self) -> None:
        for line, reason in (("tick 3", "refused: line 3: the replica ends at 2"), ("damage 0 1424", "refused: line 3: the sector ends at 1423"), ("hello", "refused: line 3: `hello` begins no line")):
            self.do(f"fill:#typed={line}")
            self.do("#type button")
            self.assertIn(reason, self.browser.value("document.getElementById('refusal').textContent"))
            self.assertEqual(self.lines(), BEGUN)
        self.browser.value("change({ lines: ['cluster 3', 'tick 0', 'tick 9', 'tick 1'] }), 1")
        self.settle()
        self.assertIn("refused: line 3", self.browser.value("document.getElementById('refusal').textContent"))
        self.assertEqual(self.lines(), ["cluster 3", "tick 0"])
        self.browser.value("loadFile(new File(['# nothing but a word\\nhello\\n'], 'no.txt')), 1")
        self.until("game.refusal.startsWith('refused: line 1')")
        self.do("[data-line='tick 1']")
        self.assertEqual(self.lines(), ["cluster 3", "tick 0", "tick 1"])

    def test_undo_and_branches(self) -> None:
        self.do("[data-deliver='0']")
        self.do("[data-line='tick 2']")
        self.do("#undo")
        self.assertEqual(self.lines(), [*BEGUN, "deliver 0"])
        self.do("#redo")
        self.assertEqual(self.lines(), [*BEGUN, "deliver 0", "tick 2"])
        self.browser.value("show(1)")
        self.do("[data-line='stop 0']")
        self.assertEqual(self.lines(), [*BEGUN, "stop 0"])
        self.assertEqual(self.browser.value("game.outputs.length"), 3)
        self.do("#undo")
        self.assertEqual(self.lines(), [*BEGUN, "deliver 0", "tick 2"])
        self.browser.value("show(1)")
        self.do("#cut")
        self.assertEqual(self.lines(), BEGUN)

    def test_address(self) -> None:
        self.do("[data-deliver='0']")
        self.do("[data-lose='1']")
        self.do("#share-open")
        self.until("document.querySelector('#dialog-body input') !== null")
        address = self.browser.value("document.querySelector('#dialog-body input').value")
        self.open("#" + address.split("#", 1)[1])
        self.assertEqual(self.lines(), [*BEGUN, "deliver 0"])
        self.assertEqual(self.browser.value("[...game.lost]"), [1])
        self.assertIn("2 prepare_ok 1 v0", self.browser.value("document.getElementById('flights').textContent"))
        self.open("#s=nonsense")
        self.assertEqual(self.lines(), BEGUN)

    def test_files(self) -> None:
        """A text with comments and outputs comes in, and goes out as the lines alone."""
        text = (EXAMPLES / "put-get.txt").read_text()
        self.browser.value(f"loadFile(new File([{json.dumps(text)}], 'put-get.txt')), 1")
        self.until("game.title === 'put-get.txt'")
        lines = [line for line in text.splitlines() if line[:1].isalpha()]
        self.assertEqual(self.lines(), lines)
        self.assertTrue(self.browser.value("game.notes.size > 0"))
        self.browser.value("URL.createObjectURL = (blob) => { blob.text().then((text) => { window.saved = text; }); return 'data:,'; }, "
                           "document.createElement('a').__proto__.click = () => {}, saveFile()")
        self.until("window.saved !== undefined")
        self.assertEqual(self.browser.value("window.saved"), "".join(line + "\n" for line in lines))

    def test_a_broken_promise_is_seen(self) -> None:
        self.browser.value("game.watch.hear(['commit 0 op 1 view 0 client 7 request 0 register']), showPromises()")
        self.assertEqual(self.browser.value("[...document.querySelectorAll('#watched .broken')].map((one) => one.dataset.promise)"), ["rests"])
        self.assertIn("✗", self.browser.value("document.querySelector('#watched .broken').textContent"))

    def test_examples(self) -> None:
        """Each comes to the outputs that stand in its file, where there are some, and breaks no promise."""
        files = {str(path.relative_to(EXAMPLES)): path.read_text() for path in [*EXAMPLES.glob("*.txt"), *EXAMPLES.glob("standstills/*.txt")]}
        self.assertEqual(sorted(self.browser.value("data.examples.map((one) => one.name)")), sorted(files))
        for name, text in files.items():
            wanted = [line for line in text.splitlines() if line and not line.startswith("#")]
            self.browser.value(f"loadExample(data.examples.find((one) => one.name === {json.dumps(name)})), 1")
            self.settle()
            shown = self.browser.value("game.lines.map((line, at) => [line, ...game.outputs[at].map((said) => '  ' + said)]).flat()")
            if not any(line.startswith("  ") for line in wanted):
                shown = [line for line in shown if not line.startswith("  ")]
            self.assertEqual(shown, wanted, name)
            self.assertEqual(self.browser.value("document.querySelectorAll('#watched .kept').length"), 6, name)

    def test_tour(self) -> None:
        """Each scene from end to end, by what a reader would press."""
        for number in range(self.browser.value("SCENES.length")):
            self.do("#tour-open")
            self.do(f"[data-scene='{number}']")
            while self.browser.value("document.getElementById('scene-next') !== null"):
                self.do("#scene-next")
            self.assertTrue(self.browser.value("document.getElementById('scene-ask') !== null && !guide.solved"))
            hint = self.browser.value(f"SCENES[{number}].hint.split(' ')[1]")
            self.do(f".flight [data-deliver='{hint}']")
            self.assertTrue(self.browser.value("guide.solved && document.getElementById('scene-end') !== null"), number)

    def test_surprise(self) -> None:
        """The lines of a number, with a person's between them, are what `soak` goes on with; without, they are soak's own."""
        self.browser.value("beginSurprise('7', 'leap'), 1")
        self.until("guide.surprise && guide.surprise.pace === 'wait' && game.lines.length === 101")
        lines = self.lines()
        outputs = self.browser.value("game.outputs.flat().map((line) => line + '\\n').join('')")
        summary = subprocess.run([PROGRAM, "soak", "7", "100"], capture_output=True, text=True, check=True).stdout
        self.assertEqual(hashlib.sha256(outputs.encode()).hexdigest()[:32], summary.split()[-1])
        self.do("[data-line^='tick']")
        self.do("#one-line")
        self.assertEqual(self.lines()[:101], lines)
        self.assertEqual(len(self.lines()), 103)

    def test_same_bytes(self) -> None:
        """Random schedules in the browser's worker, beside the native program."""
        for seed in range(1000, 1000 + SCHEDULES):
            lines = schedule(seed, LINES)
            native = subprocess.run([PROGRAM, "replay"], input="".join(line + "\n" for line in lines).encode(), capture_output=True, check=True).stdout
            # Behind no lines at all, since only what is new is told.
            self.browser.value(f"ask('become', {{ lines: [] }}).then(() => ask('become', {{ lines: {json.dumps(lines)} }})).then((answer) => {{ window.made = answer.texts.join(''); }}), 1")
            self.until("window.made !== undefined")
            self.assertEqual(hashlib.sha256(self.browser.value("window.made").encode()).hexdigest(), hashlib.sha256(native).hexdigest(), f"schedule {seed}")
            self.browser.value("delete window.made, game.lines = [], 1")

    def test_each_width(self) -> None:
        """Nothing sticks out at any width, light or dark."""
        self.change([*BEGUN, "deliver 0", "deliver 2", "request 0 7 1 put color green", "deliver 3"])
        for width in WIDTHS:
            for scheme in ("light", "dark"):
                self.browser.size(width, 844 if width < 500 else 900)
                self.browser.scheme(scheme)
                self.browser.value("changed()")
                self.assertLessEqual(self.browser.value("document.documentElement.scrollWidth"), width)
                picture(self.browser, f"play-{width}-{scheme}.png")
        self.browser.scheme("light")


def picture(browser: Browser, name: str) -> None:
    """A screenshot, where they are kept."""
    if folder := os.environ.get("PICTURES"):
        browser.picture(Path(folder) / name)


if __name__ == "__main__":
    unittest.main()
