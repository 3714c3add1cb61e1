"""The live page, in Chromium: what it shows of played members, by keyboard, narrow and dark. Without Chromium this is left out. PICTURES names a folder
that pictures are put into."""

import os
import signal
import subprocess
import time
import unittest
import urllib.error
import urllib.request

from nozhgiva_tools.run.ports import free_addresses
from tests.tools.explorer.browser import Browser, find_browser

from .test_keep import HERE, Keeping

START = "say start {0} view 3 log_view 3 commit 32\nsay commit {0} op 33 view 3 client 7 request 0 register"
LEADS = START + "\nbeat 600 send 1 {0} 1 commit view 3 op 33 commit 33"
ASKS = "say start {0} view 3 log_view 3 commit 32\nbeat 600 send 7 {0} 0 get_block 64"


class Page(Keeping):
    def serve(self) -> str:
        """Three played members, of which one leads, one follows and one asks for a block; the address of their page."""
        self.kept = [self.keep(plan.format(member), replica=member) for member, plan in enumerate((LEADS, START + "\nstand", ASKS))]
        sockets = self.kept[0].folder.name + "/socket.{}"
        for member, kept in enumerate(self.kept):
            self.assertTrue(kept.until(lambda: "view=3" in kept.ask("health")))
            os.symlink(kept.file + ".socket", sockets.replace("{}", str(member)))
        port = free_addresses(1)[0]
        words = [os.path.join(HERE, "status"), "5", *free_addresses(3), "--sockets", sockets, "--page", port]
        child = subprocess.Popen(words, stdout=subprocess.PIPE, text=True)
        assert child.stdout is not None
        self.addCleanup(child.stdout.close)
        self.addCleanup(child.wait)
        self.addCleanup(child.kill)
        self.assertEqual(child.stdout.readline(), f"http://{port}/\n")
        return port

    def check_served(self, port: str) -> None:
        with urllib.request.urlopen(f"http://{port}/", timeout=30) as answer:
            self.assertIn("default-src 'none'", answer.headers["Content-Security-Policy"])
            self.assertNotRegex(answer.read().decode(), r"(src|href)=\"(?!data:)")
        for path in ("/etc/passwd", "/../status", "/since"):
            self.assertRaises(urllib.error.HTTPError, urllib.request.urlopen, f"http://{port}{path}", timeout=30)

    @unittest.skipUnless(find_browser(), "no Chromium")
    def test_what_it_shows(self) -> None:
        port = self.serve()
        self.check_served(port)
        browser = Browser()
        self.addCleanup(browser.close)
        browser.size(1600, 1000)
        browser.call("Page.navigate", url=f"http://{port}/")
        self.until(browser, "document.querySelectorAll('.member').length === 3 && samples.length > 4")
        self.assertEqual(browser.value("[...document.querySelectorAll('.member')].map(one => one.className)"), ["member leads", "member follows", "member follows"])
        self.assertIn("get block 64", browser.value("document.querySelectorAll('.member')[2].textContent"))
        self.until(browser, "/member 2 isn't well:[a-z, ]* lacks blocks/.test(document.getElementById('why').textContent)")
        self.assertTrue(browser.value("document.getElementById('facts').textContent").startswith("member 0 leads view 3; commit 33; "))
        os.kill(self.kept[1].member(), signal.SIGSTOP)
        self.until(browser, "document.querySelectorAll('.member')[1].className === 'member hangs'")
        browser.value("document.getElementById('charts').focus()")
        browser.press("Home")
        self.assertIn("member 1 follows", browser.value("document.getElementById('moment').textContent"))
        browser.press("End")
        self.assertEqual(browser.value("document.getElementById('moment').textContent"), "")
        for width, scheme in ((1600, "light"), (1024, "dark"), (390, "light"), (390, "dark")):
            browser.size(width, 1000)
            browser.scheme(scheme)
            self.assertLessEqual(browser.value("document.documentElement.scrollWidth"), width)
            if os.environ.get("PICTURES"):
                time.sleep(1.5)
                browser.picture(os.path.join(os.environ["PICTURES"], f"page-{width}-{scheme}.png"))
        self.assertEqual([url for url in browser.asked if not url.startswith((f"http://{port}/", "data:"))], [])
        self.assertEqual(browser.errors, [])

    def until(self, browser: "Browser", expression: str) -> None:
        end = time.monotonic() + 90
        while not browser.value(expression):
            self.assertLess(time.monotonic(), end, expression)
            time.sleep(0.2)
