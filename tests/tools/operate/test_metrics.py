"""What a keeper tells Prometheus, by what a played member does; who asks for it in bad ways; the alerts and the dashboard."""

import glob
import json
import os
import re
import shutil
import signal
import socket
import subprocess
import tempfile
import time
import unittest
import urllib.error
import urllib.request
from typing import Dict, List, Set

from nozhgiva_tools.operate import metrics
from nozhgiva_tools.run.ports import free_addresses

from .test_keep import HERE, Keeping, Kept

FILES = os.path.join(HERE, "metrics")
PLAN = """say start 0 view 2 log_view 2 commit 32
say commit 0 op 33 view 2 client 7 request 0 register
say commit 0 op 34 view 2 client 7 request 1 put a b
say reply 0 client 7 request 1 op 34 ok
say reply 0 client 8 request 1 evicted
say reply 0 client 9 request 1 redirect 2
say reply 0 client 9 request 2 busy
say send 1 0 1 start_view_change view 5
beat 60 send 1 0 1 commit view 5 op 36 commit 34
exit 0"""
VALUE = re.compile(r'nozhgiva_(\w+)\{group="5",member="0"(?:,(\w+="[^"]*")(?:,[^}]*)?)?\} (\S+)')


def read(text: str) -> Dict[str, str]:
    """The values by their names, and their first own label."""
    return {name + (f" {label}" if label else ""): value for name, label, value in VALUE.findall(text)}


class Metrics(Keeping):
    def kept_at(self, port: str, plan: str = PLAN, *options: str) -> Kept:
        kept = self.keep(plan, "--metrics", port, *options)
        self.assertTrue(kept.until(lambda: "view=5" in kept.ask("health") or "down" in kept.ask("health")))
        return kept

    def get(self, port: str, path: str = "/metrics") -> str:
        with urllib.request.urlopen(f"http://{port}{path}", timeout=30) as answer:
            return str(answer.read(), "utf-8")

    def test_what_a_member_did(self) -> None:
        port = free_addresses(1)[0]
        with tempfile.TemporaryDirectory(prefix="vr-metrics-") as folder:
            file = os.path.join(folder, "vr.prom")
            kept = self.kept_at(port, PLAN, "--metrics-file", file, "--patience", "0")
            told: Dict[str, str] = {}

            def leads() -> bool:
                told.update(read(self.get(port)))
                return told["member_leads"] == "1"

            self.assertTrue(kept.until(leads))
            for name, value in {
                "member_up": "1", "member_leads": "1", 'member_trouble trouble="down"': "0", "view": "5", "view_changes_total": "1", "commit_op": "34", "applied_op": "34", "head_op": "36",
                "applied_ops_total": "2", 'replies_total kind="answered"': "1", 'replies_total kind="evicted"': "1", 'replies_total kind="redirected"': "1",
                'replies_total kind="busy"': "1", 'replies_total kind="old"': "0", "standstill_restarts_total": "0", "keys_limit": "128", "log_lines_dropped_total": "0",
            }.items():
                self.assertEqual(told.get(name), value, name)
            self.assertTrue(kept.until(lambda: float(read(self.get(port))["open_seconds"]) > 1))
            self.assertTrue(kept.until(lambda: os.path.exists(file)))
            with open(file) as posted:
                self.assertIn("nozhgiva_member_up", posted.read())
            os.kill(kept.member(), signal.SIGKILL)
            self.assertTrue(kept.until(lambda: read(self.get(port)).get('member_ends_total code="signal_9"') == "1"))

    def test_what_its_file_is(self) -> None:
        """Once it was looked at, and once it is gone."""
        port = free_addresses(1)[0]
        kept = self.kept_at(port)

        def is_told(**values: str) -> bool:
            def told() -> Dict[str, str]:
                return {name.replace(" trouble=", "_").replace('"', ""): value for name, value in read(self.get(port)).items()}

            return kept.until(lambda: bool(kept.ask("health")) and values.items() <= told().items(), 40)

        self.assertTrue(is_told(member_has_state="1", member_trouble_no_file="0", group_members="2"))
        os.unlink(kept.file)
        self.assertTrue(is_told(member_has_state="0", member_trouble_no_file="1"))

    def test_the_file_of_a_member_that_asks_for_blocks_is_looked_at_soon(self) -> None:
        """Within some seconds, and not only within a minute, though nobody asks for its health; and though what it asks for is nothing that it lacks."""
        port = free_addresses(1)[0]
        kept = self.keep("say start 0 view 0 log_view 0 commit 0\nwait 7\nbeat 90 send 1 0 1 get_block 4", "--metrics", port, "--patience", "0")
        self.assertTrue(kept.until(lambda: bool(kept.ask("health"))))
        self.assertTrue(kept.until(lambda: 'file_info version="1"' in read(self.get(port)) and int(read(self.get(port))["lines_total"]) > 3))
        os.unlink(kept.file)
        self.assertTrue(kept.until(lambda: read(self.get(port))['member_trouble trouble="no_file"'] == "1", 25))

    @unittest.skipUnless(shutil.which("promtool"), "no promtool (Debian's prometheus)")
    def test_the_format(self) -> None:
        port = free_addresses(1)[0]
        self.kept_at(port)
        text = self.get(port)
        made = subprocess.run(["promtool", "check", "metrics"], input=text, capture_output=True, text=True)
        self.assertEqual((made.returncode, made.stdout, made.stderr), (0, "", ""))

    def test_other_paths_and_words(self) -> None:
        port = free_addresses(1)[0]
        self.kept_at(port)
        for path in ("/", "/metrics/x", "/restart"):
            self.assertRaises(urllib.error.HTTPError, self.get, port, path)
        for asked, front in ((b"POST /metrics HTTP/1.1\r\n\r\n", b"HTTP/1.1 405 "), (b"restart\n\n", b"HTTP/1.1 400 "), (b"\x00\xff\n\n", b"HTTP/1.1 400 "), (b"HEAD /metrics HTTP/1.0\r\n\r\n",
                                                                                                                                                              b"HTTP/1.1 200 ")):
            with socket.create_connection(("127.0.0.1", int(port.split(":")[1])), timeout=30) as one:
                one.sendall(asked)
                self.assertTrue(one.recv(1000).startswith(front), asked)

    def test_strangers_keep_nobody_out_and_the_member_is_heard(self) -> None:
        """Half a request, no request, one without end, a reader that never reads: two hundred of them."""
        port = free_addresses(1)[0]
        kept = self.kept_at(port)
        place = ("127.0.0.1", int(port.split(":")[1]))
        for number in range(200):
            one = socket.create_connection(place, timeout=30)
            self.addCleanup(one.close)
            one.setblocking(False)
            try:
                one.send([b"GET /metr", b"", b"x" * 10_000, b"GET /metrics HTTP/1.1\r\n\r\n"][number % 4])
            except OSError:
                pass
        began, before = time.monotonic(), int(read(self.get(port))["lines_total"])
        self.assertLess(time.monotonic() - began, 20)
        self.assertTrue(kept.until(lambda: int(read(self.get(port))["lines_total"]) > before + 5))
        self.assertIn("restarts=0", kept.ask("health"))

    def test_a_port_that_is_taken_holds_nobody_up(self) -> None:
        with socket.create_server(("127.0.0.1", 0)) as taken:
            kept = self.keep(PLAN, "--metrics", f"127.0.0.1:{taken.getsockname()[1]}")
            self.assertTrue(kept.until(lambda: "view=5" in kept.ask("health")))
            self.assertIn("Address already in use", kept.end()[1])


def names_in(text: str) -> Set[str]:
    return set(re.findall(r"nozhgiva_(\w+)", text))


class Rules(unittest.TestCase):
    def expressions(self) -> List[str]:
        with open(os.path.join(FILES, "dashboard.json")) as file:
            return [target["expr"] for panel in json.load(file)["panels"] for target in panel["targets"]]

    def test_the_names_are_those_that_are_told(self) -> None:
        with open(metrics.__file__, encoding="utf-8") as file:
            told = set(re.findall(r'(?:one|by_label|Metric)\("(\w+)", "(?:gauge|counter)"', file.read()))
        with open(os.path.join(FILES, "alerts.yml")) as file:
            self.assertLessEqual(names_in(file.read()), told)
        self.assertLessEqual(names_in(" ".join(self.expressions())), told)
        self.assertGreater(len(told), 25)
        self.assertEqual(set(metrics.REPLIES.values()), {"answered", "busy", "redirected", "old", "gap", "evicted"})

    def test_each_alert_has_a_test(self) -> None:
        with open(os.path.join(FILES, "alerts.yml")) as rules, open(os.path.join(FILES, "alerts-test.yml")) as tests:
            alerts, tested = re.findall(r"- alert: (\w+)", rules.read()), tests.read()
        for alert in alerts:
            self.assertGreaterEqual(tested.count(f"alertname: {alert}\n"), 2, alert)

    @unittest.skipUnless(shutil.which("promtool"), "no promtool (Debian's prometheus)")
    def test_the_alerts_fire(self) -> None:
        made = subprocess.run(["promtool", "test", "rules", "alerts-test.yml"], cwd=FILES, capture_output=True, text=True)
        self.assertEqual(made.returncode, 0, made.stdout + made.stderr)
        made = subprocess.run(["promtool", "check", "config", "--syntax-only", "prometheus.yml"], cwd=FILES, capture_output=True, text=True)
        self.assertEqual(made.returncode, 0, made.stdout + made.stderr)

    @unittest.skipUnless(shutil.which("promtool"), "no promtool (Debian's prometheus)")
    def test_the_dashboards_questions_are_ones(self) -> None:
        with tempfile.NamedTemporaryFile("w", suffix=".yml") as file:
            rules = [{"record": f"panel:{number}", "expr": text.replace("$group", "5")} for number, text in enumerate(self.expressions())]
            json.dump({"groups": [{"name": "dashboard", "rules": rules}]}, file)
            file.flush()
            made = subprocess.run(["promtool", "check", "rules", "--lint=none", file.name], capture_output=True, text=True)
        self.assertEqual(made.returncode, 0, made.stdout + made.stderr)

    def test_files(self) -> None:
        self.assertEqual(sorted(os.path.basename(path) for path in glob.glob(os.path.join(FILES, "*"))), ["alerts-test.yml", "alerts.yml", "dashboard.json", "prometheus.yml"])
