"""What docs/CLIENTS.md shows byte for byte, and its limits, are what the library spells."""

import re
import unittest
from pathlib import Path

from nozhgiva.messages import LARGEST_KEY, LARGEST_VALUE, Outcome, OutcomeKind, Put, Reply, ReplyKind, Request

PAGE = (Path(__file__).resolve().parents[3] / "docs/CLIENTS.md").read_text(encoding="utf-8")


def dumps():
    """The messages that the page shows, in the order in which they stand: lines of a place and of digits."""
    found = []
    for line in PAGE.splitlines():
        shown = re.fullmatch(r" {4} {0,3}(\d+)  ([0-9a-f]+)(?: .*)?", line)
        if shown:
            place, digits = int(shown.group(1)), bytes.fromhex(shown.group(2))
            if place == 0:
                found.append(b"")
            assert len(found[-1]) == place, line
            found[-1] += digits
    return found


class Page(unittest.TestCase):
    def test_the_request_and_its_reply(self):
        messages = {}
        for version in (1, 2):
            request = Request(5, 7, 1, Put("color", "green"), version)
            reply = Reply(5, 7, 1, request.name(), 0, 0, ReplyKind.OUTCOME, 3, Outcome(OutcomeKind.OK), version)
            messages[version] = [request.encode(), reply.encode()]
        self.assertEqual(dumps(), messages[1])
        self.assertIn(f"the request above then begins with `{messages[2][0][:16].hex()}`", PAGE)
        self.assertIn(f"begins with `{messages[2][1][:16].hex()}`", PAGE)

    def test_the_longest_messages(self):
        longest = {version: len(Request(5, 7, 1, Put("k" * LARGEST_KEY, "v" * most), version).encode()) for version, most in LARGEST_VALUE.items()}
        self.assertIn(f"what clients send and hear has {longest[2]:,} at most, in version 1 {longest[1]:,}", PAGE)


if __name__ == "__main__":
    unittest.main()
