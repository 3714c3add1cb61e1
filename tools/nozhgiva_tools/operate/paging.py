"""The live page of a group: samples it twice a second, remembers a quarter of an hour, and serves one page and what it asks for."""

import json
import os
import selectors
import threading
import time
from collections import deque
from typing import Deque, Dict, List, Optional, TypedDict, Union

from . import doors, judging
from .judging import GroupTold
from .surveying import Survey

EACH = 0.5  # seconds from sample to sample
KEPT = 1800  # samples
PAGE = os.path.join(os.path.dirname(os.path.realpath(__file__)), "page.html")
POLICY = "default-src 'none'; style-src 'unsafe-inline'; script-src 'unsafe-inline'; connect-src 'self'; img-src data:"


class Sample(TypedDict):
    """What is remembered of a moment: what the charts of the page show. Of each member its state, how far it is behind, its view, restarts and ends, and whether
    it is well."""

    t: float
    code: int
    leader: Optional[int]
    view: Optional[int]
    commit: Optional[int]
    members: List[List[Union[str, int, None]]]


def short(told: GroupTold, seconds: float) -> Sample:
    members: List[List[Union[str, int, None]]] = [[member["state"], member["behind"], member["view"], member["restarts"], member["ends"], member["well"]] for member in told["members"]]
    return {"t": round(seconds, 2), "code": told["code"], "leader": told["leader"], "view": told["view"], "commit": told["commit"], "members": members}


class Sampler:
    """Looks at the group again and again, in a thread of its own."""

    def __init__(self, survey: Survey, has_keepers: bool) -> None:
        self.survey, self.has_keepers = survey, has_keepers
        self.kept: Deque[Sample] = deque(maxlen=KEPT)
        self.latest: Optional[Dict[str, object]] = None  # the group as it is told, and when that was
        self.settling = judging.Settling()
        threading.Thread(target=self.work, daemon=True).start()

    def work(self) -> None:
        while True:
            began = time.monotonic()
            self.sample()
            time.sleep(max(0.05, EACH - (time.monotonic() - began)))

    def sample(self) -> None:
        members = self.survey.look()
        verdict = self.settling.hear(time.monotonic(), judging.judge(members, self.has_keepers))
        told = judging.as_json(self.survey.cluster, members, verdict, self.has_keepers)
        now = time.time()
        self.kept.append(short(told, now))
        self.latest = dict(told, t=round(now, 2))

    def since(self, seconds: float) -> bytes:
        """What is known now, and the samples after a moment."""
        samples = [sample for sample in list(self.kept) if sample["t"] > seconds]
        return json.dumps({"now": round(time.time(), 2), "latest": self.latest, "samples": samples}, separators=(",", ":")).encode()


class Page:
    """The server: GET / is the page, GET /since/T what there is after a moment."""

    def __init__(self, address: str, sampler: Sampler) -> None:
        self.sampler, self.selector = sampler, selectors.DefaultSelector()
        with open(PAGE, "rb") as file:
            self.page = file.read()
        self.door = doors.Door(self.selector, time.monotonic, doors.listen_at(address), self.answer)

    def answer(self, asked: bytes) -> Optional[bytes]:
        question = doors.http_asked(asked)
        if question is None:
            return None
        method, path = question
        if method not in ("GET", "HEAD"):
            return doors.http_answer("405 Method Not Allowed" if method else "400 Bad Request", b"GET /\n")
        if path == "/":
            return doors.http_answer("200 OK", self.page, "text/html; charset=utf-8", method == "HEAD", f"Content-Security-Policy: {POLICY}\r\n")
        if path.startswith("/since/"):
            return doors.http_answer("200 OK", self.sampler.since(seconds_of(path[7:])), "application/json", method == "HEAD")
        return doors.http_answer("404 Not Found", b"GET /\n")

    def run(self) -> None:
        """Serves until it is interrupted."""
        while True:
            times = self.door.next_time()
            for key, _ in self.selector.select(max(0.0, times[0] - time.monotonic()) if times else None):
                key.data()
            self.door.look_at_clock(time.monotonic())


def seconds_of(text: str) -> float:
    """A moment; the beginning of all where it is none."""
    try:
        return float(text)
    except ValueError:
        return 0.0
