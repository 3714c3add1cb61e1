"""Runs the commands of a page in one shell, in a copy of the clone, in the order in which they stand."""

import os
import re
import shlex
import subprocess
import time
from pathlib import Path
from typing import Dict, List, NamedTuple, Optional, Tuple

from nozhgiva_tools.command import checking
from nozhgiva_tools.run import ports as ports_of_machine

from . import finding, listing

# What a page's shell may take, and how often a command is tried while members begin.
SECONDS, SECONDS_EACH, TRIES = 60, 30, 20
FOLDERS = ("/tmp", "/var/lib/nozhgiva", "/var/log/nozhgiva", "/srv/backup")
ADDRESS = re.compile(r"\b(?:\d{1,3}\.){3}\d{1,3}:\d+\b")
# `ssh m0 WORDS` is done on this machine.
SSH = '#!/bin/sh\nshift\nexec sh -c "$*"\n'
END = 'kill $(jobs -p) 2> /dev/null; wait\n'


class Step(NamedTuple):
    command: finding.Command
    text: str  # as it runs here
    serves: bool


class Place(NamedTuple):
    """Where pages run: a copy of the clone, and a folder for what they write."""

    folder: Path
    program: str

    @property
    def clone(self) -> Path:
        return self.folder / "clone"


def copy(top: Path, place: Place) -> None:
    """A fresh clone, with what isn't committed yet."""
    subprocess.run(["git", "clone", "-q", str(top), str(place.clone)], check=True)
    for options, is_there in ((["-mo", "--exclude-standard"], True), (["-d"], False)):
        listed = subprocess.run(["git", "ls-files", "-z", *options], cwd=top, stdout=subprocess.PIPE, check=True, text=True).stdout
        for name in filter(None, listed.split("\0")):
            target = place.clone / name
            if is_there and (top / name).is_file():
                target.parent.mkdir(parents=True, exist_ok=True)
                subprocess.run(["cp", "-p", str(top / name), str(target)], check=True)
            elif not is_there and target.exists():
                target.unlink()
    (place.folder / "bin").mkdir()
    (place.folder / "bin" / "nozhgiva").symlink_to(place.clone / "nozhgiva")
    (place.folder / "bin" / "ssh").write_text(SSH, encoding="utf-8")
    (place.folder / "bin" / "ssh").chmod(0o755)


def here(texts: List[str], root: Path) -> List[str]:
    """The same commands with folders below this one, and with ports of this machine that are free."""
    addresses = sorted({found for text in texts for found in ADDRESS.findall(text)})
    ports: Dict[str, int] = dict(zip(addresses, ports_of_machine.free(len(addresses))))
    made = []
    for text in texts:
        text = ADDRESS.sub(lambda found: f"127.0.0.1:{ports[found[0]]}", text)
        for folder in FOLDERS:
            text = re.sub(rf"(?<![\w.]){folder}(?=/)", str(root / folder[1:]), text)
        made.append(text)
    return made


def script(steps: List[Step], before: List[str], root: Path) -> str:
    """The shell's lines: each command writes into files of its own, and its status is told by one line."""
    waits = any(one.serves or "&" in one.text.replace("&&", "").split() for one in steps) or any(one.endswith(" done") for one in before)
    lines = ["set -o pipefail", f"trap {shlex.quote(END)} EXIT", "trap 'exit 143' TERM", *before]
    for at, step in enumerate(steps):
        streams = f"> {shlex.quote(str(root / f'{at}.out'))} 2> {shlex.quote(str(root / f'{at}.err'))} < /dev/null"
        if step.serves:
            lines += [f"{step.text} {streams} &", f"served_{at}=$!"]
            continue
        tries = " ".join(map(str, range(TRIES if waits else 1)))
        lines += [f"for try in {tries}; do {{", step.text, f"}} {streams}", "status=$?; [ $status != 0 ] || break; sleep 1; done", f"echo {at} $status >&3"]
    served = [at for at, step in enumerate(steps) if step.serves]
    lines += ["sleep 3"] if served else []
    lines += [f"kill -0 $served_{at} 2> /dev/null; echo {at} $? >&3" for at in served]
    return "\n".join(lines) + "\n"


def strays(folder: Path) -> List[Tuple[int, str]]:
    """Processes that a page started and that are there still: those that name the folder, or stand in it."""
    found = []
    for one in Path("/proc").glob("[0-9]*"):
        try:
            words = (one / "cmdline").read_bytes().replace(b"\0", b" ").decode(errors="replace")
            at = os.readlink(one / "cwd")
        except OSError:
            continue
        if (f"{folder}/" in words or f"{at}/".startswith(f"{folder}/")) and int(one.name) != os.getpid():
            found.append((int(one.name), words))
    return found


def left_over(folder: Path) -> List[str]:
    """A sentence for each process that a page left, which is ended then. Those that are just ending have five seconds."""
    until = time.monotonic() + 5
    while strays(folder) and time.monotonic() < until:
        time.sleep(0.2)
    told = []
    for number, words in strays(folder):
        told.append(f"it leaves a process: {words}")
        try:
            os.kill(number, 9)
        except ProcessLookupError:
            pass
    return told


def tail(path: Path) -> str:
    return "\n".join(path.read_text(encoding="utf-8", errors="replace").splitlines()[-20:]) if path.exists() else ""


class Page:
    """A page, and what of it is run."""

    def __init__(self, name: str, text: str, commands: List[finding.Command], listed: listing.Listing, place: Place) -> None:
        self.name, self.text, self.listed, self.place = name, text, listed, place
        self.root = place.folder / "pages" / name.replace("/", "-")
        words = listed.words(name)
        raw = [(one, text) for one in commands if listed.reason(one) is None for text in listing.with_words(one.text, words)]
        before = listed.of_page(listing.BEFORE, name)
        texts = here([*before, *(text for _, text in raw)], self.root)
        self.before = texts[:len(before)]
        self.steps = [Step(one, text, listed.serves(one)) for (one, _), text in zip(raw, texts[len(before):])]

    def run(self) -> List[str]:
        """A sentence for each command that fails, or writes something else than the page shows."""
        if not self.steps:
            return []
        for folder in FOLDERS:
            (self.root / folder[1:]).mkdir(parents=True)
        env = {**os.environ, "NOZHGIVA_PROGRAM": self.place.program, "PYTHONDONTWRITEBYTECODE": "1", "TMPDIR": str(self.root / "tmp")}
        env["PATH"] = f"{self.place.folder / 'bin'}:{env['PATH']}"
        (self.root / "lines").write_text(script(self.steps, self.before, self.root), encoding="utf-8")
        with (self.root / "told").open("wb") as told, (self.root / "said").open("wb") as said:
            child = subprocess.Popen(
                ["bash", "-c", 'exec 3>&1 >&2; . "$0"', str(self.root / "lines")], cwd=self.place.clone, env=env, stdin=subprocess.DEVNULL,
                stdout=told, stderr=said, start_new_session=True, preexec_fn=checking.heed_signals)
            try:
                child.wait(SECONDS + SECONDS_EACH * len(self.steps))
            except subprocess.TimeoutExpired:
                pass
            finally:
                checking.end_all(child)
                faults = [f"{self.name}: {one}" for one in left_over(self.place.folder)]
        statuses = dict(line.split() for line in (self.root / "told").read_text(encoding="utf-8").splitlines())
        for at, step in enumerate(self.steps):
            faults += self.judge(at, step, statuses.get(str(at)))
        return faults

    def judge(self, at: int, step: Step, status: Optional[str]) -> List[str]:
        where = f"{self.name}:{step.command.line}: {step.command.text}"
        if status != "0":
            how = "it didn't end, or wasn't reached" if status is None else f"it ended with status {status}"
            return [f"{where}\n  {how}, as {step.text}\n{tail(self.root / f'{at}.out')}\n{tail(self.root / f'{at}.err')}"]
        first = self.listed.shows(self.name).get(step.command.text)
        if first is None:
            return []
        wanted = finding.shown(self.text, first)
        wrote = [line.rstrip() for line in (self.root / f"{at}.out").read_text(encoding="utf-8", errors="replace").splitlines()]
        if wanted and any(wrote[start:start + len(wanted)] == wanted for start in range(len(wrote))):
            return []
        return [f"{where}\n  it doesn't write what the page shows, which begins with `{first}`"]
