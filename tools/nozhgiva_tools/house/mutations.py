"""Tries the mutation tests that the gate leaves out: the prover must refuse each.

A mutation test, or wrong body, is an edit of a crate's code, or of a definition, that breaks one promise. The gate tries those of
a few crates, which stand in crates/CRATE/must-fail, a file each; the others stand in mutations/CRATE.edits, in the same form, each
behind a line `== NAME`, and are tried here.
It wants a clone in which `rt ci` has passed, since it checks over the libraries that the gate left in crates/*/out, and changes
nothing there but a library that is missing, which it proves anew. Each crate is checked first as it is, then with each edit, over
what that check proved: some minutes a crate, and 20 to 45 seconds an edit.

It prints, by crate, the seconds, what each edit is refused by, and a sum. One that the prover refused by a limit of its own alone, which says
less of the contract, is told apart, and counts as refused, as `rt must-fail` counts it. It ends with status 1 where one is not refused, or could
not be tried, and with 3 where the minutes didn't suffice. Written for the `rt` of rattle-kit-13b, whose parts it calls; that of rattle-kit-13f
has them too.
"""

from __future__ import annotations

import argparse
import concurrent.futures
import importlib.machinery
import importlib.util
import os
import re
import shutil
import subprocess
import sys
import tempfile
import threading
import time
from pathlib import Path
from typing import Iterable, NamedTuple, Protocol, cast

from nozhgiva_tools.operate import standard
from nozhgiva_tools.places import TOP

PRINTING = threading.Lock()
REFUSED, LIMITED, PASSED, BAD, UNTRIED, LEFT = "refused", "refused by a limit", "let through", "bad", "not tried", "left"
# What `must_fail` tells of an edit that was refused: kit 13b that it was, 13f by a word. Each other ending is told by its text alike in both.
REFUSALS = (True, "refused", "limit")
SAID = (("only by a limit of the prover", LIMITED), ("NOT REFUSED", PASSED), ("NOT TRIED", UNTRIED))


class Crate(Protocol):
    """A crate as the toolchain has it."""

    name: str
    folder: str

    def below(self) -> Iterable[Crate]:
        """The libraries that it stands on."""

    def ci(self, flags: list[str], tests: bool) -> int:
        """Proves it from nothing; the status."""


class Library(Protocol):
    """What is called of `rtlib`, on which `rt` stands."""

    def crates_below(self, top: str) -> Iterable[Crate]:
        """Each crate of a repository, lowest first."""


class Toolchain(Protocol):
    """What is called of the toolchain's `rt`."""

    rtlib: Library

    def checked(self, crate: Crate, texts: dict[str, str], flags: list[str], kept: str) -> subprocess.CompletedProcess[str]:
        """A check of the crate with these texts in place of its own, over what was kept."""

    def must_fail(self, crate: Crate, edit: str, flags: list[str], kept: str) -> tuple[bool | str, str]:
        """A try of an edit: what came of it, and what to say."""


class Edit(NamedTuple):
    """A mutation test: its name, and the lines that say why, where, and what becomes of what."""

    name: str
    text: str


class Tried(NamedTuple):
    """What came of an edit, by one of the words above; after how many seconds, and what the prover said."""

    name: str
    ending: str
    seconds: float
    said: str


def make_parser() -> argparse.ArgumentParser:
    what, _, more = __doc__.partition("\n\n")
    form = argparse.ArgumentParser(prog="mutations", description=what, epilog=more, formatter_class=argparse.RawDescriptionHelpFormatter)
    form.add_argument("--gate", action="store_true", help="also those that the gate tries")
    form.add_argument("--lanes", type=int, default=max(1, len(os.sched_getaffinity(0))), help="crates at a time, each with one processor and 1 to 3 GB (default: all processors)")
    form.add_argument("--minutes", type=float, default=180, help="no edit is begun later (default: 180)")
    form.add_argument("--list", action="store_true", help="only prints them, and how many there are")
    form.add_argument("crates", nargs="*", metavar="CRATE[:WORD]", help="only these crates, and of one only edits with WORD in their name (default: all)")
    return form


def sections(text: str) -> list[Edit]:
    """The edits of a file, each behind a line `== NAME`."""
    pieces = re.split(r"(?m)^== (\w+)\n", text)
    return [Edit(name, rest) for name, rest in zip(pieces[1::2], pieces[2::2])]


def edits_of(crate: str, with_gate: bool) -> list[Edit]:
    """The edits of a crate, by name."""
    path = TOP / "mutations" / f"{crate}.edits"
    found = sections(path.read_text(encoding="utf-8")) if path.is_file() else []
    if with_gate:
        found += [Edit(it.stem, it.read_text(encoding="utf-8")) for it in (TOP / "crates" / crate / "must-fail").glob("*.edit")]
    return sorted(found)


def chosen(given: list[str], with_gate: bool) -> dict[str, list[Edit]]:
    """The edits to be tried, by crate; a crate or word that names none ends the script."""
    every = sorted(it.name for it in (TOP / "crates").iterdir() if edits_of(it.name, with_gate))
    found: dict[str, list[Edit]] = {}
    for word in given or every:
        crate, _, only = word.partition(":")
        edits = [it for it in edits_of(crate, with_gate) if only in it.name]
        if not edits:
            print(f"./nozhgiva mutations: no edit for {word!r}; crates with edits: {' '.join(every)}", file=sys.stderr)
            sys.exit(2)
        found[crate] = sorted({*found.get(crate, []), *edits})
    return found


def toolchain() -> Toolchain:
    """The `rt` of the toolchain, as a module, set up as its gate sets itself up."""
    at = shutil.which("rt")
    if not at:
        sys.exit("./nozhgiva mutations: no rt in PATH: it needs the toolchain")
    loader = importlib.machinery.SourceFileLoader("rt", at)
    spec = importlib.util.spec_from_loader("rt", loader)
    assert spec
    rt = importlib.util.module_from_spec(spec)
    sys.argv = ["rt"]
    loader.exec_module(rt)
    os.chdir(TOP)
    rt.Crate.cuts_libraries = True
    for it in (rt.rtlib.ALLOW_C, rt.rtlib.BACKEND, "RT_SECONDS"):
        os.environ.pop(it, None)
    rt.rtlib.guarded()
    rt.Crate.allowed = rt.handles_of(str(TOP))
    rt.rtlib.Crate = rt.Crate
    return cast(Toolchain, rt)


def build_missing(crates: dict[str, Crate], wanted: dict[str, list[Edit]]) -> None:
    """Proves the libraries below the wanted crates that no gate left."""
    below = {it.name for name in wanted for it in crates[name].below()}
    for it in crates.values():
        if it.name in below and not os.path.exists(f"{it.folder}/out/rlib/{it.name}.rlib"):
            print(f"{it.name}: no library of it here, it is proved anew", flush=True)
            if it.ci(["--jobs", "2"], False):
                sys.exit(f"./nozhgiva mutations: {it.name} isn't proved here")


def ending_of(told: bool | str, text: str) -> str:
    """What came of an edit, by what `must_fail` answers."""
    return next((ending for words, ending in SAID if words in text), REFUSED if told in REFUSALS else BAD)


def is_refused(tried: Tried) -> bool:
    return tried.ending in (REFUSED, LIMITED)


def summed(tried: list[Tried], minutes: float) -> tuple[str, int]:
    """The sum in words, and the status that it ends with."""
    count = {ending: sum(it.ending == ending for it in tried) for ending in (LIMITED, PASSED, BAD, UNTRIED, LEFT)}
    words = [f"{count[ending]} of them only by a limit" if ending == LIMITED else f"{count[ending]} {ending}" for ending in count if count[ending]]
    status = 1 if count[PASSED] or count[BAD] or count[UNTRIED] else 3 if count[LEFT] else 0
    return ", ".join([f"{sum(map(is_refused, tried))} of {len(tried)} refused in {minutes:.0f} minutes", *words]), status


def try_edit(rt: Toolchain, crate: Crate, edit: Edit, kept: str) -> Tried:
    began = time.monotonic()
    with tempfile.TemporaryDirectory(prefix="wrong-body-") as folder:
        path = Path(folder, f"{edit.name}.edit")
        path.write_text(edit.text, encoding="utf-8")
        told, text = rt.must_fail(crate, str(path), ["--jobs", "1"], kept)
    return Tried(edit.name, ending_of(told, text), time.monotonic() - began, re.sub(r"^must-fail \S+ ", "", text)[:300])


def try_crate(rt: Toolchain, crate: Crate, edits: list[Edit], ends: float) -> list[Tried]:
    """Tries a crate's edits over one check of it, and prints what came of each."""
    began = time.monotonic()
    with tempfile.TemporaryDirectory(prefix="wrong-bodies-") as kept:
        seed = rt.checked(crate, {}, ["--jobs", "1"], kept)
        if seed.returncode:
            tried = [Tried(it.name, BAD, 0, "the crate as it is isn't proved here") for it in edits]
        else:
            tried = [try_edit(rt, crate, it, kept) if time.monotonic() < ends else Tried(it.name, LEFT, 0, "no time was left") for it in edits]
            if rt.checked(crate, {}, ["--jobs", "1"], kept).returncode:
                tried = [it._replace(ending=BAD, said="the crate as it is isn't proved any more over what was kept") for it in tried]
    with PRINTING:
        print(f"{crate.name}: {sum(map(is_refused, tried))} of {len(edits)} refused, {time.monotonic() - began:.0f} s in all")
        for it in tried:
            print(f"  {it.ending} {it.name}, {it.seconds:.0f} s: {it.said}", flush=True)
    return tried


def main() -> int:
    said = make_parser().parse_args()
    wanted = chosen(said.crates, said.gate)
    if said.list:
        for crate, edits in wanted.items():
            print(crate, *(it.name for it in edits))
        print(sum(map(len, wanted.values())))
        return 0
    rt = toolchain()
    crates = {it.name: it for it in rt.rtlib.crates_below(str(TOP))}
    build_missing(crates, wanted)
    began = time.monotonic()
    with concurrent.futures.ThreadPoolExecutor(said.lanes) as pool:
        calls = [pool.submit(try_crate, rt, crates[crate], edits, began + 60 * said.minutes) for crate, edits in wanted.items()]
        tried = [it for call in calls for it in call.result()]
    words, status = summed(tried, (time.monotonic() - began) / 60)
    print(words)
    return status


def run() -> None:
    """Runs it to its end."""
    standard.end(main)


if __name__ == "__main__":
    run()
