"""What the checks use beyond python3, and Debian has (packages.txt): what of it is missing for some checks, and its installation by apt."""

import importlib
import os
import re
import shutil
import subprocess
import tempfile
import time
from pathlib import Path
from typing import AbstractSet, Callable, Dict, FrozenSet, Iterable, List, NamedTuple, Optional, Sequence, Set

from nozhgiva_tools.places import PACKAGES

from . import checking

MUST, MAY = "must", "may"
FETCH, UNPACK = 300.0, 300.0  # seconds at most: for all that is fetched, and for each time that something is unpacked
SILENCE, LOCK = 20, 30  # seconds: a registry that sends nothing for so long is out of reach; so long another apt is waited for
QUIETLY = ("-q", "-y", "--no-install-recommends", f"-oDPkg::Lock::Timeout={LOCK}", f"-oAcquire::http::Timeout={SILENCE}",
           f"-oAcquire::https::Timeout={SILENCE}", "-oAcquire::Retries=0")
WHOLE = "-oAPT::Update::Error-Mode=any"  # an update that lacks a list has failed
STANZA = re.compile(r"(?m)^Package: (\S+)$")


class Package(NamedTuple):
    """One of Debian's: what of it is used, whether CI has to have it, and the checks that use it."""

    name: str
    gives: str
    is_must: bool
    checks: FrozenSet[str]


def read_list(path: Path = PACKAGES) -> List[Package]:
    found = []
    for line in path.read_text(encoding="utf-8").splitlines():
        if line and not line.startswith("#"):
            name, gives, mark, checks = line.split()
            if mark not in (MUST, MAY):
                raise ValueError(f"{path}: {line}")
            found.append(Package(name, gives, mark == MUST, frozenset(checking.words_of(checks))))
    return found


def missing(packages: Iterable[Package], checks: AbstractSet[str]) -> List[Package]:
    """What isn't there of what these checks use."""
    importlib.invalidate_caches()
    return [one for one in packages if one.checks & checks and not checking.is_there(one.gives)]


def names(packages: Iterable[Package]) -> str:
    return " ".join(one.name for one in packages)


def is_ci() -> bool:
    return os.environ.get("CI", "").lower() not in ("", "0", "false")


def apt_get(words: Sequence[str], until: float) -> str:
    """Calls apt-get, which ends by then; why it failed, in a line, which is empty where it didn't."""
    seconds = until - time.monotonic()
    if seconds <= 0:
        return "there was no time left"
    with tempfile.TemporaryDirectory(prefix="nozhgiva-") as folder:
        status, text = checking.call(["apt-get", *QUIETLY, *words], seconds, os.path.join(folder, "said"), {**os.environ, "DEBIAN_FRONTEND": "noninteractive"})
    if status == 0:
        return ""
    lines = [line.strip() for line in text.splitlines() if line.strip()]
    told = next((line for line in lines if line.startswith("E: ")), lines[-1] if lines else "it said nothing")
    return f"apt-get {words[0]} took more than {seconds:.0f} s" if status is None else f"apt-get {words[0]}: {told}"


def known(packages: Sequence[Package]) -> List[Package]:
    """Those of which the lists of the registry tell."""
    ran = subprocess.run(["apt-cache", "show", *(one.name for one in packages)], stdin=subprocess.DEVNULL, stdout=subprocess.PIPE, stderr=subprocess.DEVNULL, text=True, check=False)
    there = set(STANZA.findall(ran.stdout))
    return [one for one in packages if one.name in there]


class Installation:
    """Of packages that are missing. `why` says of each that isn't installed why it isn't, `unreached` names those that the registry didn't give."""

    def __init__(self, packages: Sequence[Package]) -> None:
        self.packages = packages
        self.why: Dict[str, str] = {}
        self.unreached: Set[str] = set()

    def run(self) -> None:
        """What has to be there comes first, and so is there, whatever comes of the rest."""
        until = time.monotonic() + FETCH
        unread = apt_get(["update", WHOLE], until)
        self.note(self.packages, unread or "the registry has no such package", bool(unread))
        for is_must in (True, False):
            wanted = [one for one in known(self.packages) if one.is_must == is_must]
            if wanted:
                self.install(wanted, until)

    def install(self, wanted: Sequence[Package], until: float) -> None:
        listed = [one.name for one in wanted]
        unread = apt_get(["install", "--download-only", *listed], until)
        # What is unpacked isn't cut because the registry was slow.
        failed = unread or apt_get(["install", "--no-download", *listed], time.monotonic() + UNPACK)
        self.note(wanted, failed or "it is installed, and what is wanted of it isn't there", bool(unread))

    def note(self, packages: Sequence[Package], why: str, is_unreached: bool) -> None:
        for one in packages:
            self.why[one.name] = why
            if is_unreached:
                self.unreached.add(one.name)


def why_not(is_wanted: bool) -> Optional[str]:
    """Why nothing can be installed."""
    if not is_wanted:
        return "this run installs nothing"
    if os.geteuid() != 0:
        return "not root"
    return None if shutil.which("apt-get") else "there is no apt-get"


def set_up(say: Callable[[str], None], checks: AbstractSet[str], is_wanted: bool) -> bool:
    """Has apt install what is missing for these checks, and tells before what that is; what can't be had is told. Whether all is well: a CI fails where
    a package that it must have isn't there although the registry was reached."""
    lacking = missing(read_list(), checks)
    if not lacking:
        return True
    reason = why_not(is_wanted)
    if reason:
        say(f"set-up: missing: {names(lacking)}; {reason}. As root `apt-get install {names(lacking)}` has it; what needs it is left out")
        return True
    users = checks & frozenset(name for one in lacking for name in one.checks)
    say(f"set-up: apt-get installs {names(lacking)} for {', '.join(sorted(users))}: some minutes, {(FETCH + 2 * UNPACK) / 60:.0f} at most; with --no-install it is left out")
    begun, installation = time.monotonic(), Installation(lacking)
    installation.run()
    left = missing(lacking, checks)
    say(f"set-up: {len(lacking) - len(left)} of {len(lacking)} installed in {time.monotonic() - begun:.0f} s")
    for why in dict.fromkeys(installation.why[one.name] for one in left):
        say(f"set-up: left out: {names(one for one in left if installation.why[one.name] == why)}: {why}")
    faults = [one for one in left if one.is_must and is_ci() and one.name not in installation.unreached]
    if faults:
        say(f"set-up: FAILED: a CI has to have {names(faults)}, as tests/packages.txt says")
    return not faults
