"""What all tests share: nothing passes without having tried something, and what was left out is told, each reason with its number."""

import collections
import os
import tempfile
from pathlib import Path
from typing import Counter, List, Optional, TYPE_CHECKING

import pytest

from nozhgiva_tools.places import in_memory
from nozhgiva_tools.run import program

try:
    from hypothesis import HealthCheck, settings
except ImportError:  # its tests are left out then, with a word
    HAS_HYPOTHESIS = False
else:
    HAS_HYPOTHESIS = True
    # The same few examples at each check; `--hypothesis-profile=long` draws many new ones.
    for name, count in (("checks", 60), ("long", 3_000)):
        settings.register_profile(name, max_examples=count, derandomize=name == "checks", deadline=None, database=None, print_blob=True,
                                  suppress_health_check=[HealthCheck.too_slow])
    settings.load_profile("checks")

if TYPE_CHECKING:
    from _pytest.terminal import TerminalReporter  # which pytest 7 names nowhere else

NOTHING_TRIED = 2
PROPERTIES = "_properties.py"
without_hypothesis: List[str] = []
ENDS_WELL = (pytest.ExitCode.OK, pytest.ExitCode.NO_TESTS_COLLECTED)


def pytest_configure() -> None:
    """What the tests call takes the program that they found, and says nothing of which it is. Their files stand in memory, unless TMPDIR says where: no test waits for a disk."""
    try:
        os.environ["NOZHGIVA_PROGRAM"] = program.find().path
    except program.Missing:
        pass
    folder = in_memory()
    if folder is not None and "TMPDIR" not in os.environ:
        os.environ["TMPDIR"] = tempfile.tempdir = folder


def pytest_ignore_collect(collection_path: Path) -> Optional[bool]:
    """Whether a file can't be read, since it draws by hypothesis."""
    if HAS_HYPOTHESIS or not collection_path.name.endswith(PROPERTIES):
        return None
    without_hypothesis.append(collection_path.name)
    return True


def passed(reporter: "TerminalReporter") -> int:
    return len(reporter.stats.get("passed", [])) + len(reporter.stats.get("xfailed", []))


def reasons(reporter: "TerminalReporter") -> List[str]:
    """Why tests were left out, one for each of them."""
    skipped = [one.longrepr for one in reporter.stats.get("skipped", [])]
    return [str(one[2] if isinstance(one, tuple) else one).replace("Skipped: ", "") for one in skipped]


def pytest_sessionfinish(session: pytest.Session, exitstatus: int) -> None:
    reporter = session.config.pluginmanager.get_plugin("terminalreporter")
    if exitstatus in ENDS_WELL and not passed(reporter) and not session.config.option.collectonly:
        session.exitstatus = NOTHING_TRIED


def pytest_terminal_summary(terminalreporter: "TerminalReporter", exitstatus: int) -> None:
    why: Counter[str] = collections.Counter(reasons(terminalreporter))
    for reason, count in sorted(why.items()):
        terminalreporter.write_line(f"left out: {f'{count} of its tests: ' if count > 1 else ''}{reason}")
    for name in without_hypothesis:
        terminalreporter.write_line(f"left out: {name}: no hypothesis, which Debian's python3-hypothesis has")
    if exitstatus in ENDS_WELL and not passed(terminalreporter):
        terminalreporter.write_line(f"nothing was tried: {sum(why.values())} tests were left out")
