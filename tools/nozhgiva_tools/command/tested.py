"""The rows and tests of tests/, which nothing proves: compiled with the crates that they call as one program, and run, each in a process of its own.

Their sources end in .rt.txt, since `rt ci` stops at a .rt file that belongs to no crate. A folder of rows has the files `stdin` and `stdout`: what its
test is given, and what it must write."""

import difflib
import hashlib
import os
import re
import shutil
import subprocess
import sys
import tempfile
from pathlib import Path
from typing import IO, Callable, Dict, Iterator, List, NamedTuple, Sequence

from . import kit, phases, sources

FOLDER, PROGRAM = "tests", Path("out", "tests")
CRATE = "tests"  # its name while it is compiled
END = ".txt"
SECONDS = 120  # of one test
LEVEL = "-O1"  # -O0 compiles in a third of the time, but the tests of a replica then take fifty times theirs
LINES = 20  # of what is told of a failure
WRITTEN = re.compile(r"^\s*#\[test\]$", re.MULTILINE)
LISTED = ": test"
PASSED = b"\ntest result: ok\n"  # the harness of the toolchain ends so what a test that passed wrote
Say = Callable[[str], None]


class Failed(Exception):
    """The program isn't made; the text says why."""


class Test(NamedTuple):
    """A test by its name in the program, what it is given, and for rows the file with what it must write."""

    name: str
    stdin: bytes
    stdout: Path

    @property
    def is_of_rows(self) -> bool:
        return self.stdout.exists()


def own_sources(top: Path) -> List[Path]:
    return sorted((top / FOLDER).rglob(f"*.rt{END}"))


def count_written(top: Path) -> int:
    """How many tests the sources have."""
    return sum(len(WRITTEN.findall(path.read_text(encoding="utf-8"))) for path in own_sources(top))


def digest(top: Path) -> str:
    """Of all that the program is made of."""
    whole = hashlib.sha256(sources.digest(top).encode())
    for path in [*own_sources(top), top / FOLDER / "libraries.txt"]:
        whole.update(f"{path.relative_to(top)}\0".encode())
        whole.update(hashlib.sha256(path.read_bytes()).digest())
    return whole.hexdigest()


def libraries(top: Path) -> List[str]:
    """What the tests name: crates, and libraries of the toolchain."""
    lines = (top / FOLDER / "libraries.txt").read_text(encoding="ascii").splitlines()
    return [word for line in lines if not line.startswith("#") for word in line.split()]


def below(lines: Dict[str, str], names: Sequence[str]) -> Iterator[str]:
    """The crates among these names, and all that they stand on, each once."""
    found, waiting = set(), list(names)
    while waiting:
        name = waiting.pop()
        if name in lines and name not in found:
            found.add(name)
            waiting += lines[name].partition(":")[2].split()
            yield name


def assemble(top: Path, root: Path) -> Path:
    """Makes a repository of the tests as one crate, and of the code of all crates below it; gives the crate's folder."""
    lines = {line.partition(":")[0]: line for line in (top / "crates.txt").read_text(encoding="utf-8").splitlines() if ":" in line and not line.startswith("#")}
    named = libraries(top)
    crates = list(below(lines, named))
    for name in crates:
        shutil.copytree(top / "crates" / name / "src", root / "crates" / name / "src")
    for path in own_sources(top):
        made = root / "crates" / CRATE / "src" / path.relative_to(top / FOLDER).with_suffix("")
        made.parent.mkdir(parents=True, exist_ok=True)
        shutil.copyfile(path, made)
    (root / "crates.txt").write_text("".join(f"{lines[name]}\n" for name in crates) + f"{CRATE}: {' '.join(named)}\n", encoding="utf-8")
    return root / "crates" / CRATE


def other_layouts(top: Path, rt: str) -> Dict[Path, bytes]:
    """The sources that `rt fmt` lays out otherwise, each with its text then."""
    with tempfile.TemporaryDirectory(prefix="nozhgiva-tests-") as folder:
        crate = assemble(top, Path(folder))
        ran = subprocess.run([rt, "fmt"], cwd=crate, stdin=subprocess.DEVNULL, stdout=subprocess.PIPE, stderr=subprocess.STDOUT, text=True, errors="replace", check=False)
        if ran.returncode:
            raise Failed(f"`rt fmt` failed:\n{ran.stdout}")
        texts = {path: (crate / "src" / path.relative_to(top / FOLDER).with_suffix("")).read_bytes() for path in own_sources(top)}
    return {path: text for path, text in texts.items() if text != path.read_bytes()}


def translate(toolchain: Path, work: Path, crate: Path, said: IO[bytes], say: Say) -> Path:
    """Has the toolchain translate the crate's tests, and gives the folder with the module and the compiler's words."""
    caught = work / "caught"
    rt = kit.stand_in(toolchain, work / "kit", caught)
    phases.run(say, "reading and translating the sources", [sys.executable, str(rt), "try", "--test"], said, str(crate), {**os.environ, "TMPDIR": str(work)})
    if not (caught / "module.bc").exists():
        raise Failed(f"the sources aren't translated:\n{phases.last_lines(said)}")
    return caught


def build(top: Path, say: Say) -> None:
    """Makes the program, beside a note of what it was made of."""
    toolchain, made_of = kit.folder(), digest(top)
    program = top / PROGRAM
    note = sources.note_of(program)
    note.unlink(missing_ok=True)
    with tempfile.TemporaryDirectory(prefix="nozhgiva-tests-") as folder:
        work = Path(folder)
        with open(work / "said", "w+b") as said:
            caught = translate(toolchain, work, assemble(top, work / "tree"), said, say)
            made, linked = work / "made.o", work / "made"
            for name, words in (("compiling", kit.compile_words(toolchain, caught, made, LEVEL)), ("linking", kit.link_words(toolchain, made, linked))):
                said.truncate(0)
                if phases.run(say, name, words, said, str(caught)) != 0:
                    raise Failed(f"{name} failed:\n{phases.last_lines(said)}")
        program.parent.mkdir(exist_ok=True)
        shutil.copy2(linked, program.with_name(".tests.new"))
        os.replace(program.with_name(".tests.new"), program)
    if digest(top) == made_of:  # an edit that was made meanwhile may be in the program or not
        note.write_text(f"{made_of}\n", encoding="ascii")


def is_made(top: Path) -> bool:
    """Whether the program is there, made of the sources as they are."""
    try:
        return (top / PROGRAM).exists() and sources.note_of(top / PROGRAM).read_text(encoding="ascii").strip() == digest(top)
    except OSError:
        return False


def find(top: Path) -> List[Test]:
    """The tests that the program lists."""
    ran = subprocess.run([str(top / PROGRAM), "--list"], stdin=subprocess.DEVNULL, stdout=subprocess.PIPE, text=True, timeout=SECONDS, check=False)
    tests = []
    for line in ran.stdout.splitlines():
        if line.endswith(LISTED):
            name = line[: -len(LISTED)]
            folder = top.joinpath(FOLDER, *name.split("::")[:-1])
            given = folder / "stdin"
            tests.append(Test(name, given.read_bytes() if given.exists() else b"", folder / "stdout"))
    return tests


def fault_of(top: Path, test: Test) -> str:
    """Runs a test in an empty folder; why it failed, nothing where it passed."""
    with tempfile.TemporaryDirectory(prefix="nozhgiva-test-") as folder:
        try:
            ran = subprocess.run([str(top / PROGRAM), test.name], input=test.stdin, stdout=subprocess.PIPE, stderr=subprocess.PIPE, cwd=folder, timeout=SECONDS, check=False)
        except subprocess.TimeoutExpired:
            return f"it had not ended after {SECONDS} s"
    if ran.returncode != 0 or not ran.stdout.endswith(PASSED):
        return f"status {ran.returncode}\n" + "\n".join(ran.stderr.decode(errors="replace").splitlines()[:LINES])
    if not test.is_of_rows:
        return ""
    return difference(test.stdout.read_bytes(), ran.stdout[: -len(PASSED)])


def difference(wanted: bytes, told: bytes) -> str:
    """Where rows come to something else than their file says; nothing where they don't."""
    if wanted == told:
        return ""
    before, after = (text.decode(errors="backslashreplace").splitlines() for text in (wanted, told))
    return "\n".join(list(difflib.unified_diff(before, after, "stdout", "told", lineterm=""))[:LINES]) or "only ends of lines differ"


def run(top: Path, words: Sequence[str], say: Say) -> int:
    """Runs the tests whose names have one of these words, all without any; how many failed."""
    tests, written = find(top), count_written(top)
    failed = 0
    if not tests or len(tests) != written:
        failed += 1
        say(f"FAILED: {written} tests are written, and the program has {len(tests)}")
    chosen = [test for test in tests if not words or any(word in test.name for word in words)]
    for test in chosen:
        fault = fault_of(top, test)
        failed += bool(fault)
        say(f"{test.name}: {'passed' if not fault else f'FAILED: {fault}'}")
    if not chosen:
        failed += 1
    say(f"{len(chosen)} of {written} tests were run, {failed} failed")
    return failed
