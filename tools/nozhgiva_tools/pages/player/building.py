"""The program as WebAssembly: the module that the compiler of the kit was handed, compiled and linked once more."""

import hashlib
import os
import shutil
import subprocess
import sys
import tempfile
from pathlib import Path
from typing import List, Optional

from nozhgiva_tools.command import kit, phases, sources
from nozhgiva_tools.places import TOP

HERE = Path(__file__).resolve().parent


RUNTIME = HERE / "runtime" / "runtime.c"
TARGET = ["--target=wasm64-unknown-unknown", "-O2"]
OF_MODULE = [*TARGET, "-Wno-override-module", "-c", "-x", "ir"]
OF_RUNTIME = [*TARGET, "-ffreestanding", "-fno-builtin", "-fno-strict-aliasing", "-c"]
LINK = ["-flavor", "wasm", "-mwasm64", "--no-entry", "--export=main", "--export=kept_stack", "--allow-undefined", "--gc-sections", "-z", "stack-size=8388608"]
LOWER = ["--enable-memory64", "--memory64-lowering", "--strip-debug", "--strip-producers", "--asyncify", "--pass-arg=asyncify-imports@env.read", "-O2"]


class Missing(Exception):
    """Something that a page needs isn't there; the text says what, and what makes it."""


def module_path() -> Path:
    """The module of the program, as clang was handed it: the one that is named, else that of the last build, where its sources are the same still."""
    named = os.environ.get("PLAY_MODULE")
    path = Path(named or TOP / "out" / "nozhgiva.bc")
    if not path.is_file():
        raise Missing(f"no module at {path}: `./nozhgiva build` makes it, or PLAY_MODULE names one")
    if not named and not sources.are_those_of(path, TOP):
        raise Missing(f"the module {path} was made of other sources than these: `./nozhgiva build` makes it anew")
    return path


def is_older() -> bool:
    """Whether a module that is named was made before the last change of a source; of another one it is known what it was made of."""
    made = module_path().stat().st_mtime
    return bool(os.environ.get("PLAY_MODULE")) and any(source.stat().st_mtime > made for source in sources.paths(TOP))


def tools() -> Path:
    """The folder of the kit's compilers."""
    try:
        return kit.folder() / "toolchain" / "bin"
    except kit.NoKit as error:
        raise Missing(str(error)) from error


def kit_name() -> str:
    """The name of the kit, without that of its logic."""
    return kit.identity().split(" logic ")[0]


def say(text: str) -> None:
    """A word on what goes on, where somebody waits for it."""
    print(f"play: {text}", file=sys.stderr, flush=True)


def run(name: str, *words: object) -> None:
    """Runs a tool, and says how far it is; where it fails, what it says is the reason."""
    with tempfile.TemporaryFile() as said:
        status = phases.run(say, name, [str(word) for word in words], said)
        if status:
            raise Missing(f"{Path(str(words[0])).name} fails: {phases.last_lines(said, 1) or status}")


def version_of(tool: Optional[str]) -> str:
    """What a tool says of its version, nothing where there is none."""
    return subprocess.run([tool, "--version"], capture_output=True, text=True, check=False).stdout if tool else ""


def kept_name(module: Path, lowering: Optional[str]) -> str:
    """By what the made program is found again: all that it is made of."""
    parts: List[bytes] = [module.read_bytes(), RUNTIME.read_bytes(), repr((OF_MODULE, OF_RUNTIME, LINK, LOWER)).encode(), version_of(lowering).encode(), kit_name().encode()]
    return hashlib.sha256(b"\0".join(hashlib.sha256(part).digest() for part in parts)).hexdigest()[:16]


def make(module: Path, lowering: Optional[str], folder: Path) -> Path:
    """Compiles, links and lowers; the program's file."""
    compilers = tools()
    say("the first time for this program it takes some three minutes of a processor; what is made is kept in out/")
    run("compiling for WebAssembly", compilers / "clang", *OF_MODULE, module, "-o", folder / "module.o")
    run("compiling the runtime", compilers / "clang", *OF_RUNTIME, RUNTIME, "-o", folder / "runtime.o")
    run("linking", compilers / "ld.lld", *LINK, "-o", folder / "linked.wasm", folder / "module.o", folder / "runtime.o")
    if lowering is None:
        say("no wasm-opt (Debian's package binaryen): the page needs a browser with 64-bit memories, and plays each schedule anew at each line")
        return folder / "linked.wasm"
    run("wasm-opt: 32-bit addresses, and a program that waits in its reads", lowering, folder / "linked.wasm", *LOWER, "-o", folder / "program.wasm")
    return folder / "program.wasm"


def kept_path() -> Path:
    """Where the program is kept once it is made."""
    return TOP / "out" / f"play-{kept_name(module_path(), shutil.which('wasm-opt'))}.wasm"


def program_of() -> bytes:
    """The program as WebAssembly. It is kept in out/, so that it is made once."""
    module, lowering, kept = module_path(), shutil.which("wasm-opt"), kept_path()
    if kept.is_file():
        return kept.read_bytes()
    with tempfile.TemporaryDirectory() as folder:
        program = make(module, lowering, Path(folder)).read_bytes()
    try:
        kept.parent.mkdir(exist_ok=True)
        partial = kept.with_suffix(f".{os.getpid()}")
        partial.write_bytes(program)
        partial.replace(kept)
    except OSError:
        say(f"can't be kept in {kept.parent}: it is made anew the next time")
    return program
