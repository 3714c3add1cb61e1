"""What these tests share: the script, the program, and copies of the parts in a tree of their own."""

import os
import shutil
import subprocess
import unittest
from pathlib import Path
from typing import Dict, IO, List, Optional

from nozhgiva_tools.places import TOOLS, TOP
from nozhgiva_tools.run import built

NOZHGIVA = str(TOP / "nozhgiva")
PROGRAM = built.PATH
needs_program = unittest.skipUnless(PROGRAM, "no program")


def call(words: List[str], given: bytes = b"", env: Optional[Dict[str, str]] = None, where: Optional[str] = None) -> "subprocess.CompletedProcess[bytes]":
    return subprocess.run(words, input=given, stdout=subprocess.PIPE, stderr=subprocess.PIPE, env=env, cwd=where, timeout=120, check=False)


def output_of(child: "subprocess.Popen[bytes]") -> IO[bytes]:
    """What a process that was started with a pipe writes."""
    assert child.stdout
    return child.stdout


def write_script(path: Path, text: str) -> Path:
    path.parent.mkdir(parents=True, exist_ok=True)
    path.write_text(text, encoding="utf-8")
    path.chmod(0o755)
    return path


def copy_parts(folder: str) -> Path:
    """A tree that has the command and its parts, and a clone's sources as far as they are asked for."""
    top = Path(folder) / "tree"
    shutil.copytree(TOOLS, top / "tools", ignore=shutil.ignore_patterns("__pycache__"))
    (top / "tests").mkdir()
    for name in ("nozhgiva", "VERSION", "tests/checks.txt", "tests/packages.txt"):
        shutil.copy(TOP / name, top / name)
    shutil.copytree(TOP / "crates" / "vr_app", top / "crates" / "vr_app", ignore=shutil.ignore_patterns("out"))
    (top / "crates.txt").touch()
    return top


def without_rt(**more: str) -> Dict[str, str]:
    """The environment without the toolchain in PATH."""
    folders = [one for one in os.environ["PATH"].split(":") if not os.access(os.path.join(one, "rt"), os.X_OK)]
    return {**os.environ, "PATH": ":".join(folders), **more}
