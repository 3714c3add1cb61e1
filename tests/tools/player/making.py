"""What the tests run on: node, the native program, and the program that the page runs; why they are left out, where one is missing."""

import os
import shutil
import subprocess
import tempfile
from pathlib import Path
from typing import List

from nozhgiva_tools.pages import play
from nozhgiva_tools.pages.player.building import kept_path, Missing
from nozhgiva_tools.places import words_of_module
from nozhgiva_tools.run import built

LONG = os.environ.get("PLAY_LONG") == "1"
NODE = shutil.which("node") or ""
PROGRAM = built.PATH
FOLDER = tempfile.TemporaryDirectory()
# The page's program has a memory of 64 bits: the smallest module with one, and the option by which an older node takes it.
TAKES_IT = "process.exit(WebAssembly.validate(new Uint8Array([0, 97, 115, 109, 1, 0, 0, 0, 5, 3, 1, 4, 0])) ? 0 : 1)"
OPTION = "--experimental-wasm-memory64"


def node_words() -> List[str]:
    """How node is called so that it takes the page's program; nothing where it can't."""
    calls = ([NODE], [NODE, OPTION]) if NODE else ()
    takes = (words for words in calls if subprocess.run([*words, "-e", TAKES_IT], capture_output=True, check=False).returncode == 0)
    return next(takes, [])


def reason() -> str:
    """Why the tests are left out; nothing where they run."""
    if not NODE:
        return "no node"
    if not PROGRAM:
        return "no program: ./nozhgiva build makes one"
    try:
        if not kept_path().is_file() and os.environ.get("PLAY_MAKE") != "1":
            return "the page's program isn't made yet: PLAY_MAKE=1 makes it, in two minutes of a processor"
    except Missing as error:
        return str(error)
    return ""


def made(*words: str) -> Path:
    """What ./nozhgiva play writes, as a file."""
    path = Path(FOLDER.name) / (words[0].strip("-") if words else "play.html")
    with open(path, "wb") as file:
        subprocess.run(words_of_module(play, *words), stdout=file, check=True)
    return path


REASON = reason()
NODE_WORDS = node_words()
NODE_REASON = REASON or ("" if NODE_WORDS else "this node takes no memory of 64 bits")
WASM = None if REASON else made("--wasm")
