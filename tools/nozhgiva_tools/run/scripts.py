"""What trials share that are run by hand: their help, a script without words, one that runs sealed off, and how they end."""

import os
import signal
import sys
from typing import Callable, NoReturn, Optional, Sequence

from nozhgiva_tools import places

from .group import Failed


def answer_help() -> None:
    """Ends a script that is asked for help with what it says of itself."""
    if sys.argv[1:] in (["-h"], ["--help"]):
        signal.signal(signal.SIGPIPE, signal.SIG_DFL)
        print(sys.modules["__main__"].__doc__)
        sys.exit(0)


def no_words() -> None:
    """Answers help, and ends a script that takes no words with 2, where it is given some."""
    answer_help()
    if len(sys.argv) > 1:
        print(f"usage: {os.path.basename(sys.argv[0])}, without words: --help says what it does", file=sys.stderr)
        sys.exit(2)


def fail(what: str) -> NoReturn:
    raise Failed(what)


def end(main: Callable[[], Optional[int]]) -> NoReturn:
    """Runs a script to its end: 1, and a line that says what, where something isn't as it should be."""
    try:
        code = main() or 0
    except Failed as why:
        print(f"failed: {why}", file=sys.stderr)
        code = 1
    sys.exit(code)


def sealed(words: Sequence[str], *namespaces: str) -> None:
    """Runs the script once more, as root in namespaces of its own, so that what it mounts and joins is gone with it."""
    if os.environ.get("SEALED"):
        return
    if os.geteuid() != 0:
        print("this script has to mount and to make networks of its own: run it as root", file=sys.stderr)
        sys.exit(2)
    os.environ["SEALED"] = "1"
    os.execvp("unshare", ["unshare", *namespaces, "--mount", "--pid", "--fork", "--kill-child", "--mount-proc", *places.words_of_module(sys.modules["__main__"], *words[1:])])
