"""Runs the program for one of its own words: input, output, exit code and signals are the program's; what a code means is said after it."""

import os
import resource
import signal
import subprocess
import sys
from typing import Callable, List, Optional

from nozhgiva_tools.run.program import end_with_parent, FORWARDED

from . import meanings


def passes_on(child: "subprocess.Popen[bytes]") -> Callable[[int, object], None]:
    def handler(number: int, _: object) -> None:
        if child.returncode is None:
            child.send_signal(number)

    return handler


def run(words: List[str]) -> int:
    """Runs a program, passes signals on to it, and gives its status, below 0 for the signal that ended it."""
    # A signal that comes meanwhile waits until there is somebody to pass it on to.
    signal.pthread_sigmask(signal.SIG_BLOCK, FORWARDED)
    child = subprocess.Popen(words, preexec_fn=end_with_parent, close_fds=False)
    for number in FORWARDED:
        if signal.getsignal(number) != signal.SIG_IGN:
            signal.signal(number, passes_on(child))
    signal.pthread_sigmask(signal.SIG_UNBLOCK, FORWARDED)
    return child.wait()


def end_by(number: int) -> int:
    """Ends this process by a signal, as the program was ended, so that whoever waits sees the same; no second core is left."""
    resource.setrlimit(resource.RLIMIT_CORE, (0, resource.getrlimit(resource.RLIMIT_CORE)[1]))
    signal.signal(number, signal.SIG_DFL) if number not in (signal.SIGKILL, signal.SIGSTOP) else None
    signal.pthread_sigmask(signal.SIG_UNBLOCK, [number])
    os.kill(os.getpid(), number)
    return 128 + number


def say(text: Optional[str]) -> None:
    """One line on standard error, where there is one."""
    if text:
        try:
            os.write(2, f"nozhgiva: {text}\n".encode(errors="backslashreplace"))
        except OSError:
            pass


def hand_on(program: str, kind: str, name: str, words: List[str]) -> int:
    """Runs the program with a word of its own and what stands behind it."""
    seen = meanings.look(name, words)
    try:
        status = run([program, name, *words])
    except OSError as error:
        say(f"{program} doesn't start: {error.strerror}")
        return 2
    say(meanings.of(name, words, status, kind, seen))
    sys.stdout = None  # type: ignore[assignment]  # nothing was written here, so nothing is flushed
    return status if status >= 0 else end_by(-status)
