"""What all scripts share: which program they take where none is named, numbers among their words, and how they end where whoever reads them has gone, or they are interrupted."""

import argparse
import os
import sys
from typing import Callable, NoReturn, Union

INTERRUPTED = 130
UNREAD = 141  # as a shell says of a program whose reader has gone


def program() -> str:
    """The program that the environment names, else vr_app, of the PATH. PROGRAM is the old name, which is said where it is read."""
    old = os.environ.get("PROGRAM", "")
    named = os.environ.get("NOZHGIVA_PROGRAM", "")
    if old and not named:
        print("PROGRAM is the old name of NOZHGIVA_PROGRAM, and still read", file=sys.stderr)
    return named or old or "vr_app"


def above_0(text: str) -> float:
    """A number above 0, as argparse takes it: with none of its seconds a trial would try nothing."""
    try:
        number = float(text)
    except ValueError:
        number = 0.0
    if not 0 < number < 1e6:
        raise argparse.ArgumentTypeError(f"it is a number above 0, and not {text}")
    return number


def counted(text: str) -> int:
    """A number of times, 1 or more, as argparse takes it."""
    if not text.isdecimal() or not int(text):
        raise argparse.ArgumentTypeError(f"it is 1 or more, and not {text}")
    return int(text)


def end(main: Callable[[], int]) -> NoReturn:
    """Runs a script to its end."""
    code: Union[str, int, None]
    try:
        try:
            code = main()
        except SystemExit as ended:
            code = ended.code
        if sys.stdout is not None:
            sys.stdout.flush()
    except BrokenPipeError:
        forget_output()
        code = UNREAD
    except KeyboardInterrupt:
        code = INTERRUPTED
    sys.exit(code)


def forget_output() -> None:
    """What is still to be written to standard output goes nowhere, so that nothing fails at the very end."""
    try:
        os.dup2(os.open(os.devnull, os.O_WRONLY), sys.stdout.fileno())
    except (OSError, ValueError):
        pass
