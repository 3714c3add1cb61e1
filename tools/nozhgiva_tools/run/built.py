"""The program, for what plays or tries it: the one that NOZHGIVA_PROGRAM names, or the one that is built."""

import sys

from . import program

PATH, MISSING, SAYS = "", "", ""
try:
    _, PATH, SAYS = program.find()
except program.Missing as why:
    MISSING = str(why)


def is_there() -> bool:
    return bool(PATH)


def or_end() -> str:
    """Its path; without it the script ends with 2. Which one it is, or that there is none, is said on standard error."""
    if MISSING or SAYS:
        print(MISSING or SAYS, file=sys.stderr)
    if not is_there():
        sys.exit(2)
    return PATH
