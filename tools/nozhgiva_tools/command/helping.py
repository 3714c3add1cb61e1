"""What `nozhgiva` says of itself: its help, by the table of subcommands, and its version."""

import difflib
import os
import subprocess
import sys
from typing import List

from . import commands, tree
from .commands import Command

FIRST = (("nozhgiva explore examples/damaged-copy.txt > run.html", "look at a recorded run in a browser; no program is needed"),
         ("nozhgiva run examples/put-get.txt", "see what the program does: builds it first, where that wasn't done"),
         ("nozhgiva test", "prove and test all of it"))


def show(text: str) -> int:
    """Writes a text to standard output; where that can't be written it says so, and the code is the program's for that."""
    try:
        sys.stdout.write(text)
        sys.stdout.flush()
        return 0
    except OSError as error:
        os.dup2(os.open(os.devnull, os.O_WRONLY), 1)  # what is left would be flushed at the end
        print(f"nozhgiva: standard output can't be written: {error.strerror}", file=sys.stderr)
        return 6
    except AttributeError:
        print("nozhgiva: standard output is closed", file=sys.stderr)
        return 6


def unknown(home: str, name: str) -> str:
    names = [one.name for one in commands.all_there(home)]
    near = difflib.get_close_matches(name, names, 1)
    return f"no command `{name}`: {f'did you mean `{near[0]}`?' if near else 'see `nozhgiva --help`'}"


def of_all(home: str) -> str:
    parts = [f"nozhgiva: {tree.ABOUT}\n\nusage: nozhgiva COMMAND [WORD..]\n"]
    there = commands.all_there(home)
    for group in commands.GROUPS:
        rows = tuple((one.name, one.what) for one in there if one.group == group and (group not in commands.OF_CLONES or is_clone(home)))
        parts += [f"\n{group}\n{tree.rows(rows)}"] if rows else []
    parts.append(f"\nFirst\n{tree.rows(FIRST)}" if is_clone(home) else "")
    parts.append("\n`nozhgiva COMMAND --help` tells a command's words, an example and its exit codes; `nozhgiva --version` the version, commit, program and toolchain;\n"
                 "`nozhgiva --man` a page for man; `nozhgiva --completions SHELL` what bash, zsh or fish complete. NOZHGIVA_PROGRAM=PATH names another program.\n")
    return "".join(parts)


def of_command(home: str, command: Command) -> str:
    return tree.parsers(home, [command])[command.name].format_help()


def is_clone(home: str) -> bool:
    return os.path.isdir(os.path.join(home, "crates"))


def read_line(home: str, name: str) -> str:
    try:
        with open(os.path.join(home, name), encoding="utf-8") as file:
            return file.readline().strip()
    except OSError:
        return ""


def output_of(words: List[str], where: str) -> str:
    try:
        return subprocess.run(words, cwd=where, stdin=subprocess.DEVNULL, stdout=subprocess.PIPE, stderr=subprocess.DEVNULL, text=True, check=False).stdout.strip()
    except OSError:
        return ""


def commit(home: str) -> str:
    if not is_clone(home):
        return read_line(home, "COMMIT") or "unknown"
    found = output_of(["git", "rev-parse", "--short=12", "HEAD"], home)
    return (found + (", changed" if output_of(["git", "status", "--porcelain", "-uno"], home) else "")) if found else "unknown"


def version(home: str) -> str:
    """Of the product, its commit, the program that is found, and the toolchain."""
    from nozhgiva_tools.run import program

    from . import kit

    try:
        kind, path, _ = program.find()
    except program.Missing:
        kind, path = "", ""
    said = {"": "none: `nozhgiva build` compiles one, `rt ci` proves it", "compiled": f"compiled, not proved: `rt ci` proves it ({path})", "given": f"the one that NOZHGIVA_PROGRAM names ({path})",
            "installed": f"{read_line(home, 'KIND') or 'not known whether proved'} ({path})"}.get(kind, f"{kind} ({path})")
    return tree.rows((("nozhgiva", read_line(home, "VERSION") or "unknown"), ("commit", commit(home)), ("program", said), ("toolchain", kit.identity()))).replace("\n  ", "\n")[2:]
