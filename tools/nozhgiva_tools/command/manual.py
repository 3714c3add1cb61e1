"""A page for `man`, made from the tree of words."""

import argparse
import os
import re
import textwrap
import time
from typing import List

from . import commands, helping, tree
from .commands import Command


def escaped(text: str) -> str:
    """As roff wants it: no line that begins like a request, and no sign that means something else."""
    return re.sub(r"(?m)^(?=[.'])", r"\\&", text.replace("\\", "\\e").replace("-", "\\-"))


def filled(text: str) -> List[str]:
    return [escaped(line) for line in textwrap.wrap(text, 75, break_on_hyphens=False)]


def paragraphs(text: str) -> List[str]:
    """Prose is filled; lines that are indented stand as they are."""
    lines: List[str] = []
    for one in filter(str.strip, re.split(r"\n\s*\n", text)):
        is_shown = one.startswith("  ")
        lines += [".PP", ".nf", *map(escaped, one.strip("\n").split("\n")), ".fi"] if is_shown else [".PP", *filled(" ".join(one.split()))]
    return lines


def usage(parser: argparse.ArgumentParser) -> List[str]:
    """Its forms, a line each."""
    return [escaped(line) for line in parser.format_usage().replace("usage: ", "", 1).replace("\n       ", "\n").strip().split("\n")]


def of_command(command: Command, parser: argparse.ArgumentParser) -> List[str]:
    lines = [f".SS {escaped(command.name)}", ".nf", *usage(parser), ".fi", *paragraphs(parser.description or "")]
    for action in parser._actions:
        lines += [".TP", escaped(tree.invocation(action)), *filled(tree.help_of(action))]
    lines += [".PP", "Example:", ".PP", ".nf", f"  {escaped(command.example)}", ".fi", ".PP", "Exit codes:"]
    for code, what in command.codes:
        lines += [".TP", escaped(code), *filled(what)]
    return lines


def man(home: str) -> str:
    os.environ["COLUMNS"] = "80"  # as wide as argparse makes what it is asked for here
    moment = os.environ.get("SOURCE_DATE_EPOCH") or os.stat(os.path.join(home, "VERSION")).st_mtime
    made = time.strftime("%Y-%m-%d", time.gmtime(float(moment)))
    lines = [f'.TH NOZHGIVA 1 {made} "nozhgiva {helping.read_line(home, "VERSION")}"', ".SH NAME", "nozhgiva \\- look after a proved replicated table of keys and values"]
    lines += [".SH SYNOPSIS", ".B nozhgiva", "COMMAND [WORD..]", ".br", ".B nozhgiva", "COMMAND \\-\\-help", ".SH DESCRIPTION", *filled(f"nozhgiva {tree.ABOUT}."), ".SH OPTIONS"]
    for action in tree.root()._actions:
        lines += [".TP", escaped(tree.invocation(action)), *filled(tree.help_of(action))]
    lines.append(".SH COMMANDS")
    parsers = tree.all_of(home)
    for one in commands.all_there(home):
        lines += of_command(one, parsers[one.name])
    lines += [".SH ENVIRONMENT", ".TP", ".B NOZHGIVA_PROGRAM", *filled("The path of the program that is run, in place of the one that is built or installed. PROGRAM, its old name, is still read.")]
    return "\n".join(lines) + "\n"
