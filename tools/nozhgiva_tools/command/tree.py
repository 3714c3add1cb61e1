"""The words of all subcommands as one tree of argparse, of which help texts, the page for `man` and completions are made."""

import argparse
import importlib
from typing import Dict, List, Sequence

from . import commands
from .commands import Codes, Command

ABOUT = "builds, plays, runs and looks after a small replicated table of keys and values, whose safety is proved"
SHELLS = ("bash", "zsh", "fish")
FORMATTER = argparse.RawDescriptionHelpFormatter


def own_parser(name: str) -> argparse.ArgumentParser:
    """The parser of a module."""
    parser = importlib.import_module(name).make_parser()
    assert isinstance(parser, argparse.ArgumentParser)
    return parser


def table_parser(command: Command) -> argparse.ArgumentParser:
    """The parser of what has none of its own, by the table of subcommands."""
    parser = argparse.ArgumentParser(prog=command.name, usage=f"%(prog)s {command.usage}", description=f"{command.what[0].upper()}{command.what[1:]}.", formatter_class=FORMATTER)
    for name, what in command.words:
        if name.startswith("-"):
            parser.add_argument(name, action="store_true", help=what)
        else:
            parser.add_argument(name.lower(), metavar=name, help=what)
    return parser


def rows(codes: Codes) -> str:
    width = max(len(name) for name, _ in codes)
    return "".join(f"  {name:<{width}}  {what}\n" for name, what in codes)


def ending(command: Command) -> str:
    """What stands behind the words: an example, and what the exit codes mean."""
    text = f"example\n  {command.example}\n\nexit codes\n{rows(command.codes)}"
    if not command.calls:
        text += "  128 and more, in a shell: a signal ended it\n\nInput, output and code are the program's; docs/NODE.md and docs/SCHEDULE.md have all of it."
    return text.replace("%", "%%")


def parsers(home: str, wanted: Sequence[Command]) -> Dict[str, argparse.ArgumentParser]:
    """The parsers of some subcommands, below one of `nozhgiva`."""
    below = root().add_subparsers(metavar="COMMAND")
    made = {}
    for one in wanted:
        own = table_parser(one) if one.usage else own_parser(one.calls)
        made[one.name] = below.add_parser(one.name, parents=[own], add_help=False, help=one.what, description=own.description, epilog=ending(one), formatter_class=FORMATTER)
        made[one.name].usage = own.usage
    return made


def root() -> argparse.ArgumentParser:
    """What `nozhgiva` takes without a subcommand."""
    parser = argparse.ArgumentParser(prog="nozhgiva", description=ABOUT, formatter_class=FORMATTER)
    parser.add_argument("--version", action="store_true", help="tell the version, commit, program and toolchain")
    parser.add_argument("--man", action="store_true", help="write a page for man")
    parser.add_argument("--completions", metavar="SHELL", nargs="?", choices=SHELLS, help="write what a shell completes: bash, zsh or fish; bash where none is named")
    return parser


def flags(parser: argparse.ArgumentParser) -> List[str]:
    """All options of a parser."""
    return sorted(flag for action in parser._actions for flag in action.option_strings)


def choices(parser: argparse.ArgumentParser) -> List[str]:
    """The words that may stand where only some may."""
    return [str(one) for action in parser._actions if not action.option_strings and action.choices for one in action.choices]


def all_of(home: str) -> Dict[str, argparse.ArgumentParser]:
    return parsers(home, commands.all_there(home))


def invocation(action: argparse.Action) -> str:
    """How a word is written: an option with all its names and what follows it, or what stands in its place."""
    metavar = action.metavar if isinstance(action.metavar, str) else action.dest
    if not action.option_strings:
        return "{%s}" % ",".join(map(str, action.choices)) if action.choices else metavar
    return ", ".join(action.option_strings) + (f" {metavar}" if action.nargs != 0 else "")


def help_of(action: argparse.Action) -> str:
    return (action.help or "") % vars(action)
