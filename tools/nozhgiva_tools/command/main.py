"""What `nozhgiva` does with its words: it says what there is, or calls what the first one names."""

import importlib
import os
import sys
from typing import List, Tuple

from nozhgiva_tools.operate import standard
from nozhgiva_tools.places import TOP

from . import commands, helping, tree
from .commands import Command

HOME = str(TOP)
TEXTS = ("--help", "-h", "help", "--version", "--man")


class NotThere(Exception):
    """Something that is needed is missing, and it was said what."""


def fail(text: str, status: int = 2) -> int:
    print(f"nozhgiva: {text}", file=sys.stderr)
    return status


def find_program(command: Command) -> Tuple[str, str]:
    """The program's kind and path; it is said that there is none, and where it matters which one it is."""
    from nozhgiva_tools.run import program  # what only these need isn't read for the others

    try:
        found = program.find()
    except program.Missing as why:
        print(why, file=sys.stderr)
        raise NotThere from None
    if found.says and (command.tells_program or found.kind == program.GIVEN):
        print(found.says, file=sys.stderr)
    return found.kind, found.path


def call(command: Command, words: List[str]) -> int:
    """Gives this process over to a command's module, with the words as they stand."""
    if command.needs_program:
        os.environ["NOZHGIVA_PROGRAM"] = find_program(command)[1]
    sys.argv = [command.name, *[command.name] * command.is_word, *words]
    importlib.import_module(command.calls).run()
    return 0


def asks_for_help(command: Command, words: List[str]) -> bool:
    """Whether its help is wanted; of the program's own words only where nothing else is, since they are the program's to read."""
    if not command.calls:
        return words in (["-h"], ["--help"])
    own = words[:words.index("--")] if "--" in words else words
    return "-h" in own or "--help" in own


def run_command(home: str, name: str, words: List[str]) -> int:
    command = commands.find(name)
    if command is None:
        return fail(helping.unknown(home, name))
    if not commands.is_there(home, command):
        return fail(f"{name} isn't part of this installation: there is no {commands.file_of(command)}")
    if asks_for_help(command, words):
        return helping.show(helping.of_command(home, command))
    if command.calls:
        return call(command, words)
    from . import handing

    kind, path = find_program(command)
    return handing.hand_on(path, kind, name, words)


def text_of(home: str, word: str) -> str:
    if word == "--version":
        return helping.version(home)
    if word == "--man":
        from . import manual

        return manual.man(home)
    return helping.of_all(home)


def show_completions(home: str, words: List[str]) -> int:
    from . import completing

    if len(words) != 1 or words[0] not in tree.SHELLS:
        return fail(f"--completions takes one word: {', '.join(tree.SHELLS)}")
    return helping.show(completing.script(home, words[0]))


def main(home: str, words: List[str]) -> int:
    try:
        if not words:
            print(helping.of_all(home), end="", file=sys.stderr)
            return 2
        if words[0] in TEXTS and len(words) == 1:
            return helping.show(text_of(home, words[0]))
        if words[0] == "--completions":
            return show_completions(home, words[1:] or [tree.SHELLS[0]])
        if words[0] == "help":
            return run_command(home, words[1], ["--help"]) if len(words) == 2 else fail("its words are help NAME")
        if words[0].startswith("-"):
            return fail(f"no word {words[0]}: see `nozhgiva --help`")
        return run_command(home, words[0], words[1:])
    except NotThere:
        return 2
    except KeyboardInterrupt:
        return standard.INTERRUPTED


def take_input() -> None:
    """Takes as standard input what the script put elsewhere, since Python would have refused it."""
    number = os.environ.pop("NOZHGIVA_INPUT", "")
    if number:
        os.dup2(int(number), 0)
        os.close(int(number))


def run(words: List[str]) -> None:
    take_input()
    sys.exit(main(HOME, words))
