"""What bash, zsh and fish complete, made from the tree of words."""

import argparse
import re
from typing import Dict, List

from . import commands, tree
from .commands import Command

BASH = """# Completion for bash: put this where bash-completion looks, or say: eval "$(nozhgiva --completions bash)"
_nozhgiva() {
    local word=${COMP_WORDS[COMP_CWORD]}
    if [ "$COMP_CWORD" = 1 ]; then
        mapfile -t COMPREPLY < <(compgen -W '@NAMES@' -- "$word")
        return
    fi
    local flags='' words=''
    case ${COMP_WORDS[1]} in
@CASES@
    esac
    case $word in
        -*) mapfile -t COMPREPLY < <(compgen -W "$flags" -- "$word") ;;
        *) mapfile -t COMPREPLY < <(compgen -W "$words" -- "$word"; compgen -f -- "$word") ;;
    esac
}
complete -o filenames -F _nozhgiva nozhgiva ./nozhgiva
"""

ZSH = """#compdef nozhgiva ./nozhgiva
# Completion for zsh: put this as _nozhgiva into a folder of $fpath, or say after compinit: eval "$(nozhgiva --completions zsh)"
_nozhgiva_words() {
    [ $# = 0 ] || compadd -- "$@"
    _files
}
_nozhgiva() {
    if (( CURRENT == 2 )); then
        local -a names
        names=(
@NAMES@
        )
        _describe command names
        return
    fi
    local name=$words[2]
    shift words
    (( CURRENT-- ))
    case $name in
@CASES@
    esac
}
if [ "$funcstack[1]" = _nozhgiva ]; then _nozhgiva "$@"; else compdef _nozhgiva nozhgiva ./nozhgiva; fi
"""

FISH = """# Completion for fish: put this into a folder of $fish_complete_path, or say: nozhgiva --completions fish | source
function __nozhgiva_is
    set -l said (commandline -opc)
    test (count $said) -ge 2; and test $said[2] = $argv[1]
end
function __nozhgiva_is_first
    test (count (commandline -opc)) = 1
end
"""


def summary(action: argparse.Action) -> str:
    """The first words of an option's help, in one line."""
    return re.split(r"[;:]\s|\.\s", " ".join(tree.help_of(action).split()))[0].rstrip(".")


def names(there: List[Command]) -> Dict[str, str]:
    """The words that may come first, each with what it is."""
    own = {flag: summary(action) for action in tree.root()._actions for flag in action.option_strings}
    return {**{one.name: one.what for one in there}, "help": "tell a command's words", **own}


def first_only(home: str) -> Dict[str, List[str]]:
    """The first words that are no subcommands, each with those that may follow it."""
    return {"help": [one.name for one in commands.all_there(home)], "--completions": list(tree.SHELLS)}


def options(parser: argparse.ArgumentParser) -> List[argparse.Action]:
    return [action for action in parser._actions if action.option_strings and action.help != argparse.SUPPRESS]


def choices(action: argparse.Action) -> List[str]:
    return [str(one) for one in action.choices or ()]


def in_quotes(text: str) -> str:
    """As one word of zsh."""
    return "'" + text.replace("'", "'\\''") + "'"


def for_bash(home: str) -> str:
    cases = [f"        {name}) flags='{' '.join(tree.flags(one))}' words='{' '.join(tree.choices(one))}' ;;" for name, one in tree.all_of(home).items()]
    cases += [f"        {name}) words='{' '.join(words)}' ;;" for name, words in first_only(home).items()]
    return BASH.replace("@NAMES@", " ".join(names(commands.all_there(home)))).replace("@CASES@", "\n".join(cases))


def spec(action: argparse.Action, flag: str) -> str:
    """An option, as _arguments of zsh takes it: whether it may come again, its name, what it is, and what follows it."""
    again = "*" if isinstance(action, argparse._AppendAction) else ""
    what = re.sub(r"([\\\[\]])", r"\\\1", summary(action))
    follows = "" if action.nargs == 0 else ": :(%s)" % " ".join(choices(action)) if action.choices else ": :_files"
    return in_quotes(f"{again}{flag}[{what}]{follows}")


def for_zsh(home: str) -> str:
    def of(parser: argparse.ArgumentParser) -> str:
        specs = [spec(action, flag) for action in options(parser) for flag in action.option_strings]
        return " ".join([*specs, in_quotes("*: : _nozhgiva_words " + " ".join(tree.choices(parser)))])
    first = [f"            {in_quotes(name.replace(':', chr(92) + ':') + ':' + what)}" for name, what in names(commands.all_there(home)).items()]
    cases = [f"        {name}) _arguments {of(one)} ;;" for name, one in tree.all_of(home).items()]
    cases += [f"        {name}) _arguments {in_quotes('*: :(%s)' % ' '.join(words))} ;;" for name, words in first_only(home).items()]
    return ZSH.replace("@NAMES@", "\n".join(first)).replace("@CASES@", "\n".join(cases))


def in_fish_quotes(text: str) -> str:
    return "'" + text.replace("\\", "\\\\").replace("'", "\\'") + "'"


def fish_option(action: argparse.Action) -> str:
    """An option with all its names, what it is and what follows it."""
    said = [f"-l {flag[2:]}" if flag.startswith("--") else f"-{'s' if len(flag) == 2 else 'o'} {flag[1:]}" for flag in action.option_strings]
    follows = [] if action.nargs == 0 else [f"-x -a {in_fish_quotes(' '.join(choices(action)))}"] if action.choices else ["-r"]
    return " ".join([*said, *follows, f"-d {in_fish_quotes(summary(action))}"])


def for_fish(home: str) -> str:
    lines = [f"complete -c nozhgiva -f -n __nozhgiva_is_first -a {name} -d {in_fish_quotes(what)}" for name, what in names(commands.all_there(home)).items()]
    for name, parser in tree.all_of(home).items():
        when = f"complete -c nozhgiva -n '__nozhgiva_is {name}'"
        lines += [f"{when} {fish_option(action)}" for action in options(parser)]
        lines += [f"{when} -a {in_fish_quotes(' '.join(tree.choices(parser)))}"] if tree.choices(parser) else []
    lines += [f"complete -c nozhgiva -f -n '__nozhgiva_is {name}' -a {in_fish_quotes(' '.join(words))}" for name, words in first_only(home).items()]
    return FISH + "\n".join(lines) + "\n"


def script(home: str, shell: str) -> str:
    """What a shell is to read, one of tree.SHELLS."""
    return {"bash": for_bash, "zsh": for_zsh, "fish": for_fish}[shell](home)
