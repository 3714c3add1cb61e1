"""What bash, zsh and fish complete: each reads what `nozhgiva --completions` writes for it, and is asked for a command, an option and a word."""

import functools
import os
import pty
import re
import select
import shutil
import subprocess
import tempfile
import time
import unittest
from typing import Dict, List, Set

from nozhgiva_tools.command import commands
from nozhgiva_tools.places import TOP, words_of_module

from .common import call, NOZHGIVA

# What stands on the line, and what is offered of it; with an end of a word that only one thing fits, so that each shell puts it in.
ROWS = (("wat", "watch"), ("keep --metrics-", "--metrics-file"), ("health --restar", "--restart"), ("inspect js", "json"), ("--compl", "--completions"), ("--completions z", "zsh"),
        ("help inspe", "inspect"))
BASH = 'eval "$("$0" --completions bash)"; COMP_WORDS=(nozhgiva "$@"); COMP_CWORD=$#; _nozhgiva; printf "%s\\n" "${COMPREPLY[@]}"'
FISH = '"$argv[1]" --completions fish | source; complete -C "nozhgiva $argv[2]"'
# Completes once, and writes the line as it stands then.
ZSH = """
PS1='ready> '
autoload -Uz compinit && compinit -D -u
eval "$("$NOZHGIVA" --completions zsh)"
tell() { print -r -- $BUFFER > $TOLD; exit }
zle -N tell
bindkey '^I' complete-word
bindkey '^X' tell
"""
PATIENCE = 60.0


def lines_of(words: List[str]) -> List[str]:
    ran = call(words)
    assert (ran.returncode, ran.stderr) == (0, b""), ran
    return ran.stdout.decode().splitlines()


def read_until(terminal: int, wanted: bytes) -> bytes:
    """What comes from a terminal, up to a text that is waited for or the end."""
    seen, end = b"", time.monotonic() + PATIENCE
    while wanted not in seen and time.monotonic() < end:
        if select.select([terminal], [], [], 1.0)[0]:
            try:
                seen += os.read(terminal, 4096)
            except OSError:  # a terminal whose process is gone
                break
    return seen


def completed_by_zsh(line: str) -> str:
    """What zsh makes of a line by one press of Tab."""
    with tempfile.TemporaryDirectory() as home:
        told = os.path.join(home, "told")
        with open(os.path.join(home, ".zshrc"), "w", encoding="ascii") as start:
            start.write(ZSH)
        env = {"PATH": os.environ["PATH"], "HOME": home, "ZDOTDIR": home, "TERM": "dumb", "NOZHGIVA": NOZHGIVA, "TOLD": told}
        near, far = pty.openpty()
        with subprocess.Popen(["zsh", "-d", "-i"], stdin=far, stdout=far, stderr=far, env=env, cwd=TOP, start_new_session=True) as shell:
            os.close(far)
            try:
                seen = read_until(near, b"ready> ")
                os.write(near, line.encode() + b"\t\x18")
                seen += read_until(near, b"no such text")
            finally:
                shell.kill()
                os.close(near)
        if not os.path.exists(told):
            raise AssertionError(f"zsh told nothing: {seen!r}")
        with open(told, encoding="ascii") as file:
            return file.read().strip()


class Completing(unittest.TestCase):
    def test_bash(self) -> None:
        for line, wanted in ROWS:
            self.assertEqual(lines_of(["bash", "-c", BASH, NOZHGIVA, *line.split()]), [wanted])

    @unittest.skipUnless(shutil.which("fish"), "no fish")
    def test_fish(self) -> None:
        for line, wanted in ROWS:
            self.assertEqual([said.split("\t")[0] for said in lines_of(["fish", "--no-config", "-c", FISH, NOZHGIVA, line])], [wanted])

    @unittest.skipUnless(shutil.which("zsh"), "no zsh")
    def test_zsh(self) -> None:
        for line, wanted in ROWS:
            before = line.rpartition(" ")[0]
            self.assertEqual(completed_by_zsh(f"nozhgiva {line}"), " ".join(filter(None, ("nozhgiva", before, wanted))))

    def test_each_shell_has_all_options_of_each_command(self) -> None:
        for one, flags in wanted_flags().items():
            for shell, offered in (("bash", bash_flags), ("zsh", zsh_flags), ("fish", fish_flags)):
                with self.subTest(name=one, shell=shell):
                    self.assertEqual(offered(one), flags)

    def test_a_shell_that_isnt_known(self) -> None:
        for words in (["tcsh"], ["bash", "zsh"]):
            ran = call([NOZHGIVA, "--completions", *words])
            self.assertEqual((ran.returncode, ran.stdout, b"bash, zsh, fish" in ran.stderr), (2, b"", True))
        self.assertEqual(call([NOZHGIVA, "--completions"]).stdout, call([NOZHGIVA, "--completions", "bash"]).stdout)


def wanted_flags() -> Dict[str, Set[str]]:
    """The long options of each command, as its script says them itself, or the table where it has the words."""
    found = {}
    for one in commands.all_there(str(TOP)):
        said = one.usage or subprocess.run(words_of_module(one.calls, "--help"), stdout=subprocess.PIPE, check=False).stdout.decode()
        said = re.split(r"\n(?:options|optional arguments):\n", said)[-1].split("\n\n")[0]
        found[one.name] = set(re.findall(r"(?<![\w-])--[a-z][a-z0-9-]*", said)) | {"--help"}
    return found


@functools.lru_cache(maxsize=None)
def script(shell: str) -> List[str]:
    return lines_of([NOZHGIVA, "--completions", shell])


def line_of(shell: str, begins: str) -> List[str]:
    return [line for line in script(shell) if line.startswith(begins)]


def bash_flags(name: str) -> Set[str]:
    return set(re.findall(r"--[a-z0-9-]+", line_of("bash", f"        {name}) ")[0].split("'")[1]))


def zsh_flags(name: str) -> Set[str]:
    return set(re.findall(r"'\*?(--[a-z0-9-]+)\[", line_of("zsh", f"        {name}) _arguments")[0]))


def fish_flags(name: str) -> Set[str]:
    return {"--" + flag for line in line_of("fish", f"complete -c nozhgiva -n '__nozhgiva_is {name}' ") for flag in re.findall(r" -l ([a-z0-9-]+)", line)}


if __name__ == "__main__":
    unittest.main()
