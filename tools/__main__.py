"""Runs the words of `nozhgiva`, or a module, with all packages of this repository to be found: `python3 tools WORD..`, `python3 tools -m MODULE WORD..`.

Python looks for packages in the folder that it runs, which is this one. The client and, in a clone, the tests and figures are named here and nowhere else."""

import sys

sys.dont_write_bytecode = True
TOP = sys.path[0] + "/.."
CLIENT = TOP + "/clients/python/src"


def ask() -> None:
    """It is asked often, so `nozhgiva` and operate/ask call it apart from all (-I): nothing else is read for it, and the client is looked for first."""
    sys.path[:0] = [CLIENT]
    from nozhgiva_tools.operate import ask as asking

    asking.run()


def run_module(name: str) -> None:
    import runpy

    runpy.run_module(name, run_name="__main__", alter_sys=True)


def main() -> None:
    if sys.argv[1:2] == ["ask"] and sys.flags.isolated:
        del sys.argv[1]
        ask()
    sys.path[1:1] = [CLIENT, TOP]
    if sys.version_info < (3, 9):
        print(f"nozhgiva: it needs python3, 3.9 or later, and this is {sys.version.split()[0]}", file=sys.stderr)
        sys.exit(2)
    if sys.argv[1:2] == ["-m"] and len(sys.argv) > 2:
        name = sys.argv[2]
        del sys.argv[1:3]
        run_module(name)
    else:
        from nozhgiva_tools.command import main as command

        command.run(sys.argv[1:])


main()
