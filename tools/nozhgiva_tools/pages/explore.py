"""Makes a page of a run: one file that any browser shows, without a network.
  ./nozhgiva explore FILE > run.html                            FILE is an example, a plain schedule, or what `replay` wrote
  ./nozhgiva explore --members out.0 out.1 out.2 > run.html     what the members of a group wrote (docs/NODE.md)

Lanes for replicas and clients, messages as arrows; a slider and the arrow keys step through the lines; beside them what is known of each
replica after the line that is shown, which messages are under way, and the rules of docs/RULES.md that explain it. An example is shown
as it stands where it has its outputs under its lines; else the program is asked (the one that ./nozhgiva program finds; where
there is none, ./nozhgiva run). A page opens at the line that a comment `# at N` names, else at the first choice of a log.

Of members any files do: what they wrote to a file, or the logs of operate/keep and operate/watch, whose times order them; those that were
put aside (LOG.1, LOG.2) are named beside them. An event is one step. Where no line tells whether lines are of one event or of two, the page
says so, and so it does where several rules fit. It ends with 2 where its words are wrong, with 3 where a file can't be shown."""

import argparse
import json
import os
import sys
from html import escape
from typing import Tuple

from nozhgiva_tools.told.memberlines import BadRun

from .explorer.members import is_outputs, merge_members, read_outputs
from .explorer.reading import read_run, ShownRun
from .explorer.rules import read_rules

PARTS = os.path.join(os.path.dirname(os.path.abspath(__file__)), "explorer")
SCRIPTS = ("run.js", "explain.js", "routes.js", "lanes.js", "page.js")


def part(name: str) -> str:
    with open(os.path.join(PARTS, name), encoding="utf-8") as file:
        return file.read()


def page_of(title: str, run: ShownRun) -> str:
    """The page: the run as JSON, in which no tag can end the script that holds it."""
    data = json.dumps({**run, "rules": read_rules()}, ensure_ascii=False, separators=(",", ":")).replace("<", "\\u003c")
    script = "\n".join(part(name).replace('"use strict";\n', "") for name in SCRIPTS)
    page = part("page.html").replace("@TITLE@", escape(title)).replace("@STYLE@", part("style.css"))
    return page.replace("@SCRIPT@", '"use strict";\n' + script).replace("@RUN@", data)


def run_of(words: argparse.Namespace) -> Tuple[ShownRun, str]:
    """The run that the words ask for, and its title."""
    if words.members:
        return merge_members(words.members), "members " + " ".join(os.path.basename(path) for path in words.members)
    return read_outputs(words.file) if is_outputs(words.file) else read_run(words.file), os.path.basename(words.file)


def make_parser() -> argparse.ArgumentParser:
    usage = "%(prog)s [-h] FILE\n       %(prog)s [-h] --members LINES [LINES ...]"
    parser = argparse.ArgumentParser(prog="explore", usage=usage, description=__doc__, formatter_class=argparse.RawDescriptionHelpFormatter)
    parser.add_argument("file", nargs="?", metavar="FILE", help="an example, a plain schedule, or what `replay` wrote")
    parser.add_argument("--members", nargs="+", metavar="LINES", help="what the members of a group wrote, a file each")
    return parser


def parse_words() -> argparse.Namespace:
    parser = make_parser()
    words = parser.parse_args()
    if (words.file is None) == (words.members is None):
        parser.error("give FILE, or --members with what they wrote")
    return words


def main() -> int:
    words = parse_words()
    try:
        run, title = run_of(words)
        sys.stdout.write(page_of(title, run))
        sys.stdout.flush()
    except BadRun as error:
        print(f"explore: {error}", file=sys.stderr)
        return 3
    except UnicodeDecodeError:
        print("explore: a file isn't ASCII text", file=sys.stderr)
        return 3
    except BrokenPipeError:
        os.dup2(os.open(os.devnull, os.O_WRONLY), sys.stdout.fileno())
        return 0
    except OSError as error:
        print(f"explore: {error.filename}: {error.strerror}", file=sys.stderr)
        return 3
    return 0


def run() -> None:
    """Runs it to its end."""
    sys.exit(main())


if __name__ == "__main__":
    run()
