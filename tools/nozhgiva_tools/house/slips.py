"""Makes slips in the definitions of the rules, one by one, and tells which lemmas of the safety proof refuse each.
  ./nozhgiva slips [NAME..]     these slips alone

A slip changes one place of crates/vr_rules/specs, in a copy of that crate that is thrown away afterwards. The crate above that is to
refuse it is checked over the copy's text. What the proofs of vr_rules themselves say to it isn't told, nor what the rows of rows_computed
say.
It begins with `rt check` of these crates, which builds their libraries; each slip then takes about 20 seconds of processor time. It
ends with status 1 where a slip isn't refused, and with 2 where a name is that of no slip, the toolchain is missing, or none could be tried.
"""

import argparse
import os
import re
import shutil
import subprocess
import sys
import tempfile
from typing import Dict, List, NamedTuple, Tuple

from nozhgiva_tools.places import TOP

Libraries = Dict[str, List[str]]
"""Of each crate of the repository the libraries that its line names."""


class Slip(NamedTuple):
    """A change of one place of a file of crates/vr_rules/specs, and the crate above that is to refuse it."""

    name: str
    file: str
    old: str
    new: str
    crate: str


SLIPS = [
    Slip("another-views-vote", "Deciding.antt", "((a.view == r.view) && (nat_lt r.commit a.op", "(nat_le a.view r.view && (nat_lt r.commit a.op", "law_2_chains"),
    Slip("same-view-shortens", "Words.antt", "(l.view == r.log_view) && nat_lt (head r) l.head", "(l.view == r.log_view) && nat_lt r.commit l.head", "law_2_chains"),
    Slip("leads-on", "Opening.antt", "in_next_view r = record r { view = r.view + 1 }", "in_next_view r = record r { view = r.view }", "law_2_chains"),
    Slip("wanted-overwritten", "Deciding.antt", "(is_known h h.op r && is_absent (part_at r h.op))", "(not (is_unknown h.op r) && is_absent (part_at r h.op))", "law_2_chains"),
    Slip("past-the-head", "Words.antt", "max r.commit (min c (head r))", "max r.commit c", "law_2_chains"),
    Slip("before-its-write", "Rules.antt", "make e = write e ⨾ says (send_to_all (prepare e)) ⨾ advance", "make e = says (send_to_all (prepare e)) ⨾ write e ⨾ advance", "law_2_chains"),
    Slip("after-its-superblock", "Words.antt", "does checkpoints ⨾ change (with_checkpoint c) ⨾ save", "change (with_checkpoint c) ⨾ save ⨾ does checkpoints", "law_6_one_log"),
]

ROOT = str(TOP)


def crates() -> Libraries:
    """Each crate of the repository with the libraries that its line names."""
    found: Libraries = {}
    with open(os.path.join(ROOT, "crates.txt")) as lines:
        for line in lines:
            line = line.split("#")[0].strip()
            if line:
                head, libraries = line.split(":", 1)
                found[head.split()[0]] = libraries.split()
    return found


def below(crate: str, libraries: Libraries) -> List[str]:
    """The repository's crates that a crate stands on, lowest first."""
    order: List[str] = []

    def walk(name: str) -> None:
        for library in libraries[name]:
            if library in libraries and library not in order:
                walk(library)
                order.append(library)

    walk(crate)
    return order


def command(kit: str, crate: str, copy: str, libraries: Libraries) -> List[str]:
    """The check of a crate over the libraries that are built, but for the copied crate and those above it: these are read anew."""
    line = [os.path.join(kit, "bin", "rattle"), "check", "--crate-name", crate, "src/lib.rt"]
    line += ["-L", "dependency=" + os.path.join(kit, "rlibs")]
    order = below(crate, libraries)
    foreign = {x for name in order + [crate] for x in libraries[name] if x not in libraries}
    for name in sorted(foreign | {"std", "core"}):
        line += ["--extern", "%s=%s/rlibs/%s.rlib" % (name, kit, name)]
    for name in order:
        if name == "vr_rules" or "vr_rules" in below(name, libraries):
            source = copy if name == "vr_rules" else os.path.join(ROOT, "crates", name)
            line += ["--lib", "%s:core,std,%s=%s/src/lib.rt" % (name, ",".join(libraries[name]), source)]
            continue
        built = os.path.join(ROOT, "crates", name, "out", "rlib")
        line += ["-L", "dependency=" + built]
        if name in libraries[crate]:
            line += ["--extern", "%s=%s/%s.rlib" % (name, built, name)]
    logic = os.path.join(kit, "rattle", "logic", "antt-project.json")
    return line + ["--antt-project", logic, "--logic-built", os.path.join(kit, "logic_built"), "--links", crate + "=", "--jobs", "2"]


def refusals(kit: str, slip: Slip, libraries: Libraries) -> List[Tuple[str, str]]:
    """The lemmas of the crate's own proofs that are refused over the slip, each with its file."""
    with tempfile.TemporaryDirectory() as folder:
        copy = os.path.join(folder, "vr_rules")
        shutil.copytree(os.path.join(ROOT, "crates", "vr_rules"), copy, ignore=shutil.ignore_patterns("out"))
        path = os.path.join(copy, "specs", slip.file)
        with open(path) as source:
            text = source.read()
        if text.count(slip.old) != 1:
            sys.exit("%s: its text stands %d times in %s" % (slip.name, text.count(slip.old), slip.file))
        with open(path, "w") as target:
            target.write(text.replace(slip.old, slip.new))
        told = subprocess.run(command(kit, slip.crate, copy, libraries), cwd=os.path.join(ROOT, "crates", slip.crate), capture_output=True, text=True)
    text = told.stdout + told.stderr
    refused: List[Tuple[str, str]] = re.findall(r"^\./proofs/(\S+?)\.antt:\d+:\d+: error: `([^`]+)`", text, re.M)
    if not refused and "\nlogic=" not in text:
        sys.exit("%s: the check of %s came to no end:\n%s" % (slip.name, slip.crate, text[-2000:]))
    return refused


def make_parser() -> argparse.ArgumentParser:
    parser = argparse.ArgumentParser(prog="slips", description=__doc__, formatter_class=argparse.RawDescriptionHelpFormatter)
    parser.add_argument("names", nargs="*", metavar="NAME", help="one of: " + ", ".join(slip.name for slip in SLIPS))
    return parser


def chosen() -> List[Slip]:
    """The slips that are asked for; a name of none ends the script."""
    parser = make_parser()
    names: List[str] = parser.parse_args().names
    unknown = sorted(set(names) - {slip.name for slip in SLIPS})
    if unknown:
        parser.error("no slip %s: --help has their names" % ", ".join(unknown))
    return [slip for slip in SLIPS if not names or slip.name in names]


def say(text: str) -> None:
    print(text, file=sys.stderr, flush=True)


def main() -> None:
    slips = chosen()
    if shutil.which("rt") is None:
        say("slips: `rt` isn't in PATH: without Rattle's toolchain nothing can be checked")
        sys.exit(2)
    kit = os.path.dirname(subprocess.run(["rt", "doc"], capture_output=True, text=True, check=True).stdout.strip())
    libraries = crates()
    for crate in sorted({slip.crate for slip in slips}):
        say("slips: %s is checked as it stands, with all below it" % crate)
        if subprocess.run(["rt", "check"], cwd=os.path.join(ROOT, "crates", crate), stdout=subprocess.DEVNULL).returncode:
            sys.exit("%s isn't proved as it stands" % crate)
    tried, passed = 0, 0
    for slip in slips:
        say("slips: %s, some 20 s" % slip.name)
        refused = refusals(kit, slip, libraries)
        tried += 1
        passed += not refused
        print("%s: %s" % (slip.name, ", ".join("%s (%s, %s)" % (lemma, slip.crate, file) for file, lemma in refused) or "NOT REFUSED"), flush=True)
    print("%d of %d slips refused" % (tried - passed, tried))
    sys.exit(2 if not tried else 1 if passed else 0)


def run() -> None:
    """Runs it to its end."""
    main()


if __name__ == "__main__":
    run()
