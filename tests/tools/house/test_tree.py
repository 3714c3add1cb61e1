"""The shape of what stands outside the crates: no file but one changes where Python looks for packages, no folder calls in a circle, and what is installed
holds no test."""

import re
import subprocess
import unittest
from typing import Dict, Iterator, List, Set, Tuple

from nozhgiva_tools.places import EXAMPLES, PACKAGING, TOOLS, TOP

CHANGES_PATHS = re.compile(r"\bsys\.path(?:\.insert|\.append|\.extend|\[[^\]]*\] *\+?=| *\+?=)")
ALONE = {"tools/__main__.py"}
NAMES = {"tools": "nozhgiva_tools", "tests": "tests", "bench": "bench"}
# What each folder's Python may import of the others.
BELOW = {"tools": set(), "bench": {"tools"}, "tests": {"tools", "bench"}}  # type: Dict[str, Set[str]]
# The parts of the package, from the lowest: each may import those before it, and `places`, and no part imports one behind it. `command` names modules of
# all parts in its table of subcommands, and imports the one that is called.
PARTS = ("told", "operate", "run", "command", "pages", "house")
CALLED = re.compile(r"words_of_module\(\"([\w.]+)\"")
NAMED = re.compile(r"\bTOP(?: /|,) \"(tests|tools|bench|packaging|operate|examples)\b")
NO_TEST = re.compile(r"(^|/)(tests?|mutations|bench|house)(/|$)|_test\.|test_|(^|/)check")


def files() -> List[str]:
    listed = subprocess.run(["git", "ls-files"], cwd=TOP, stdout=subprocess.PIPE, text=True, check=True).stdout.splitlines()
    return [path for path in listed if not path.startswith("crates/") and (TOP / path).is_file()]


def python() -> Iterator[Tuple[str, str]]:
    for path in files():
        if path.endswith(".py") and not path.startswith("clients/"):
            yield path, (TOP / path).read_text(encoding="utf-8")


def imports(text: str, package: str) -> Set[str]:
    """The words behind a package's name in imports."""
    return {found[1] or "" for found in re.finditer(rf"(?m)^ *(?:from|import) {package}(?:\.(\w+))?\b", text)}


@unittest.skipUnless((TOP / ".git").exists(), "no clone")
class Tree(unittest.TestCase):
    def test_one_file_says_where_packages_are(self) -> None:
        self.assertEqual({path for path, text in python() if CHANGES_PATHS.search(text) and path != "tests/tools/house/test_tree.py"}, ALONE)

    def test_no_folder_calls_one_above_it(self) -> None:
        for path, text in python():
            folder = path.split("/")[0]
            called = {other for other, name in NAMES.items() if other != folder and imports(text, name)}
            if folder in BELOW:
                self.assertLessEqual(called, BELOW[folder], path)

    def test_parts_of_the_package_call_those_below_them(self) -> None:
        for path, text in python():
            part = path.split("/")[2] if path.startswith("tools/nozhgiva_tools/") else ""
            if part in PARTS:
                called = (imports(text, "nozhgiva_tools") & set(PARTS)) - {part}
                self.assertLessEqual(called, set(PARTS[:PARTS.index(part)]), path)

    def test_what_another_folder_has_is_imported_or_named_once(self) -> None:
        """A module of another folder is imported and handed to `words_of_module`; where folders are stands in places.py."""
        for path, text in python():
            own = path[:-len(".py")].replace("tools/nozhgiva_tools/", "nozhgiva_tools/").replace("/", ".")
            called = {name for name in CALLED.findall(text) if not own.startswith(name.rpartition(".")[0] + ".")}
            named = set(NAMED.findall(text)) - {path.split("/")[0]} if path != "tools/nozhgiva_tools/places.py" else set()
            self.assertEqual((called, named), (set(), set()), path)

    def test_the_order_has_all_parts(self) -> None:
        found = {path.split("/")[2] for path, _ in python() if path.startswith("tools/nozhgiva_tools/") and path.count("/") > 2}
        self.assertEqual(found, set(PARTS))

    def test_what_may_be_run_says_by_what(self) -> None:
        listed = subprocess.run(["git", "ls-files", "-s"], cwd=TOP, stdout=subprocess.PIPE, text=True, check=True).stdout.splitlines()
        programs = {path for mode, path in ((line.split()[0], line.split("\t")[1]) for line in listed) if mode == "100755"}
        self.assertEqual({path for path in programs if not (TOP / path).read_bytes().startswith(b"#!")}, set())

    def test_each_example_has_a_line_on_its_page(self) -> None:
        page = (EXAMPLES / "README.md").read_text(encoding="utf-8")
        names = [path.name for path in EXAMPLES.iterdir() if path.name not in ("README.md", "__pycache__")]
        self.assertGreater(len(names), 20)
        self.assertEqual([name for name in names if not any(f"`{name}{end}" in page for end in "` /")], [])

    def test_each_top_folder_says_what_it_holds(self) -> None:
        folders = {path.split("/")[0] for path in files() if "/" in path} - {".ci", "docs", "clients"}
        self.assertEqual({folder for folder in folders if not (TOP / folder / "README.md").is_file()}, set())


class Installed(unittest.TestCase):
    def patterns(self) -> List[str]:
        lines = (PACKAGING / "files.txt").read_text(encoding="utf-8").splitlines()
        return [line for line in lines if line and not line.startswith("#")]

    def test_each_line_names_files_and_no_test(self) -> None:
        for pattern in self.patterns():
            found = [str(path.relative_to(TOP)) for path in TOP.glob(pattern) if path.is_file()]
            self.assertTrue(found, pattern)
            self.assertEqual([path for path in found if NO_TEST.search(path)], [])

    def test_all_that_installed_modules_import_is_installed(self) -> None:
        shipped = {str(path.relative_to(TOP)) for pattern in self.patterns() for path in TOP.glob(pattern) if path.is_file()}
        modules = {path[len("tools/"):-len(".py")].replace("/", ".").replace(".__init__", "") for path in shipped if path.endswith(".py") and path.startswith("tools/")}
        for path in (one for one in shipped if one.startswith("tools/nozhgiva_tools/") and one.endswith(".py")):
            package = path[len("tools/"):].rpartition("/")[0].replace("/", ".")
            for found in re.finditer(r"(?m)^ *from (nozhgiva_tools[\w.]*|\.[\w.]*) import ([\w, ]+)$", (TOP / path).read_text(encoding="utf-8")):
                base = found[1] if found[1].startswith("nozhgiva") else (package + found[1] if found[1] != "." else package)
                for name in (word.split(" as ")[0].strip() for word in found[2].split(",")):
                    self.assertTrue(base in modules and ((TOOLS / (base.replace(".", "/") + ".py")).is_file() or f"{base}.{name}" in modules
                                                         or (TOOLS / base.replace(".", "/") / "__init__.py").read_text(encoding="utf-8").find(name) >= 0),
                                    f"{path}: {base}.{name}")


if __name__ == "__main__":
    unittest.main()
