"""The wheel and the source archive as flit makes them: what they hold, and an installation from the wheel without a network, which asks a group."""

import email
import importlib.util
import os
import subprocess
import sys
import tarfile
import tempfile
import unittest
import zipfile
from pathlib import Path

from running import CLUSTER, PROGRAM, Running, is_there

ROOT = Path(__file__).resolve().parent.parent
TOP = ROOT.parents[1]
LIST = ROOT / "tests" / "wheel.txt"
STEM = "nozhgiva-1.0.0"
BESIDE = {"LICENSE", "PKG-INFO", "README.md", "pyproject.toml"}
"""What the source archive holds beside the package."""
EPOCH = "1600000000"
"""The time of all files of an archive, so that the same files give the same bytes."""
HOOK = "import sys, flit_core.buildapi as flit; print(getattr(flit, sys.argv[1])(sys.argv[2]))"
SCRIPT = """
import importlib.metadata, importlib.resources, nozhgiva, nozhgiva.aio, nozhgiva.recipes, sys
from nozhgiva.messages import Put, Request
assert nozhgiva.__file__.startswith(sys.prefix), nozhgiva.__file__
assert importlib.metadata.requires("nozhgiva") is None
data = importlib.metadata.metadata("nozhgiva")
assert data["Requires-Python"] == ">=3.9", dict(data)
assert {"License :: OSI Approved :: Apache Software License", "Typing :: Typed"} <= set(data.get_all("Classifier"))
assert "# A client in Python" in (data["Description"] or data.get_payload())
assert importlib.resources.read_text("nozhgiva", "py.typed") == ""
assert importlib.metadata.version("nozhgiva") == nozhgiva.__version__
print(nozhgiva.__version__, len(Request(5, 7, 1, Put("a", "b")).encode()))
"""


def run(*words, cwd="/"):
    """What a command prints; nothing of this process's way to modules, and nowhere to fetch from."""
    env = {name: value for name, value in os.environ.items() if not name.startswith(("PYTHON", "PIP"))}
    env |= {"PIP_NO_INDEX": "1", "PIP_DISABLE_PIP_VERSION_CHECK": "1", "PYTHONDONTWRITEBYTECODE": "1", "SOURCE_DATE_EPOCH": EPOCH}
    ran = subprocess.run([str(word) for word in words], cwd=cwd, env=env, capture_output=True, text=True)
    if ran.returncode:
        raise AssertionError(f"{words} ends with {ran.returncode}: {ran.stdout}{ran.stderr}")
    return ran.stdout


def built(what, root, into):
    """The archive that the hook of this name makes, as pip and build call it: in the folder of the package."""
    into.mkdir()
    return into / run(sys.executable, "-c", HOOK, f"build_{what}", into, cwd=root).strip().splitlines()[-1]


def listed():
    return [line for line in LIST.read_text(encoding="ascii").splitlines() if not line.startswith("#")]


@unittest.skipUnless(importlib.util.find_spec("flit_core"), "no flit_core, which Debian's flit has")
class Archives(unittest.TestCase):
    def setUp(self):
        made = tempfile.TemporaryDirectory()
        self.addCleanup(made.cleanup)
        self.folder = Path(made.name)

    def test_the_wheel_holds_what_the_list_says(self):
        wheel = built("wheel", ROOT, self.folder / "one")
        self.assertEqual(wheel.name, f"{STEM}-py3-none-any.whl")
        self.assertEqual(wheel.read_bytes(), built("wheel", ROOT, self.folder / "two").read_bytes())
        with zipfile.ZipFile(wheel) as packed:
            self.assertEqual(sorted(packed.namelist()), sorted(listed()))
            for name in (one for one in listed() if ".dist-info/" not in one):
                self.assertEqual(packed.read(name), (ROOT / "src" / name).read_bytes())
            self.assertEqual(packed.read(f"{STEM}.dist-info/LICENSE"), (TOP / "LICENSE").read_bytes())

    def test_the_source_archive_gives_the_same_wheel(self):
        archive = built("sdist", ROOT, self.folder / "one")
        self.assertEqual(archive.read_bytes(), built("sdist", ROOT, self.folder / "two").read_bytes())
        package = {f"src/{name}" for name in listed() if ".dist-info/" not in name}
        with tarfile.open(archive) as packed:
            self.assertEqual({name.partition("/")[2] for name in packed.getnames()}, package | BESIDE)
            packed.extraction_filter = getattr(tarfile, "data_filter", None)  # which older releases of Python don't have
            packed.extractall(self.folder)
        told = email.message_from_string((self.folder / STEM / "PKG-INFO").read_text(encoding="utf-8"))
        self.assertEqual([told[name] for name in ("Name", "Version")], ["nozhgiva", "1.0.0"])
        again = built("wheel", self.folder / STEM, self.folder / "three")
        self.assertEqual(again.read_bytes(), built("wheel", ROOT, self.folder / "four").read_bytes())

    def test_installed_anew_it_asks_a_group(self):
        wheel = built("wheel", ROOT, self.folder / "one")
        try:
            run(sys.executable, "-m", "venv", self.folder / "fresh")
        except AssertionError as error:
            self.skipTest(f"no virtual environment can be made: {error}")
        python = self.folder / "fresh" / "bin" / "python"
        run(python, "-m", "pip", "install", wheel)
        self.assertEqual(run(python, "-W", "ignore", "-c", SCRIPT), "1.0.0 134\n")
        if not is_there(PROGRAM):
            self.skipTest(f"installed, and asked nobody: no program at {PROGRAM}")
        with Running() as running:
            said = run(python, TOP / "examples" / "hello.py", CLUSTER, *running.addresses)
        self.assertEqual(said, "color is green\ncolor is None\n")


if __name__ == "__main__":
    unittest.main()
