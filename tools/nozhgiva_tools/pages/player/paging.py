"""The page: its parts, the program, the examples and the rules in one file."""

import base64
import gzip
import json
import re
from pathlib import Path
from typing import Dict, List

from nozhgiva_tools.pages.explorer.rules import read_rules
from nozhgiva_tools.places import EXAMPLES

HERE = Path(__file__).resolve().parent
EXPLORER = HERE.parent / "explorer"
OF_WORKER = ["engine.js", "worker.js"]
OF_PAGE = ["machine.js", "watch.js", "soak.js", "grammar.js", "share.js", "board.js", "moves.js", "game.js", "telling.js", "panels.js", "forms.js", "scenes.js", "guide.js", "play.js"]
STILL = "Groups that stand still"
OF_EXPLORER = ["run.js", "explain.js", "routes.js", "lanes.js"]


def scripts(folder: Path, names: List[str]) -> str:
    """Scripts as one."""
    return "\n".join((folder / name).read_text(encoding="utf-8").replace('"use strict";\n', "") for name in names)


def packed(data: bytes) -> str:
    """Bytes, squeezed, as text."""
    return base64.b64encode(gzip.compress(data, 9, mtime=0)).decode("ascii")


def without_outputs(text: str) -> str:
    """An example without what its lines gave: the page asks the program."""
    return "".join(line + "\n" for line in text.splitlines() if not line.startswith("  "))


def examples() -> List[Dict[str, str]]:
    """The schedules in the order of examples/README.md, each with its sentence and the heading that it stands under."""
    found: List[Dict[str, str]] = []
    section = ""
    for line in (EXAMPLES / "README.md").read_text(encoding="utf-8").splitlines():
        if line.startswith("## "):
            section = line[3:]
        row = re.fullmatch(r"\| ((?:`[^`]+\.txt`(?:, )?)+) \| (.*) \|", line)
        if row is None:
            continue
        for name in re.findall(r"`([^`]+)`", row[1]):
            text = without_outputs((EXAMPLES / name).read_text(encoding="utf-8"))
            found.append({"section": STILL if name.startswith("standstills/") else section, "name": name, "says": row[2].replace("`", ""), "text": text})
    return sorted(found, key=lambda example: example["section"] == STILL)


def key() -> str:
    """The explorer's key to its marks, without what it says of its keys."""
    page = (EXPLORER / "page.html").read_text(encoding="utf-8")
    found = re.search(r'<section id="key".*?</ul>', page, re.S)
    if found is None:
        raise ValueError("page.html has no section `key`")
    return found[0] + "</section>"


def page_of(program: bytes, origin: str) -> str:
    """The page that plays this program. No part may end the script that holds it."""
    data = json.dumps({"rules": read_rules(), "examples": examples()}, ensure_ascii=False, separators=(",", ":"))
    script = '"use strict";\n' + scripts(EXPLORER, OF_EXPLORER) + scripts(HERE, OF_PAGE)
    parts = {
        "STYLE": (EXPLORER / "style.css").read_text(encoding="utf-8") + (HERE / "style.css").read_text(encoding="utf-8"),
        "KEY": key(), "ORIGIN": origin, "PROGRAM": packed(program), "DATA": packed(data.encode()),
        "WORKER": '"use strict";\n' + scripts(HERE, OF_WORKER), "SCRIPT": script,
    }
    page = (HERE / "page.html").read_text(encoding="utf-8")
    return re.sub("@([A-Z]+)@", lambda found: parts[found[1]], page)
