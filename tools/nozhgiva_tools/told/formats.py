"""Headers and messages by docs/FORMATS.md, apart from the program: what ./nozhgiva message-rows and ./nozhgiva command-rows spell their rows by."""

import argparse
import hashlib
import sys
from typing import Optional, Union

from nozhgiva_tools.places import ROWS

COMMANDS = ("reserved root entry request reply prepare prepare_ok commit start_view_change do_view_change start_view get_view "
            "get_prepare give_prepare get_block give_block block get_sync sync_view").split()
SEVENS = bytes([7] * 16)
REGISTER = b"\x01"

Field = Union[int, bytes]  # of a header: a number, or a name (`parent`, `request_name`)


def name(data: bytes) -> bytes:
    return hashlib.sha256(data).digest()[:16]


def number(n: int, size: int) -> bytes:
    return n.to_bytes(size, "big")


def header(command: str, body: bytes = b"", **fields: Field) -> bytes:
    """The header before a body; a field that isn't given is zero, the version is 1, and `size` is the body's unless it is given."""
    names = dict(parent=bytes(16), request_name=bytes(16))
    f = dict(cluster=0, client=0, request=0, view=0, op=0, commit=0, replica=0, version=1, kind=0, aux=0, size=128 + len(body))
    for field, value in fields.items():
        if isinstance(value, bytes) and field in names:
            names[field] = value
        elif isinstance(value, int) and field in f:
            f[field] = value
        else:
            raise TypeError(f"a header has no field {field} that is {value!r}")
    rest = (name(body) + names["parent"] + names["request_name"] + number(f["cluster"], 8) + number(f["client"], 8) + number(f["request"], 4)
            + number(f["view"], 4) + number(f["op"], 8) + number(f["commit"], 8) + number(f["size"], 4)
            + bytes([COMMANDS.index(command) + 1, f["replica"], f["version"], f["kind"]]) + number(f["aux"], 8) + bytes(8))
    return name(rest) + rest


def spelled(command: str, body: bytes = b"", **fields: Field) -> bytes:
    return header(command, body, **fields) + body


def rows_parser(name: str, what: Optional[str]) -> argparse.ArgumentParser:
    """The words of what makes rows."""
    parser = argparse.ArgumentParser(prog=name, description=what, formatter_class=argparse.RawDescriptionHelpFormatter)
    parser.add_argument("--check", action="store_true", help="compare the rows with what stands there, and write nothing")
    return parser


def write_rows(parser: argparse.ArgumentParser, rows: str, given: str, told: str) -> None:
    """Writes what a folder of rows is run on and what it must write; with --check they are compared with what stands there."""
    words = parser.parse_args()
    for file, text in (("stdin", given), ("stdout", told)):
        path = ROWS / rows / file
        if not words.check:
            path.write_text(text, encoding="utf-8")
        elif path.read_text(encoding="utf-8") != text:
            sys.exit(f"{path} differs")
