"""Makes `bad.txt` and `answers.txt` of the messages in `version-1.txt` and `version-2.txt`, each by a change of one of them (README.md here).
  clients/vectors/make-changed              writes both files
  clients/vectors/make-changed --check      compares them with those that stand here

The changes are made on bytes, at the places that docs/FORMATS.md gives; no client has a part in it."""

import os
import sys
from typing import Callable, Dict, Iterator, Optional, Tuple

from nozhgiva_tools.places import TOP
from nozhgiva_tools.told.formats import COMMANDS, Field, name, number, spelled

HERE = os.path.join(TOP, "clients", "vectors")

FIELDS = {
    "body": (16, 16), "parent": (32, 16), "request_name": (48, 16), "cluster": (64, 8), "client": (72, 8), "request": (80, 4), "view": (84, 4),
    "op": (88, 8), "commit": (96, 8), "size": (104, 4), "command": (108, 1), "replica": (109, 1), "version": (110, 1), "kind": (111, 1),
    "aux": (112, 8), "zeros": (120, 8),
}
"""Where a field of the header stands, and how many bytes it has."""
HEADER = 128
BAD_HEAD = """\
# Bytes that are no message for a client: the fault, what was changed, and the bytes, with tabs between them.
# Made by clients/vectors/make-changed of the messages in version-1.txt and version-2.txt.
"""
ANSWERS_HEAD = """\
# What a message says to a client whose request is open: the word, why, the request's bytes and the message's, with tabs between them.
# Made by clients/vectors/make-changed of the messages in version-1.txt and version-2.txt.
"""


Rows = Dict[str, bytes]
"""Messages by their words."""
Cases = Iterator[Tuple[str, bytes]]
"""What was changed, and the bytes that it came to."""
Answers = Iterator[Tuple[str, str, bytes, bytes]]
"""A word, why, the open request and what came."""


def table(version: int) -> Rows:
    """The messages of a version by their words."""
    with open(f"{HERE}/version-{version}.txt", encoding="ascii") as file:
        rows = [line.rstrip("\n").split("\t") for line in file if not line.startswith("#")]
    return {words: bytes.fromhex(digits) for words, digits in rows}


def found(rows: Rows, *pieces: str) -> bytes:
    """The first message whose words begin with the first piece and hold the others."""
    return next(data for words, data in rows.items() if words.startswith(pieces[0]) and all(piece in words for piece in pieces[1:]))


ONE, TWO = table(1), table(2)
REGISTER = found(ONE, "request", " number 0 register")
PUT, GET = found(ONE, "request", " put color green"), found(ONE, "request", " get color")
LONG_PUT, LONG_VALUE = found(TWO, "request", " put kkk"), found(TWO, "reply", " value vvv")
OK, VALUE = found(ONE, "reply", " ok to "), found(ONE, "reply", " value green ")
SESSION, BUSY, REDIRECT = found(ONE, "reply", " session to "), found(ONE, "reply", " busy to "), found(ONE, "reply", " redirect to ")


def named(data: bytes) -> bytes:
    """The bytes with the header's name made right."""
    return name(data[16:HEADER]) + data[16:]


def with_field(data: bytes, field: str, value: Field) -> bytes:
    """The bytes with another value of one field; the header's name is left as it is."""
    at, size = FIELDS[field]
    return data[:at] + (value if isinstance(value, bytes) else number(value, size)) + data[at + size:]


def changed(data: bytes, **fields: Field) -> bytes:
    """The bytes with other values of these fields, and the header's name made right."""
    for field, value in fields.items():
        data = with_field(data, field, value)
    return named(data)


def with_body(data: bytes, body: bytes) -> bytes:
    """The message with another body, its size and all names made right."""
    return changed(data[:HEADER], body=name(body), size=HEADER + len(body)) + body


def flipped(data: bytes, at: int) -> bytes:
    return data[:at] + bytes([data[at] ^ 1]) + data[at + 1:]


def short() -> Cases:
    yield "no bytes", b""
    yield "a request's first byte", PUT[:1]
    yield "a request without its header's last byte", PUT[:HEADER - 1]


def bad_sum() -> Cases:
    for at in (0, 15, 16, 63, 64, 80, 104, 108, 110, 127):
        yield f"a reply's byte {at} with its lowest bit flipped", flipped(VALUE, at)
    yield "a request's command is 0, and the header's name is left", with_field(PUT, "command", 0)
    yield "128 zeros", bytes(HEADER)


def bad_command() -> Cases:
    for command in (0, len(COMMANDS) + 1, 255):
        yield f"a reply's command is {command}", changed(VALUE, command=command)
    yield "a reply's command and version are 0", changed(VALUE, command=0, version=0)


def bad_version() -> Cases:
    for version in (0, 3, 255):
        yield f"a reply's version is {version}", changed(VALUE, version=version)
    yield "a reply's version is 0 and its size 127", changed(VALUE, version=0, size=127)


def bad_size() -> Cases:
    for size in (0, 127, 20_481, 2**32 - 1):
        yield f"a reply's size is {size}", changed(VALUE, size=size)
    yield "a reply's size is 127, and its byte 127 is 1", changed(VALUE, size=127, zeros=1)


def not_zero() -> Cases:
    for at in (120, 127):
        yield f"a reply's byte {at} is 1", changed(VALUE, zeros=bytes(at - 120) + b"\x01" + bytes(127 - at))
    yield "a reply's byte 127 is 1, and its last byte is missing", changed(VALUE, zeros=1)[:-1]


def body_sum() -> Cases:
    size = len(VALUE)
    yield "a reply without its last byte", VALUE[:-1]
    yield "a reply's header alone", VALUE[:HEADER]
    yield "a reply with one byte more", VALUE + b"\x00"
    yield "two replies, one after the other", VALUE + VALUE
    yield "the last byte of a reply's body with its lowest bit flipped", flipped(VALUE, size - 1)
    yield "a reply's size is one less", changed(VALUE, size=size - 1)
    yield "a reply's size is one more", changed(VALUE, size=size + 1)
    yield "a reply's size is 20,480", changed(VALUE, size=20_480)
    yield "a reply's body has another name", changed(VALUE, body=name(b"other"))
    yield "a request's commit is 1, and its last byte is missing", changed(PUT, commit=1)[:-1]


def other_command() -> Cases:
    """Whole messages that members say to each other, and a client never hears."""
    for command in ("commit", "start_view_change", "get_view"):
        op, commit = (9, 8) if command == "commit" else (0, 0)
        yield f"a {command}", spelled(command, cluster=5, view=3, replica=2, op=op, commit=commit)


def request_fields() -> Cases:
    for field in ("parent", "request_name", "view", "op", "commit", "replica", "kind", "aux"):
        yield f"a request's {field} is 1", changed(PUT, **{field: 1})
    yield "a put under number 0", changed(PUT, request=0)
    yield "a register under number 1", changed(REGISTER, request=1)
    yield "a put that is said to be a reply", changed(PUT, command=5)


def reply_fields() -> Cases:
    for field in ("parent", "commit", "aux"):
        yield f"a reply's {field} is 1", changed(VALUE, **{field: 1})
    for kind in (0, 2, 6, 7, 255):
        yield f"a reply with a value is of kind {kind}", changed(VALUE, kind=kind)
    yield "a reply's view is 2^32 - 1", changed(VALUE, view=2**32 - 1)
    yield "a reply's op is 2^62 + 1", changed(VALUE, op=2**62 + 1)
    yield "a busy with an op", changed(BUSY, op=1)
    yield "a busy with a body", with_body(BUSY, b"\x02")
    yield "a busy that is said to be an outcome", changed(BUSY, kind=1)
    yield "a redirect to view 2^32 - 1", changed(REDIRECT, view=2**32 - 1)


def put_body(key: bytes, value: bytes, keys: Optional[int] = None, values: Optional[int] = None) -> bytes:
    return b"\x02" + number(len(key) if keys is None else keys, 1) + number(len(value) if values is None else values, 2) + key + value


def operations() -> Cases:
    """Bodies that are no operation of version 1."""
    yield from [("no byte", b""), ("the byte 0", b"\x00"), ("the byte 5", b"\x05"), ("a register with a byte behind it", b"\x01\x00")]
    yield from [("a put that ends after its first byte", b"\x02"), ("a put without key and value", b"\x02\x01\x00\x01")]
    yield from [(f"a put of the key {what}", put_body(key, b"green")) for what, key in texts(64)]
    yield from [(f"a put of the value {what}", put_body(b"color", value)) for what, value in texts(1024)]
    yield "a put whose value's length is one more than there is", put_body(b"color", b"green", values=6)
    yield "a put whose value's length is one less than there is", put_body(b"color", b"green", values=4)
    yield "a put whose key's length takes in the value", put_body(b"color", b"green", keys=10)
    yield from [("a get that ends after its first byte", b"\x03"), ("a delete that ends after its first byte", b"\x04")]
    yield from [(f"a get of the key {what}", b"\x03" + number(len(key), 1) + key) for what, key in texts(64)]
    yield "a get whose key's length is one more than there is", b"\x03\x06color"
    yield "a get whose key's length is one less than there is", b"\x03\x04color"


def texts(longest: int) -> Cases:
    """Texts that are no key, or no value, of so many bytes at most."""
    yield "of no bytes", b""
    yield f"of {longest + 1:,} bytes", b"v" * (longest + 1)
    for byte in (0, 10, 32, 127, 128, 255):
        yield f"with the byte {byte}", b"ab" + bytes([byte])


def outcomes() -> Cases:
    """Bodies that are no outcome of version 1."""
    yield from [("no byte", b""), ("the byte 0", b"\x00"), ("the byte 6", b"\x06"), ("a session with a byte behind it", b"\x01\x00")]
    yield from [("a value without its length", b"\x05"), ("a value with half its length", b"\x05\x00")]
    yield from [(f"a value {what}", b"\x05" + number(len(value), 2) + value) for what, value in texts(1024)]
    yield "a value whose length is one more than there is", b"\x05\x00\x06green"
    yield "a value whose length is one less than there is", b"\x05\x00\x04green"


def versions() -> Cases:
    """What one version has and the other hasn't."""
    yield "a put of 3,000 bytes that is said to be of version 1", changed(LONG_PUT, version=1)
    yield "a reply with 3,000 bytes that is said to be of version 1", changed(LONG_VALUE, version=1)
    yield "a put of 3,001 bytes in version 2", with_body(LONG_PUT, put_body(b"k" * 64, b"v" * 3001))
    yield "a reply with 3,001 bytes in version 2", with_body(LONG_VALUE, b"\x05" + number(3001, 2) + b"v" * 3001)


def body_shape() -> Cases:
    yield from request_fields()
    yield from reply_fields()
    for what, body in operations():
        yield f"a request's body is {what}", with_body(PUT, body)
    for what, body in outcomes():
        yield f"a reply's body is {what}", with_body(VALUE, body)
    yield from versions()


FAULTS: Dict[str, Callable[[], Cases]] = {
    "Short": short, "BadSum": bad_sum, "BadCommand": bad_command, "BadVersion": bad_version, "BadSize": bad_size, "NotZero": not_zero,
    "BodySum": body_sum, "Other": other_command, "BodyShape": body_shape,
}


def answers() -> Answers:
    """By one change each of the answer that would have counted."""
    again, late = found(ONE, "reply", " gap to "), found(ONE, "reply", " old to ")
    yield "answer", "the value that was asked for", GET, VALUE
    yield "answer", "the register has its session", REGISTER, SESSION
    yield "answer", "the value, from a member that has another number", GET, changed(VALUE, replica=2)
    yield "answer", "the value, from a number that no member of three has", GET, changed(VALUE, replica=3)
    yield "answer", "the value, from the greatest number that the byte can hold", GET, changed(VALUE, replica=255)
    yield "answer", "the value, in a later view and at a later op", GET, changed(changed(VALUE, view=7), op=99)
    yield "answer", "there is no such key", GET, with_body(VALUE, b"\x04")
    yield "lost", "gap", GET, again
    yield "lost", "old", REGISTER, late
    yield "lost", "evicted", GET, changed(again, kind=4)
    yield "busy", "it can't be taken now", GET, changed(again, kind=5)
    yield "redirect", "view 4294967294 has another primary", GET, changed(again, kind=6, view=2**32 - 2)
    yield "redirect", "the same, from a number that no member has", GET, changed(again, kind=6, view=2**32 - 2, replica=255)
    yield "dropped", "the reply names another request of this client", GET, OK
    yield "dropped", "the reply is to the same get of another client", GET, changed(VALUE, request_name=name(changed(GET, client=8)[16:HEADER]), client=8)
    yield "dropped", "the reply is to the same get under another number", GET, changed(VALUE, request_name=name(changed(GET, request=1)[16:HEADER]), request=1)
    yield "dropped", "the reply names no request that was ever made", GET, changed(VALUE, request_name=1)
    yield "dropped", "the reply is of another group", GET, changed(VALUE, cluster=6)
    yield "dropped", "the reply is of the other version", GET, changed(VALUE, version=2)
    yield "dropped", "a redirect that names another request", GET, changed(again, kind=6, request_name=1)
    yield "dropped", "a get has no outcome ok", GET, with_body(VALUE, b"\x02")
    yield "dropped", "a get has no outcome session", GET, with_body(VALUE, b"\x01")
    yield "dropped", "a put has no outcome value", PUT, with_body(OK, b"\x05\x00\x01v")
    yield "dropped", "a register has no outcome ok", REGISTER, with_body(SESSION, b"\x02")
    yield "dropped", "the request itself comes back", GET, GET
    yield "dropped", "the reply without its last byte", GET, VALUE[:-1]
    yield "dropped", "a member's commit", GET, spelled("commit", cluster=5, view=3, replica=2, op=9, commit=8)


def texts_of_files() -> Dict[str, str]:
    bad = "".join(f"{fault}\t{what}\t{data.hex()}\n" for fault, rows in FAULTS.items() for what, data in rows())
    said = "".join(f"{word}\t{why}\t{request.hex()}\t{reply.hex()}\n" for word, why, request, reply in answers())
    return {"bad.txt": BAD_HEAD + bad, "answers.txt": ANSWERS_HEAD + said}


def main() -> None:
    words = sys.argv[1:]
    if words in (["-h"], ["--help"]):
        print(__doc__)
        return
    if words not in ([], ["--check"]):
        print("\n".join(__doc__.splitlines()[1:3]), file=sys.stderr)
        sys.exit(2)
    for file, text in texts_of_files().items():
        if not words:
            with open(f"{HERE}/{file}", "w", encoding="ascii") as to:
                to.write(text)
        elif open(f"{HERE}/{file}", encoding="ascii").read() != text:
            sys.exit(f"{HERE}/{file} differs from what make-changed makes")


try:
    main()
    sys.stdout.flush()
except BrokenPipeError:
    os._exit(1)
