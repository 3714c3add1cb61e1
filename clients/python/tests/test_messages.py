"""Messages byte for byte as the program spells them, and what isn't one refused: by the vectors of clients/vectors, whose README has their form."""

import random
import subprocess
import types
import unittest
from pathlib import Path

from nozhgiva import records
from nozhgiva.asking import is_answer
from nozhgiva.messages import (
    Delete, Fault, Get, HEADER, Header, LARGEST_VALUE, Outcome, OutcomeKind, Put, Refused, Register, Reply, ReplyKind, Request, decode,
    name_of, size_of)

VECTORS = Path(__file__).resolve().parents[2] / "vectors"
FAULTS = {
    "Short": Fault.SHORT, "BadSum": Fault.BAD_SUM, "BadCommand": Fault.BAD_COMMAND, "BadVersion": Fault.BAD_VERSION, "BadSize": Fault.BAD_SIZE,
    "NotZero": Fault.NOT_ZERO, "BodySum": Fault.BODY_SUM, "Other": Fault.OTHER_COMMAND, "BodyShape": Fault.BODY_SHAPE,
}
"""The faults of the vectors, as this client calls them."""
OPERATIONS = {"register": Register, "put": Put, "get": Get, "del": Delete}


def request_of(words, version):
    """cluster C client C number N OPERATION"""
    _, cluster, _, client, _, number, kind, *rest = words
    return Request(int(cluster), int(client), int(number), OPERATIONS[kind](*rest), version)


def reply_of(words, version):
    """from R view W ANSWER to REQUEST"""
    at = words.index("to")
    _, replica, _, view, *answer = words[:at]
    request = request_of(words[at + 1:], version)
    fields = (request.cluster, request.client, request.number, request.name(), int(replica), int(view))
    if answer[0] != "op":
        return Reply(*fields, ReplyKind[answer[0].upper()], version=version)
    _, op, kind, *value = answer
    return Reply(*fields, ReplyKind.OUTCOME, int(op), Outcome(OutcomeKind[kind.upper()], *value), version)


def fields_of(name):
    """The fields of each line of a file of vectors."""
    lines = (VECTORS / name).read_text(encoding="ascii").splitlines()
    return [line.split("\t") for line in lines if not line.startswith("#")]


def rows():
    """Each message that the program spelled, with its bytes."""
    found = []
    for said, digits in fields_of("version-1.txt") + fields_of("version-2.txt"):
        kind, _, version, *words = said.split(" ")
        read = {"request": request_of, "reply": reply_of}[kind]
        found.append((read(words, int(version)), bytes.fromhex(digits)))
    return found


def fault_of(data):
    """The fault for which bytes are refused; None where they are taken. Any other exception goes on to the test."""
    try:
        decode(data)
    except Refused as refused:
        return refused.fault
    return None


def sealed(header, body=b"", *, named=True):
    """A header of these fields with its name set right, and before that the body's, unless `named` is false."""
    header = header._replace(body=name_of(body)) if named else header
    rest = HEADER.pack(*header)[16:]
    return name_of(rest) + rest + body


def header_of(message):
    data = message.encode()
    return Header(*HEADER.unpack(data[:HEADER.size])), data[HEADER.size:]


PUT = Request(5, 7, 1, Put("color", "green"))
REPLY = Reply(5, 7, 1, PUT.name(), 0, 0, ReplyKind.OUTCOME, 2, Outcome(OutcomeKind.VALUE, "green"))


class Vectors(unittest.TestCase):
    def test_each_message_is_spelled_as_the_program_spells_it(self):
        for message, data in rows():
            with self.subTest(message):
                self.assertEqual(message.encode(), data)
                self.assertEqual(decode(data), message)

    def test_the_vectors_have_each_kind_in_both_versions(self):
        for version, most in LARGEST_VALUE.items():
            messages = [message for message, _ in rows() if message.version == version]
            requests = [message for message in messages if isinstance(message, Request)]
            replies = [message for message in messages if isinstance(message, Reply)]
            self.assertEqual({type(request.operation) for request in requests}, set(OPERATIONS.values()))
            self.assertEqual({reply.kind for reply in replies}, set(ReplyKind))
            self.assertEqual({reply.outcome.kind for reply in replies if reply.outcome}, set(OutcomeKind))
            self.assertGreater(max(reply.view for reply in replies), 0)
            self.assertEqual(max(len(request.operation.value) for request in requests if isinstance(request.operation, Put)), most)

    def test_the_changed_ones_are_made_of_those_that_the_program_spelled(self):
        made = subprocess.run([VECTORS / "make-changed", "--check"], capture_output=True, text=True, check=False)
        self.assertEqual((made.returncode, made.stderr), (0, ""))

    def test_what_is_no_message_has_its_fault(self):
        bad = fields_of("bad.txt")
        for fault, what, digits in bad:
            with self.subTest(what):
                self.assertEqual(fault_of(bytes.fromhex(digits)), FAULTS[fault])
        self.assertEqual({fault for fault, _, _ in bad}, set(FAULTS))

    def test_what_came_says_what_it_says(self):
        ends = {ReplyKind.OUTCOME: "answer", ReplyKind.BUSY: "busy", ReplyKind.REDIRECT: "redirect"}
        for word, why, asked, came in fields_of("answers.txt"):
            request, data = decode(bytes.fromhex(asked)), bytes.fromhex(came)
            with self.subTest(why):
                reply = decode(data) if fault_of(data) is None else None
                counts = isinstance(reply, Reply) and is_answer(request, reply)
                self.assertEqual(ends.get(reply.kind, "lost") if counts else "dropped", word)


class Damage(unittest.TestCase):
    def short_rows(self):
        """Messages that aren't long, so that all of each can be tried."""
        return [data for _, data in rows() if len(data) < 200]

    def test_cut_and_lengthened(self):
        tried = 0
        for data in self.short_rows():
            for size in range(len(data)):
                self.assertEqual(fault_of(data[:size]), Fault.SHORT if size < HEADER.size else Fault.BODY_SUM)
            self.assertEqual(fault_of(data + b"\0"), Fault.BODY_SUM)
            tried += len(data) + 1
        self.assertGreater(tried, 5_000)

    def test_each_bit_flipped(self):
        tried = 0
        for data in self.short_rows():
            for bit in range(8 * len(data)):
                flipped = bytearray(data)
                flipped[bit // 8] ^= 1 << bit % 8
                self.assertEqual(fault_of(bytes(flipped)), Fault.BAD_SUM if bit < 8 * HEADER.size else Fault.BODY_SUM)
                tried += 1
        self.assertGreater(tried, 30_000)

    def test_random_bytes(self):
        draw = random.Random(1)
        for _ in range(10_000):
            data = draw.randbytes(draw.choice((0, 1, 127, 128, 129, 200, 1_500, 20_481)))
            self.assertEqual(fault_of(data), Fault.SHORT if len(data) < HEADER.size else Fault.BAD_SUM)

    def test_random_fields_under_right_names(self):
        """Headers whose names are right, with some fields drawn: what is taken has one spelling, these very bytes."""
        draw = random.Random(2)
        sizes = {"cluster": 8, "client": 8, "request": 4, "view": 4, "op": 8, "commit": 8, "size": 4, "command": 1, "replica": 1, "version": 1, "kind": 1, "aux": 8}
        taken = 0
        for _ in range(6_000):
            header, body = header_of(draw.choice((PUT, REPLY)))
            if draw.random() < 0.5:
                body = draw.choice((body[:-1], body + b"x", b"", bytes([draw.randrange(7)]) + body[1:], draw.randbytes(draw.randrange(40))))
                header = header._replace(size=HEADER.size + len(body))
            for field in draw.sample(sorted(sizes), draw.randrange(3)):
                value = draw.choice((0, 1, 2, 4, 5, 6, 7, 256 ** sizes[field] - 1, draw.randrange(256 ** sizes[field])))
                header = header._replace(**{field: value % 256 ** sizes[field]})
            data = sealed(header, body)
            if fault_of(data) is None:
                taken += 1
                self.assertEqual(decode(data).encode(), data)
        self.assertGreater(taken, 300)
        self.assertLess(taken, 4_500)


class Faults(unittest.TestCase):
    def test_other_commands(self):
        header, body = header_of(PUT)
        for command in range(1, 20):
            if command not in (4, 5):
                self.assertEqual(fault_of(sealed(header._replace(command=command), body)), Fault.OTHER_COMMAND)

    def test_a_record_without_fields(self):
        """As `Register`: in Python 3.9 such a class has no annotations, as what stands here has none."""
        self.assertEqual(records._fields_of(types.SimpleNamespace()), {})

    def test_the_size_of_a_message_in_a_stream(self):
        data = PUT.encode()
        self.assertEqual(size_of(data + b"more"), len(data))
        for front in (b"", data[:127], bytes(128)):
            with self.assertRaises(Refused):
                size_of(front)


if __name__ == "__main__":
    unittest.main()
