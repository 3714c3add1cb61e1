"""Drawn messages of both versions: each is read back from its bytes, and no cut or altered one is taken for another."""

import pytest
from hypothesis import given, strategies as draw

from nozhgiva.messages import (
    Delete, Get, HEADER, LARGEST_KEY, LARGEST_VALUE, LAST_OP, LAST_VIEW, Outcome, OutcomeKind, Put, Refused, Register, Reply, ReplyKind, Request, VERSIONS,
    decode)
from test_messages import fault_of, header_of, sealed

U64, U32, U8 = draw.integers(0, 2**64 - 1), draw.integers(0, 2**32 - 1), draw.integers(0, 255)
OPS = draw.one_of(draw.integers(0, LAST_OP), draw.just(LAST_OP))
VIEWS = draw.one_of(draw.integers(0, LAST_VIEW), draw.just(LAST_VIEW))
VISIBLE = draw.characters(min_codepoint=33, max_codepoint=126)
KEYS = draw.text(VISIBLE, min_size=1, max_size=LARGEST_KEY)


def values(version):
    """Short ones with any letters, and those as long as they may be."""
    return draw.one_of(draw.text(VISIBLE, min_size=1, max_size=40), draw.builds(lambda letter: letter * LARGEST_VALUE[version], VISIBLE))


@draw.composite
def requests(choose):
    version = choose(draw.sampled_from(VERSIONS))
    operation = choose(draw.one_of(
        draw.just(Register()), draw.builds(Put, KEYS, values(version)), draw.builds(Get, KEYS), draw.builds(Delete, KEYS)))
    number = 0 if operation == Register() else choose(draw.integers(1, 2**32 - 1))
    return Request(choose(U64), choose(U64), number, operation, version)


@draw.composite
def replies(choose):
    version, kind = choose(draw.sampled_from(VERSIONS)), choose(draw.sampled_from(ReplyKind))
    op, outcome = 0, None
    if kind == ReplyKind.OUTCOME:
        what = choose(draw.sampled_from(OutcomeKind))
        outcome = Outcome(what, choose(values(version)) if what == OutcomeKind.VALUE else "")
        op = choose(OPS)
    return Reply(
        choose(U64), choose(U64), choose(U32), choose(draw.binary(min_size=16, max_size=16)), choose(U8), choose(VIEWS), kind, op, outcome,
        version)


MESSAGES = draw.one_of(requests(), replies())


@given(MESSAGES)
def test_a_message_is_read_back(message):
    data = message.encode()
    assert decode(data) == message
    assert decode(data).encode() == data


@given(MESSAGES, draw.data())
def test_a_cut_or_longer_one_is_refused(message, choose):
    data = message.encode()
    with pytest.raises(Refused):
        decode(data[:choose.draw(draw.integers(0, len(data) - 1))])
    with pytest.raises(Refused):
        decode(data + choose.draw(draw.binary(min_size=1, max_size=20)))
    header, body = header_of(message)
    with pytest.raises(Refused):
        decode(sealed(header._replace(size=header.size + choose.draw(draw.sampled_from((-1, 1, 100)))), body))


@given(MESSAGES, draw.data())
def test_an_altered_one_is_refused(message, choose):
    altered = bytearray(message.encode())
    at = choose.draw(draw.integers(0, len(altered) - 1))
    altered[at] ^= choose.draw(draw.integers(1, 255))
    with pytest.raises(Refused):
        decode(bytes(altered))


@given(MESSAGES, draw.data())
def test_what_is_altered_under_right_names_has_one_spelling(message, choose):
    """Fields and body are drawn anew and named right. Where that is a message still, these very bytes are what spells it."""
    header, body = header_of(message)
    if choose.draw(draw.booleans()):
        body = choose.draw(draw.one_of(draw.binary(max_size=40), draw.just(body[:-1]), draw.just(body + b"x"), draw.just(body[1:])))
        header = header._replace(size=HEADER.size + len(body))
    for field in choose.draw(draw.lists(draw.sampled_from(("request", "view", "op", "commit", "command", "replica", "version", "kind", "aux")), max_size=2)):
        header = header._replace(**{field: choose.draw(draw.integers(0, 7))})
    data = sealed(header, body)
    if fault_of(data) is None:
        assert decode(data).encode() == data
