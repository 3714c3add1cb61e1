"""Values of any bytes or text."""

from __future__ import annotations

import base64
import binascii
from typing import Union

from .messages import LARGEST_VALUE

__all__ = ["Blob"]

BYTES, TEXT = "b64:", "t64:"


class Blob:
    """Any bytes or text as the visible letters of ASCII that a value, or a key, may have:

        session.put("picture", Blob.encode(b"\\x89PNG"))
        session.put("menu", Blob.encode("crème brûlée"))
        Blob.decode(session.get("menu"))

    The encoding is base64 (RFC 4648, with its padding), of text that of its UTF-8, behind `b64:` for bytes and `t64:` for text. So n bytes
    take 4 + 4 * ceil(n / 3) letters, a third more and four: a value of version 1 has room for 765 bytes, one of version 2 for 2,247
    (`Blob.room`). It hides nothing: anyone can read it back.
    """

    @staticmethod
    def encode(data: Union[bytes, bytearray, memoryview, str]) -> str:
        """The value that stands for these bytes or this text. How long it is isn't checked here: `put` does so."""
        if isinstance(data, str):
            return TEXT + base64.b64encode(data.encode("utf-8")).decode("ascii")
        if isinstance(data, (bytes, bytearray, memoryview)):
            return BYTES + base64.b64encode(data).decode("ascii")
        raise TypeError(f"a blob is made of bytes or str, not {type(data).__name__}")

    @staticmethod
    def decode(value: str) -> Union[bytes, str]:
        """The bytes or the text for which a value stands. Raises `ValueError` where it stands for none."""
        front, rest = value[:len(BYTES)], value[len(BYTES):]
        if front not in (BYTES, TEXT):
            raise ValueError("a blob begins with b64: or t64:, and this value doesn't")
        try:
            data = base64.b64decode(rest, validate=True)
            return data.decode("utf-8") if front == TEXT else data
        except (binascii.Error, UnicodeError):
            raise ValueError(f"what stands behind {front} isn't base64 of {'UTF-8' if front == TEXT else 'bytes'}") from None

    @staticmethod
    def room(version: int = 1) -> int:
        """How many bytes fit into one value of a version."""
        return (LARGEST_VALUE[version] - len(BYTES)) // 4 * 3
