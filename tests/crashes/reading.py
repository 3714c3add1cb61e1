"""tools/nozhgiva_tools/told/datafile.py, which knows the data file. The states of one member differ in a few sectors, so what was read of the same bytes is kept."""

import functools
from typing import Optional

from nozhgiva_tools.told import datafile

__all__ = ["datafile"]

_header = functools.lru_cache(maxsize=16384)(datafile.header_of)


def _header_of(data: bytes) -> Optional[datafile.Header]:
    return _header(data[:128])


datafile.header_of = _header_of
datafile.entry_of = functools.lru_cache(maxsize=8192)(datafile.entry_of)
datafile.value_of = functools.lru_cache(maxsize=256)(datafile.value_of)
