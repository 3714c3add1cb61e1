"""What tests of the program share: it, a group of it, and a group under keepers. Without a program they are left out."""

from typing import Iterator

import pytest

from nozhgiva_tools.run import built
from nozhgiva_tools.run.group import Group
from nozhgiva_tools.run.keepers import Kept
from nozhgiva_tools.run.nets import Net


@pytest.fixture(scope="session")
def program() -> str:
    """The path of the program."""
    if not built.is_there():
        pytest.skip(built.MISSING)
    return built.PATH


@pytest.fixture
def group(program: str) -> Iterator[Group]:
    """Three members on loopback that run, each on a new file."""
    with Group() as made:
        made.start_all()
        yield made


@pytest.fixture
def keepers(program: str) -> Iterator[Kept]:
    """Three members on loopback under keepers that run, each on a new file."""
    made = Kept(Net(3))
    try:
        made.start_all()
        yield made
    finally:
        made.close()
