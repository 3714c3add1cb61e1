"""The checker against all orders of small drawn histories."""

import collections
from typing import Counter, List, Optional

from hypothesis import given, settings, strategies as draw

from . import history
from .history import Operation
from .order import judge
from .test_order import fits_some_order

MORE = 20  # so many times as many histories as other properties have examples: each takes a millisecond


@draw.composite
def small(choose: draw.DrawFn) -> List[Operation]:
    """A few operations at one key, many of them at one time."""
    operations = []
    for number in range(choose(draw.integers(2, 6))):
        called = choose(draw.integers(0, 8))
        returned: Optional[int] = None if choose(draw.integers(0, 9)) < 3 else called + choose(draw.integers(0, 4))
        kind = choose(draw.sampled_from(history.KINDS))
        answer, value = history.UNTOLD, str(number) if kind == "put" else None
        if returned is not None and choose(draw.integers(0, 9)) > 0:
            answer = {"put": "ok", "get": choose(draw.sampled_from(("value", "value", "absent"))), "delete": choose(draw.sampled_from(("ok", "absent")))}[kind]
            value = str(choose(draw.integers(0, 5))) if answer == "value" else value
        operations.append(Operation("c", called, returned, kind, "k", value, answer))
    return operations


def test_small_histories_against_all_orders() -> None:
    verdicts: Counter[bool] = collections.Counter()

    @settings(max_examples=MORE * settings.default.max_examples)
    @given(small())
    def check(operations: List[Operation]) -> None:
        expected = fits_some_order(operations)
        verdicts[expected] += 1
        assert judge(operations).fits is expected, "\n".join(map(str, operations))

    check()
    assert min(verdicts[True], verdicts[False]) > sum(verdicts.values()) / 20, verdicts
