"""A group answers, and so does one under keepers: one is asked by the program's client, the other tells which member leads."""

from nozhgiva_tools.run.group import Group
from nozhgiva_tools.run.keepers import Kept


def test_a_group_answers(group: Group) -> None:
    assert group.ask(7, ["put a 1", "get a", "del a", "get a"]) == ["session", "ok", "value 1", "ok", "absent"]


def test_under_keepers_a_member_leads_and_says_so(keepers: Kept) -> None:
    leader = keepers.await_leader()
    told = keepers.health(leader)
    assert told is not None and told["state"] == "leads"
    assert keepers.process(leader) is not None
