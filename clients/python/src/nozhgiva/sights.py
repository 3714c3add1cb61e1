"""What was seen of each address while a request waited for its answer, and what that may mean."""

from __future__ import annotations

from .records import TYPE_CHECKING, dataclass, field

if TYPE_CHECKING:
    from typing import List, Optional, Sequence, Set

__all__ = ["REFUSED", "Sight", "meaning", "told"]

REFUSED = "refused"
"""The trouble of an address at which nobody listens."""


@dataclass
class Sight:
    """What was seen of the address at one place of a group's list."""

    place: int
    address: str
    asked: int = 0
    """How often the request was sent there."""
    trouble: str = ""
    """What the system said last when it was asked to send there or to receive from there: `refused`, or its own words. Else empty."""
    members: Set[int] = field(default_factory=set)
    """The numbers of the members that answered there. More than the place's own number, or another one, is a list in another order."""
    busy: int = 0
    """How often it answered that it can't take the request now."""
    redirects: int = 0
    """How often it answered that another member leads."""
    view: Optional[int] = None
    """The newest view that it named so."""
    leader: Optional[int] = None
    """The member that leads this view."""
    behind: int = 0
    """How often it answered out of a view older than the session knows: it was cut off, and leads no more."""
    versions: Set[int] = field(default_factory=set)
    """The versions of the format, other than that of the request, in which somebody spoke there. Clients go over to them by themselves."""
    clusters: Set[int] = field(default_factory=set)
    """The numbers of other groups whose members spoke there."""
    stray: int = 0
    """How many messages came that were no answer to this request: late ones, and what is no message at all."""

    @property
    def is_misplaced(self) -> bool:
        """Whether another member than the one whose place it is, or one of another group, answers there."""
        return bool(self.members - {self.place} or self.clusters)

    @property
    def is_silent(self) -> bool:
        """Whether it was asked, and nothing came: not even a trouble."""
        return self.asked > 0 and not (self.trouble or self.members or self.versions or self.clusters or self.stray)

    def __str__(self) -> str:
        return f"{self.address}: {', '.join(self._parts()) or ('silent' if self.asked else 'not asked')}"

    def _parts(self) -> List[str]:
        parts = [self.trouble] if self.trouble else []
        if self.members - {self.place}:
            parts.append(" and ".join(f"member {member}" for member in sorted(self.members)) + f" answers at place {self.place}")
        if self.redirects:
            parts.append(f"redirects to {'itself' if self.leader == self.place else f'member {self.leader}'} (view {self.view})")
        parts += ["busy"] * (self.busy > 0) + ["was cut off, and knows no newer view"] * (self.behind > 0)
        parts += [f"answers in version {version}" for version in sorted(self.versions)]
        parts += [f"answers for group {cluster}" for cluster in sorted(self.clusters)]
        if self.stray and not parts:
            parts.append("sends what is no answer")
        return parts


def meaning(sights: Sequence[Sight]) -> str:
    """What all of this most likely means, in a sentence; empty where nothing does."""
    asked = [sight for sight in sights if sight.asked]
    if any(sight.clusters for sight in sights):
        return "another group has these addresses"
    if any(sight.members - {sight.place} for sight in sights):
        return "the addresses stand in another order than at the members"
    if asked and all(sight.trouble == REFUSED for sight in asked):
        return "no member runs at these addresses; or they are reached over TCP and not over UDP, or the other way round"
    if asked and all(sight.is_silent for sight in asked):
        return "members are silent to whoever asks for another group, and where too few of them run"
    if any(sight.redirects or sight.versions for sight in asked):
        return "no member leads: fewer run, or hear each other, than the group needs"
    return ""


def told(sights: Sequence[Sight]) -> str:
    """The same of all addresses, as the end of a sentence."""
    said = "; ".join(str(sight) for sight in sights)
    hint = meaning(sights)
    return f"{said} ({hint})" if hint else said
