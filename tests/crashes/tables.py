"""What is printed at the end: a table of states and groups by scenario, and whether planted faults were found."""

import collections
from typing import Counter, Dict, List, Tuple

from .running import BROKEN, SILENT, Tally
from .scenarios import SCENARIOS

GROUPS_PLANT = "whole groups whose syncs do nothing"


def told(counts: Counter[str]) -> str:
    return ", ".join(f"{count} {what}" for what, count in sorted(counts.items())) or "none"


def section(what: str, tallies: Dict[str, Tally], has_points: bool) -> List[str]:
    lines = [f"| {what} | {'points | ' if has_points else ''}tried | starts | failures | rows of OPERATING |", "|---|" + "---|" * (5 if has_points else 4)]
    for name, it in tallies.items():
        points = f"{it.points:,} | " if has_points else ""
        lines.append(f"| {name} | {points}{it.states:,} | {it.starts:,} | {told(it.failures)} | {told(it.rows)} |")
    total = Tally()
    for it in tallies.values():
        total.points, total.states, total.starts = total.points + it.points, total.states + it.states, total.starts + it.starts
        total.failures += it.failures
        total.rows += it.rows
    points = f"{total.points:,} | " if has_points else ""
    return [*lines, f"| all | {points}{total.states:,} | {total.starts:,} | {told(total.failures)} | {told(total.rows)} |"]


def table(states: Dict[str, Tally], groups: Dict[str, Tally]) -> List[str]:
    told_states = section("crash states of", states, True) if states else []
    return [*told_states, *([""] if states and groups else []), *(section("whole groups of", groups, False) if groups else [])]


def judged_line(states: Dict[str, Tally], groups: Dict[str, Tally]) -> str:
    """How many were judged, and how many of them were wrong, in one line."""
    tallies = [*states.values(), *groups.values()]
    wrong = sum((it.failures for it in tallies), collections.Counter[str]())
    rows = sum(sum(it.rows.values()) for it in tallies)
    of_rows = f", {rows:,} in rows of OPERATING" if rows else ""
    return (f"judged: {sum(it.states for it in states.values()):,} crash states at {sum(it.points for it in states.values()):,} moments, "
            f"{sum(it.states for it in groups.values()):,} whole groups: {f'WRONG: {told(wrong)}' if wrong else 'none wrong'}{of_rows}")


def standing_lines(groups: Dict[str, Tally]) -> List[str]:
    """How many groups stood still on disks that write pages, by the version of their files."""
    counts: Dict[int, List[int]] = {1: [0, 0], 2: [0, 0]}
    for one in SCENARIOS:
        if one.name in groups:
            counts[one.version][0] += groups[one.name].states
            counts[one.version][1] += sum(groups[one.name].rows.values())
    return [*(f"version {version}: {still:,} of {tried:,} groups stand still for good" for version, (tried, still) in counts.items() if tried),
            "The promises rest on sectors of 512 bytes (docs/NODE.md): this is outside of them, and no failure."]


def planted_line(what: str, tallies: Dict[str, Tally]) -> Tuple[str, bool]:
    """In how many states a planted fault was found, by kind of failure, and whether it was at all."""
    states = sum(it.states for it in tallies.values())
    failures: Counter[str] = collections.Counter()
    for it in tallies.values():
        failures += it.failures
    # A group that is silent may wait for a processor.
    is_found = any(failures[kind] for kind in failures if kind != SILENT) and not failures[BROKEN]
    return f"planted: {what}: {'found' if is_found else 'NOT FOUND'} in {states:,} tried: {told(failures)}", is_found


def scenario_lines() -> List[str]:
    return [f"{it.name}: {it.size} members, version {it.version}, {it.modes} files, {it.puts} puts: {it.story}" for it in SCENARIOS]
