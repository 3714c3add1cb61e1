"""Asks all members of a group, and then all their keepers."""

import functools
import subprocess
import threading
from typing import Callable, Dict, List, Optional, Tuple

from . import asking, vitals as health
from .judging import Known
from .probing import Probe
from .rolling import Health

Source = Callable[[], str]  # gives a line of health; OSError, ValueError or TimeoutExpired where there is none


def source(member: int, ports: Optional[List[str]], sockets: Optional[str], command: Optional[str], wait: float) -> Optional[Source]:
    """Where a member's line of health comes from."""
    if ports is not None:
        return functools.partial(asking.ask_port, ports[member], wait)
    if sockets is not None:
        return at_socket(member, sockets, wait)
    return None if command is None else functools.partial(told_by, command.replace("{}", str(member)), wait)


def at_socket(member: int, sockets: str, wait: float) -> Source:
    """The line comes from a socket of the member's keeper."""
    return functools.partial(asking.ask, sockets.replace("{}", str(member)), "health", wait)


def told_by(command: str, wait: float) -> str:
    """What a command of the operator's prints. It may take longer than a keeper nearby, since it goes to another machine."""
    return subprocess.run(command, shell=True, timeout=10 * wait, stdin=subprocess.DEVNULL, stdout=subprocess.PIPE, stderr=subprocess.DEVNULL, text=True).stdout


class Survey:
    """Looks at one group."""

    def __init__(self, cluster: int, addresses: List[str], sources: Optional[List[Source]], wait: float) -> None:
        self.cluster, self.addresses, self.sources, self.wait = cluster, addresses, sources, wait

    def look(self) -> List[Known]:
        """What is known of each member now. The keepers are asked last, so that what they tell isn't as old as the longest wait for a member."""
        lines: Dict[int, Tuple[Optional[Health], str]] = {}
        probe = Probe(self.cluster, self.addresses)
        probe.ask(self.wait)
        threads = [threading.Thread(target=self.hear, args=(member, one, lines), daemon=True) for member, one in enumerate(self.sources or [])]
        for thread in threads:
            thread.start()
        for thread in threads:
            thread.join()
        return [self.known(member, lines, probe) for member in range(len(self.addresses))]

    def hear(self, member: int, one: Source, lines: Dict[int, Tuple[Optional[Health], str]]) -> None:
        try:
            line = health.read(one())
            lines[member] = (line, "") if line["member"] == str(member) else (None, f"its keeper's line is of member {line['member']}")
        except (OSError, ValueError, subprocess.TimeoutExpired) as why:
            lines[member] = None, f"no keeper answers ({getattr(why, 'strerror', None) or str(why) or 'nothing came'})"

    def known(self, member: int, lines: Dict[int, Tuple[Optional[Health], str]], probe: Probe) -> Known:
        line, fault = lines.get(member, (None, ""))
        return Known(line, fault, probe.replies.get(member), member in probe.refused, probe.places.get(member))
