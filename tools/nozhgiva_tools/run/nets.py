"""Where members live: on loopback, or each in a network namespace of its own, whose ways to the others can be cut."""

import os
import shutil
import subprocess
from typing import List, Optional, Sequence, Set, Tuple

from . import ports

LOOPBACK = "127.0.0.1"


def run(*words: str) -> None:
    subprocess.run(words, check=True, stdout=subprocess.DEVNULL, stderr=subprocess.PIPE)


class Net:
    """Loopback, with no namespace and no cuts. Its ports are free ones in a row, where none are given."""

    cuts = False

    def __init__(self, size: int, given: Optional[Sequence[int]] = None) -> None:
        first = 0 if given else ports.first_of(size)
        self.hosts = [f"{LOOPBACK}:{port}" for port in given or range(first, first + size)]

    def inside(self, member: Optional[int]) -> List[str]:
        """The words that run a command where a member, or for None a client, lives."""
        return []

    def cut(self, sender: int, receiver: int) -> None:
        """What one sends to the other is lost from now on."""
        raise NotImplementedError

    def mend(self) -> None:
        """All cuts are over."""

    def end(self) -> None:
        """What was made for it is taken away."""


class Namespaces(Net):
    """Each member, and the clients, in a network namespace of its own at one bridge, which is in a namespace too. It takes root."""

    cuts = True

    def __init__(self, size: int) -> None:
        self.size, self.prefix = size, f"vr{os.getpid()}"
        self.hosts = [f"10.77.0.{member + 1}:4000" for member in range(size)]
        self.made: List[str] = []
        self.blocked: Set[Tuple[int, int]] = set()
        try:
            self.make()
        except subprocess.CalledProcessError:
            self.end()
            raise

    def name(self, member: Optional[int]) -> str:
        return f"{self.prefix}-{'c' if member is None else member}"

    def add(self, name: str) -> None:
        run("ip", "netns", "add", name)
        self.made.append(name)
        run("ip", "-n", name, "link", "set", "lo", "up")

    def make(self) -> None:
        hub = f"{self.prefix}-hub"
        self.add(hub)
        run("ip", "-n", hub, "link", "add", "br0", "type", "bridge")
        run("ip", "-n", hub, "link", "set", "br0", "up")
        for member in range(self.size):
            self.join(hub, member)
        self.join(hub, None)

    def join(self, hub: str, member: Optional[int]) -> None:
        name, port = self.name(member), "pc" if member is None else f"p{member}"
        self.add(name)
        run("ip", "-n", hub, "link", "add", port, "type", "veth", "peer", "name", "eth0", "netns", name)
        run("ip", "-n", hub, "link", "set", port, "master", "br0", "up")
        run("ip", "-n", name, "addr", "add", f"10.77.0.{99 if member is None else member + 1}/24", "dev", "eth0")
        run("ip", "-n", name, "link", "set", "eth0", "up")

    def inside(self, member: Optional[int]) -> List[str]:
        return ["ip", "netns", "exec", self.name(member)]

    def cut(self, sender: int, receiver: int) -> None:
        if (sender, receiver) not in self.blocked:
            self.blocked.add((sender, receiver))
            run("ip", "-n", self.name(sender), "route", "add", "blackhole", f"10.77.0.{receiver + 1}/32")

    def mend(self) -> None:
        for sender, receiver in self.blocked:
            subprocess.run(["ip", "-n", self.name(sender), "route", "del", "blackhole", f"10.77.0.{receiver + 1}/32"], stderr=subprocess.DEVNULL, check=False)
        self.blocked.clear()

    def end(self) -> None:
        for name in self.made:
            subprocess.run(["ip", "netns", "del", name], stderr=subprocess.DEVNULL, check=False)


def best_net(size: int) -> Net:
    """Namespaces where they can be had."""
    if os.geteuid() != 0 or shutil.which("ip") is None:
        return Net(size)
    try:
        return Namespaces(size)
    except (subprocess.CalledProcessError, OSError):
        return Net(size)


CLIENT = 3  # the place of the clients among the hosts of a sealed net
# Of the loopback range, so that no machine has them; a kernel setting lets a network card have them.
HOSTS = [f"127.0.1.{place + 1}" for place in range(CLIENT + 1)]
NOWHERE = "02:00:00:00:00:ff"


class Sealed(Net):
    """Hosts for three members and their clients, each a network namespace of its own on one bridge, in a script that was `sealed` with --net (scripts.py),
    so that nothing is left behind. It takes root and iproute2. Neighbours are written down: nothing tells a sender that nobody hears."""

    cuts = True

    def __init__(self) -> None:
        first = ports.first_of(CLIENT)
        self.hosts = [f"{host}:{first + member}" for member, host in enumerate(HOSTS[:CLIENT])]

    @staticmethod
    def why_none() -> Optional[str]:
        """Why there can be no such hosts, in words; None where they can be had."""
        if os.geteuid() != 0:
            return "not run as root"
        missing = [tool for tool in ("ip", "unshare") if not shutil.which(tool)]
        if missing:
            return "no " + ", no ".join(missing)
        words = ["unshare", "--net", "--mount", "--pid", "--fork", "--kill-child", "--mount-proc", "ip", "link", "add", "name", "br0", "type", "bridge"]
        if subprocess.run(words, stdout=subprocess.DEVNULL, stderr=subprocess.DEVNULL, check=False).returncode:
            return "the system gives no network namespace with a bridge"
        return None

    @staticmethod
    def lladdr(place: int) -> str:
        return f"02:00:00:00:00:0{place}"

    def inside(self, member: Optional[int]) -> List[str]:
        return ["ip", "netns", "exec", f"m{CLIENT if member is None else member}"]

    def connect(self) -> None:
        """Makes the namespaces, once for all groups that live there."""
        os.makedirs("/run/netns", exist_ok=True)
        run("mount", "-t", "tmpfs", "none", "/run/netns")
        run("ip", "link", "add", "name", "br0", "type", "bridge")
        run("ip", "link", "set", "br0", "up")
        for place, host in enumerate(HOSTS):
            self.add(place, host)
        self.join()

    def add(self, place: int, host: str) -> None:
        run("ip", "netns", "add", f"m{place}")
        run("ip", "link", "add", "name", f"v{place}", "type", "veth", "peer", "name", "eth0", "address", self.lladdr(place), "netns", f"m{place}")
        run(*self.inside(place), "sh", "-c", "echo 1 > /proc/sys/net/ipv4/conf/all/route_localnet")
        run(*self.inside(place), "ip", "address", "add", f"{host}/24", "dev", "eth0")
        run(*self.inside(place), "ip", "link", "set", "eth0", "up")
        run("ip", "link", "set", f"v{place}", "up")
        for other in range(len(HOSTS)):
            if other != place:
                self.mend_way(place, other)

    def join(self) -> None:
        """All hosts hear each other again."""
        for place in range(len(HOSTS)):
            run("ip", "link", "set", f"v{place}", "master", "br0")

    def part(self) -> None:
        """No host hears another one."""
        for place in range(len(HOSTS)):
            run("ip", "link", "set", f"v{place}", "nomaster")

    def cut(self, sender: int, receiver: int) -> None:
        self.say_where(sender, receiver, NOWHERE)

    def mend_way(self, sender: int, receiver: int) -> None:
        """What one sends to the other comes through again."""
        self.say_where(sender, receiver, self.lladdr(receiver))

    @staticmethod
    def say_where(sender: int, receiver: int, where: str) -> None:
        run("ip", "-n", f"m{sender}", "neighbour", "replace", HOSTS[receiver], "lladdr", where, "dev", "eth0", "nud", "permanent")
