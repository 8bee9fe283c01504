"""Several hosts on one machine: network namespaces on a bridge that stands in a namespace of its own, so that nothing
touches the machine's network. Programs are started inside a host, hosts are cut off from each other without a word to
either, and joined again. Needs root and iproute2. What was made is removed at the end.

    with Lab("hk", 6) as lab:
        lab.words(1, ["nats-server", ..])      # what starts a program inside host 1
        lab.apart([1, 4], [2, 3])              # nothing passes between these
        lab.join()
        with lab.inside(5): ...                # sockets that are opened here are host 5's"""
from __future__ import annotations

import ctypes
import os
import subprocess
from typing import Any, List, Sequence

CLONE_NEWNET = 0x40000000
NOBODY = "02:00:00:77:ff:ff"
libc = ctypes.CDLL(None, use_errno=True)


def ip(*words: Any, netns: str = "", check: bool = True) -> None:
    head = ["ip", "netns", "exec", netns] if netns else []
    subprocess.run(
        [*head, "ip", *map(str, words)],
        check=check,
        stdout=subprocess.DEVNULL,
        stderr=None if check else subprocess.DEVNULL,
    )


class Lab:
    def __init__(self, prefix: str, count: int) -> None:
        self.prefix, self.hosts = prefix, range(1, count + 1)

    def name(self, host: int) -> str:
        return f"{self.prefix}{host}"

    @staticmethod
    def address(host: int) -> str:
        return f"10.77.0.{host}"

    def __enter__(self) -> "Lab":
        self.remove()
        hub = f"{self.prefix}hub"
        ip("netns", "add", hub)
        ip("link", "add", "name", "bridge0", "type", "bridge", netns=hub)
        ip("link", "set", "bridge0", "up", netns=hub)
        for host in self.hosts:
            self.add(host, hub)
        return self

    def add(self, host: int, hub: str) -> None:
        own = self.name(host)
        ip("netns", "add", own)
        address = f"02:00:00:77:00:{host:02x}"
        ip(
            "link",
            "add",
            "eth0",
            "netns",
            own,
            "address",
            address,
            "type",
            "veth",
            "peer",
            "name",
            f"p{host}",
            "netns",
            hub,
        )
        ip("link", "set", f"p{host}", "master", "bridge0", "up", netns=hub)
        ip("address", "add", f"{self.address(host)}/24", "dev", "eth0", netns=own)
        ip("link", "set", "eth0", "up", netns=own)
        ip("link", "set", "lo", "up", netns=own)

    def __exit__(self, *_: object) -> None:
        self.remove()

    def remove(self) -> None:
        for name in [f"{self.prefix}hub", *map(self.name, self.hosts)]:
            ip("netns", "del", name, check=False)

    def words(self, host: int, words: Sequence[Any]) -> List[str]:
        """What starts a program inside a host; the process is then the program itself."""
        return ["ip", "netns", "exec", self.name(host), *map(str, words)]

    # ------------------------------------------------------------ the network

    def apart(self, some: Sequence[int], others: Sequence[int]) -> None:
        """Nothing passes between these and those: each takes the other's address for one that nobody has."""
        for one in some:
            for other in others:
                for here, there in ((one, other), (other, one)):
                    ip(
                        "neigh",
                        "replace",
                        self.address(there),
                        "lladdr",
                        NOBODY,
                        "dev",
                        "eth0",
                        "nud",
                        "permanent",
                        netns=self.name(here),
                    )

    def join(self) -> None:
        for here in self.hosts:
            for there in self.hosts:
                if here != there:
                    ip("neigh", "del", self.address(there), "dev", "eth0", netns=self.name(here), check=False)

    def inside(self, host: int) -> "Inside":
        return Inside(self.name(host))


class Inside:
    """The calling thread is in a host's network: what it opens there stays there."""

    def __init__(self, name: str) -> None:
        self.name = name

    def __enter__(self) -> None:
        self.back = os.open("/proc/thread-self/ns/net", os.O_RDONLY)
        there = os.open(f"/run/netns/{self.name}", os.O_RDONLY)
        failed = libc.setns(there, CLONE_NEWNET)
        os.close(there)
        if failed:
            raise OSError(ctypes.get_errno(), "setns")

    def __exit__(self, *_: object) -> None:
        libc.setns(self.back, CLONE_NEWNET)
        os.close(self.back)
