"""Three nats-servers on this machine, for the demonstration, the tests and the measures: they are configured as
docs/CONNECTORS.md says, but that they share one machine. Standard library only."""
from __future__ import annotations

import contextlib
import json
import os
import pathlib
import shutil
import signal
import subprocess
import time
import urllib.request
from typing import Any, Callable, ContextManager, Dict, List, Optional, Tuple

from jetstream import LEAST, ApiError, Away, Nats, version_of

HOSTS = (1, 2, 3)


def program() -> Optional[str]:
    """A nats-server that is new enough: NATS_SERVER, else the one in PATH."""
    for path in (os.environ.get("NATS_SERVER"), shutil.which("nats-server")):
        if path and os.access(path, os.X_OK):
            told = subprocess.run(
                [path, "--version"], stdout=subprocess.PIPE, stderr=subprocess.STDOUT, text=True, check=False
            ).stdout
            if version_of(told.strip().rpartition("v")[2]) >= LEAST:
                return path
    return None


class Servers:
    """Servers 1 to `count`. `place` gives host and the ports for clients, for the other servers and for monitoring;
    `start` starts a program on a host."""

    def __init__(
        self,
        folder: pathlib.Path,
        place: Callable[[int], Tuple[str, int, int, int]],
        start: Callable[..., Any],
        count: int = 3,
    ) -> None:
        self.folder, self.start, self.hosts = folder, start, HOSTS[:count]
        self.places = {host: place(host) for host in self.hosts}
        self.running: Dict[int, Any] = {}
        self.more, self.payload, self.is_synced = "", 8_388_608, False  # what the configuration has beside

    def inside(self, host: int) -> ContextManager[Any]:
        """Where a server's own ports can be reached."""
        return contextlib.nullcontext()

    def urls(self) -> str:
        return ",".join(f"{host}:{port}" for host, port, _, _ in self.places.values())

    def monitors(self) -> List[str]:
        return [f"{host}:{port}" for host, _, _, port in self.places.values()]

    # ------------------------------------------------------------ starting and ending

    def begin(self) -> None:
        """Starts them one after the other, and sees that each has found the others; now and then 2.10.27 makes a
        cluster of two, and a restart of the third fixes it."""
        for host in self.hosts:
            self.serve(host)
        for host in (*reversed(self.hosts), 0):
            if self.wait(self.is_whole, 10):
                return
            if host:
                self.kill(host)
                self.serve(host)
        raise TimeoutError("the servers find no cluster of three")

    def serve(self, host: int) -> None:
        """Starts a server, and waits until it takes connections."""
        config = self.folder / f"nats{host}.conf"
        config.write_text(self.config(host))
        self.running[host] = self.start(host, [program(), "-c", config, "-l", self.folder / f"nats{host}.log"])
        if not self.wait(lambda: self.answers(host), 60):
            raise TimeoutError(f"server {host} doesn't answer")

    def config(self, host: int) -> str:
        address, port, route, monitor = self.places[host]
        routes = ", ".join(
            f"nats-route://{it}:{other}" for its, (it, _, other, _) in self.places.items() if its != host
        )
        synced = ", sync_interval: always" if self.is_synced else ""
        cluster = (
            f"cluster {{ name: log, listen: {address}:{route}, routes: [{routes}] }}\n" if len(self.hosts) > 1 else ""
        )
        return (
            f"server_name: n{host}\nlisten: {address}:{port}\nhttp: {address}:{monitor}\nmax_payload: {self.payload}\n"
            f'ping_interval: "10s"\nping_max: 2\nwrite_deadline: "2s"\n'
            f'jetstream {{ store_dir: "{self.folder}/js{host}"{synced} }}\n{cluster}{self.more}'
        )

    def kill(self, host: int) -> None:
        child = self.running[host]
        if child.poll() is None:
            child.kill()
        child.wait()

    def stop(self, host: int) -> None:
        self.running[host].send_signal(signal.SIGSTOP)

    def go_on(self, host: int) -> None:
        self.running[host].send_signal(signal.SIGCONT)

    def lose_disk(self, host: int) -> None:
        self.kill(host)
        shutil.rmtree(self.folder / f"js{host}")

    @staticmethod
    def wait(look: Callable[[], Any], limit: float) -> Any:
        until = time.monotonic() + limit
        while not (told := look()):
            if time.monotonic() > until:
                return None
            time.sleep(0.05)
        return told

    # ------------------------------------------------------------ what they say

    def link(self, host: int, limit: float = 5.0) -> Nats:
        address, port, _, _ = self.places[host]
        with self.inside(host):
            return Nats([f"{address}:{port}"], limit=limit)

    def answers(self, host: int) -> bool:
        """Whether it takes connections; who may not come in gets an error that says so, and that counts too."""
        try:
            self.link(host).close()
            return True
        except Away:
            return False
        except OSError:
            return True

    def told(self, host: int) -> Dict[str, Any]:
        """What a server says of itself; nothing where it is away."""
        address, _, _, port = self.places[host]
        with self.inside(host):
            try:
                with urllib.request.urlopen(f"http://{address}:{port}/jsz?streams=1", timeout=2) as reply:
                    found: Dict[str, Any] = json.load(reply)
                    return found
            except (OSError, ValueError):
                return {}

    def is_whole(self) -> bool:
        metas = [self.told(host).get("meta_cluster", {}) for host in self.hosts]
        if len(self.hosts) == 1:
            return True
        return all(it.get("leader") and it.get("cluster_size") == 3 for it in metas) and any(
            len(it.get("replicas") or []) == 2 for it in metas
        )

    def held(self, host: int) -> Dict[str, Tuple[int, int, int, int]]:
        """Of each stream on a server: messages, bytes, first and last sequence."""
        streams = [
            it for account in self.told(host).get("account_details") or [] for it in account.get("stream_detail") or []
        ]
        names = ("messages", "bytes", "first_seq", "last_seq")
        return {it["name"]: tuple(it["state"][name] for name in names) for it in streams}  # type: ignore[misc]

    def leaders(self, keys: List[str]) -> Dict[str, int]:
        """The host that leads each stream; 0 where nobody does."""
        found = {}
        for host in self.hosts:
            try:
                nats = self.link(host)
            except OSError:
                continue
            for key in keys:
                try:
                    found[key] = int(nats.ask(f"$JS.API.STREAM.INFO.{key}")["cluster"].get("leader", "n0")[1:])
                except (ApiError, Away):
                    found[key] = 0
            nats.close()
            break
        return found
