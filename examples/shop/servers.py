"""A PostgreSQL, a Redis and nodes of one's own in a folder, started and ended by their own numbers: for the shop, and
for tests/checks/postgres.py. PostgreSQL doesn't run as root: there it runs as the user `postgres`."""
from __future__ import annotations

import os
import pathlib
import pwd
import shutil
import signal
import socket
import subprocess
import sys
import time
from typing import Any, Callable, List, Optional, Union

sys.dont_write_bytecode = True
ROOT = pathlib.Path(__file__).resolve().parent.parent.parent
sys.path[:0] = [str(ROOT / "connectors" / "postgres"), str(ROOT / "connectors" / "common"),
                str(ROOT / "clients" / "python")]
from built import hkrep

PATIENCE = 60.0
HKREP = hkrep()
CAPTURE = ROOT / "connectors" / "postgres" / "capture"


def postgres_folder() -> Optional[pathlib.Path]:
    """Where the newest PostgreSQL of this machine has its programs."""
    found = sorted(pathlib.Path("/usr/lib/postgresql").glob("*/bin/postgres"), key=lambda it: int(it.parts[4]))
    return found[-1].parent if found else None


def free_port() -> int:
    with socket.socket() as probe:
        probe.bind(("127.0.0.1", 0))
        return int(probe.getsockname()[1])


def waited(look: Callable[[], Any], what: Union[str, Callable[[], str]], limit: float = PATIENCE) -> Any:
    """What the look gives, once it gives something."""
    begin = time.monotonic()
    while not (told := look()):
        if time.monotonic() - begin > limit:
            raise TimeoutError(f"{what() if callable(what) else what}: not within {limit:.0f} s")
        time.sleep(0.005)
    return told


class Programs:
    """What was started here, by name; `end` ends all of it. What they say goes into the file `said` of the folder."""

    def __init__(self, folder: pathlib.Path) -> None:
        self.folder = folder
        self.children: List["subprocess.Popen[bytes]"] = []

    def start(self, *words: Any, **more: Any) -> "subprocess.Popen[bytes]":
        with open(self.folder / "said", "ab") as said:
            child = subprocess.Popen([str(word) for word in words],
                                     **{"stdout": subprocess.DEVNULL, "stdin": subprocess.DEVNULL, "stderr": said,
                                                                       **more})
        self.children.append(child)
        return child

    def said(self) -> str:
        return (self.folder / "said").read_text(errors="replace")[-2000:]

    def node(self, port: int, log: int) -> "subprocess.Popen[bytes]":
        child = self.start(HKREP, "node", "--log", log, "--streams", 1, "--port", port, "-q", stdout=subprocess.PIPE)
        assert child.stdout is not None
        child.stdout.readline()
        return child

    def redis(self, port: int) -> "subprocess.Popen[bytes]":
        (self.folder / "redis").mkdir(exist_ok=True)
        child = self.start("redis-server", "--port", port, "--bind", "127.0.0.1", "--dir", self.folder / "redis",
                           "--appendonly", "yes",
                           "--appendfsync", "always", "--save", "")
        waited(lambda: listens(port), "Redis doesn't listen")
        return child

    def end(self) -> None:
        for child in self.children:
            kill(child)


def listens(port: int) -> bool:
    try:
        socket.create_connection(("127.0.0.1", port), timeout=5).close()
        return True
    except OSError:
        return False


def kill(child: "subprocess.Popen[bytes]") -> None:
    """kill -9, of a child of ours."""
    if child.poll() is None:
        child.kill()
    child.wait()
    if child.stdout is not None:
        child.stdout.close()


class Postgres:
    """A PostgreSQL over a socket in its folder, without TCP. `fsync` off is as safe as on, as long as the machine
    itself goes on."""

    def __init__(self, programs: Programs, name: str = "pg") -> None:
        self.programs, self.folder = programs, programs.folder / name
        self.bin = postgres_folder()
        self.dsn = f"host={self.folder} user=postgres dbname=postgres"
        self.server: Optional["subprocess.Popen[bytes]"] = None

    def as_user(self) -> List[str]:
        if os.getuid():
            return []
        user = pwd.getpwnam("postgres")
        return ["setpriv", f"--reuid={user.pw_uid}", f"--regid={user.pw_gid}", "--clear-groups"]

    def make(self) -> "Postgres":
        self.programs.folder.chmod(0o755)
        self.folder.mkdir()
        if not os.getuid():
            shutil.chown(self.folder, "postgres")
        subprocess.run([*self.as_user(), f"{self.bin}/initdb", "-D", f"{self.folder}/data", "-U", "postgres", "-A",
                        "trust", "--no-sync", "-E", "UTF8",
                        "--locale=C.UTF-8"], check=True, stdout=subprocess.DEVNULL, cwd="/")
        return self

    def start(self) -> "Postgres":
        """Starts it, again where what a killed server left still ends."""
        settings = {"wal_level": "logical", "listen_addresses": "", "unix_socket_directories": self.folder,
                    "fsync": "off", "max_wal_senders": 20, "max_replication_slots": 20,
                    "max_prepared_transactions": 20, "logging_collector": "off", "shared_buffers": "64MB"}
        words = [word for name, value in settings.items() for word in ("-c", f"{name}={value}")]
        for _ in range(100):
            self.server = self.programs.start(*self.as_user(), f"{self.bin}/postgres", "-D", f"{self.folder}/data",
                                              *words, cwd="/",
                                              stderr=subprocess.DEVNULL)
            waited(lambda: self.server.poll() is not None or self.answers(),
                   "PostgreSQL doesn't start")      # type: ignore[union-attr]
            if self.server.poll() is None:
                return self
            time.sleep(0.05)
        raise TimeoutError("PostgreSQL doesn't start")

    def answers(self) -> bool:
        return subprocess.run([f"{self.bin}/pg_isready", "-q", "-h", str(self.folder)], check=False,
                              cwd="/").returncode == 0

    def kill(self) -> None:
        """kill -9 of the server and of each process that it started."""
        assert self.server is not None
        them = [self.server.pid, *children_of(self.server.pid)]
        for number in them:
            try:
                os.kill(number, signal.SIGKILL)
            except ProcessLookupError:
                pass
        self.server.wait()

    def connect(self) -> Any:
        import psycopg2
        link = psycopg2.connect(self.dsn)
        link.autocommit = True
        return link


def children_of(number: int) -> List[int]:
    try:
        return [int(it) for it in pathlib.Path(f"/proc/{number}/task/{number}/children").read_text().split()]
    except OSError:
        return []
