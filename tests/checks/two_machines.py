#!/usr/bin/env python3
"""Checks two nodes on two machines: the second begins with what the first has (`hkrep node --from`), and each is asked from the other's
machine (`--node`, `HKREP_NODE`). The machines are two network namespaces with a wire between them; where none can be made, two addresses of
this machine, which the check's name says.

Prints a line for each check and ends with 'N passed, M failed'. Standard library only."""
import os
import pathlib
import subprocess
import sys

sys.path.append(str(pathlib.Path(__file__).resolve().parents[1] / "lib"))
from checks import differ, ended, free_port, guarded, is_built, report
from staying import LIMIT, PROGRAM, Running

ROOT = pathlib.Path(__file__).resolve().parents[2]
# as examples/first.bin has them: key 5 has body 41 from time 1 on, and the stream is closed up to 1
FIRST, ROW, FRONT = ROOT / "examples" / "first.bin", "9 41\n", "front horizon 0 readable 1\n"
USUAL = 7420


class Machine:
    """Where programs run: behind these words, at this address."""

    def __init__(self, words, address, port):
        self.words, self.address, self.port = words, address, port
        self.place = f"{address}:{port}"

    def run(self, *words, data=b"", **env):
        """The lines that a command prints here, with what it said where it failed."""
        done = subprocess.run([*self.words, *map(str, words)], input=data, capture_output=True, timeout=LIMIT, env={**os.environ, **env}, check=False)
        return done.stdout.decode() if done.returncode == 0 else f"status {done.returncode}: {done.stderr.decode()[-300:]}"

    def hkrep(self, *words, **more):
        return self.run(PROGRAM, *words, **more)

    def python(self, *words):
        return self.run(sys.executable, "-m", "vadungsil", *words, PYTHONPATH=str(ROOT / "clients" / "python"))


def ip(*words):
    return subprocess.run(["ip", *words], capture_output=True, timeout=LIMIT, check=False).returncode == 0


class Wire:
    """Two machines, which are gone when the block is left."""

    def __init__(self):
        self.names = [f"hk{os.getpid()}{end}" for end in "ab"]

    def is_made(self):
        one, two = self.names
        made = all(ip("netns", "add", name) for name in self.names) and ip("link", "add", one, "netns", one, "type", "veth", "peer", "name", two, "netns", two)
        return made and all(
            ip("-n", name, "addr", "add", f"10.213.0.{number}/24", "dev", name) and ip("-n", name, "link", "set", name, "up") and ip("-n", name, "link", "set", "lo", "up")
            for number, name in enumerate(self.names, 1))

    def machines(self):
        """The machines, and what they are."""
        try:
            is_made = self.is_made()
        except (OSError, subprocess.TimeoutExpired):
            is_made = False
        if is_made:
            return [Machine(["ip", "netns", "exec", name], f"10.213.0.{number}", USUAL) for number, name in enumerate(self.names, 1)], "two network namespaces"
        return [Machine([], f"127.0.0.{number}", free_port()) for number in (2, 3)], "two addresses of one machine"

    def __enter__(self):
        return self

    def __exit__(self, *_):
        for name in self.names:
            try:
                ip("netns", "del", name)
            except (OSError, subprocess.TimeoutExpired):
                pass


class There(Running):
    """A node of log 7 with a stream on a machine, once it listens there."""

    def __init__(self, machine, *options):
        super().__init__([*map(str, ("node", "--log", 7, "--streams", 1, "--address", machine.address, "--port", machine.port, *options))], machine.address, before=machine.words)
        self.told = self.line() or ""


def questions(one, two):
    """What each node tells, asked from the other's machine."""
    pairs = []
    for at, to in ((one, two), (two, one)):
        name = f"asked at {to.place} from {at.address}"
        pairs += [(f"{name}: a row", at.hkrep("ask", "--node", to.place, "get", 1, 5), ROW),
                  (f"{name}: the range", at.hkrep("front", HKREP_NODE=to.place), FRONT),
                  (f"{name}: by Python", at.python("--node", to.place, "get", "1", "5"), ROW)]
    return pairs


def second_node(one, two, what):
    with There(one) as first:
        begins = f"listening on {one.place} "
        pairs = [("the first node listens there", first.told[:len(begins)], begins),
                 ("fed from the other machine", two.hkrep("feed", "--node", one.place, data=FIRST.read_bytes()), "done 2\n")]
        with There(two, "--from", one.place, "--need-data") as second:
            begins = f"listening on {two.place} "
            pairs += [("the second one, which begins with what that has", second.told[:len(begins)], begins), *questions(one, two)]
    report(f"two nodes on two machines ({what}), the second by --from, each asked by --node", differ(pairs))


def main():
    if not is_built(PROGRAM):
        return ended()
    with Wire() as wire:
        (one, two), what = wire.machines()
        guarded(second_node, one, two, what)
    return ended()


if __name__ == "__main__":
    sys.exit(main())
