"""The example of links."""
import socket
import subprocess
import sys

from checks import report
from hkrep.running import ROOT


def free_pair():
    """A port that is free, and the one above it too."""
    for _ in range(100):
        with socket.socket() as one, socket.socket() as other:
            one.bind(("127.0.0.1", 0))
            port = one.getsockname()[1]
            try:
                other.bind(("127.0.0.1", port + 1))
            except OSError:
                continue
            return port
    return 7427


def links_example():
    """Two feeders, a reader and a second node: examples/links."""
    port = free_pair()
    got = subprocess.run([sys.executable, str(ROOT / "examples" / "links" / "two_feeders.py"), str(port)], stdout=subprocess.PIPE,
                         stderr=subprocess.PIPE, timeout=60, check=False)
    last = got.stdout.decode().splitlines()[-1:]
    problems = [] if got.returncode == 0 and last and last[0].startswith("both nodes answer the same") else [got.stdout.decode(), got.stderr.decode()]
    report("the example of two feeders", problems)


CHECKS = (links_example,)
