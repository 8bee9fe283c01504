#!/usr/bin/env python3
"""The measures that bench/README.md names are made, in their smallest form: what they tell isn't looked at, but that each ends well and tells
something. Needs bin/hkrep, and what each of them needs; what isn't installed is said as skipped. Ends with 'N passed, M failed'."""
import os
import pathlib
import shutil
import subprocess
import sys

ROOT = pathlib.Path(__file__).resolve().parents[2]
sys.path.append(str(ROOT / "connectors" / "nats"))
import servers
sys.path.append(str(pathlib.Path(__file__).resolve().parents[1] / "lib"))
from checks import ended, is_built, report, skip
from shown import of

# Debian's Python has Debian's modules
PYTHON = "/usr/bin/python3" if os.path.exists("/usr/bin/python3") else sys.executable
# the smallest number that is worth a run, and what it needs beside bin/hkrep
SMALL = {"bench/run": ("500", ()), "bench/links": ("20", ()), "bench/measures": ("at --rounds 1 --most 1000 --to /tmp", ()), "bench/guard": ("400 3", ()), "bench/parts": ("1", ()), "bench/python": ("1000", ("redis",)), "bench/connectors.py": ("50 1", ("redis",)),
         "bench/postgres": ("keys 100", ("redis", "postgres")), "bench/fanout.py": ("1 2", ("nats",)),
         "bench/c_library": ("2000", ("gcc", "lib/"))}


def lacks(needs):
    """What of this isn't here."""
    has_redis = shutil.which("redis-server") and not subprocess.run([PYTHON, "-c", "import redis"], stderr=subprocess.DEVNULL, check=False).returncode
    has_postgres = list(pathlib.Path("/usr/lib/postgresql").glob("*/bin/postgres")) and not subprocess.run(
        [PYTHON, "-c", "import psycopg2"], stderr=subprocess.DEVNULL, check=False).returncode
    there = {"redis": has_redis, "postgres": has_postgres, "nats": servers.program(), "gcc": shutil.which("gcc"), "lib/": (ROOT / "lib" / "libhekaton.a").exists()}
    return [it for it in needs if not there[it]]


def main():
    if not is_built(ROOT / "bin" / "hkrep"):
        return ended()
    for program in sorted({it.text.split()[0] for it in of("benches.py benches")}):
        number, needs = SMALL[program]
        if lacks(needs):
            skip(f"{program} needs what isn't here: {', '.join(lacks(needs))}", needed=lacks(needs) != ["nats"])
            continue
        done = subprocess.run([PYTHON, ROOT / program, *number.split()], stdout=subprocess.PIPE, stderr=subprocess.STDOUT, text=True, timeout=120, check=False)
        lines = done.stdout.splitlines()
        report(f"{program} {number} ({len(lines)} lines)", [done.stdout[-500:]] if done.returncode or not lines else [])
    return ended()


if __name__ == "__main__":
    sys.exit(main())
