"""Figures that were measured: a file of JSON each in docs/measures, with the day, the commit and the machine. Standard library only."""
import datetime
import hashlib
import json
import os
import pathlib
import subprocess

ROOT = pathlib.Path(__file__).resolve().parents[2]
FOLDER = ROOT / "docs" / "measures"


def commit():
    """The commit that is checked out, with a plus where files differ from it."""
    def told(*words):
        return subprocess.run(["git", *words], cwd=ROOT, stdout=subprocess.PIPE, stderr=subprocess.DEVNULL, text=True, check=False).stdout.strip()
    changed = told("status", "--porcelain", "--untracked-files=no", "--", "crates", "bench", "tests")
    return told("rev-parse", "--short=10", "HEAD") + ("+" if changed else "")


def write(path, figures):
    """Writes figures with where they are from, a list a line; gives the path."""
    stamp = {"measured": datetime.date.today().isoformat(), "commit": commit(), "processors": os.cpu_count()}
    path.write_text(json.dumps({**stamp, **figures}, indent=1) + "\n", encoding="utf-8")
    return path


def sum_of(path):
    """A checksum of figures, which their picture has in it."""
    return hashlib.sha256(path.read_bytes()).hexdigest()[:16]
