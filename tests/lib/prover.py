"""Some functions of a crate proved, with what they call, and nothing else (`rattle check --only`): what tests/tools/fn and tests/tools/edits share. The
words of a check are the toolchain's own (rt, as a module), so `rt check` and these ask the same. Standard library only."""
import functools
import importlib.machinery
import importlib.util
import io
import os
import pathlib
import re
import resource
import shutil
import subprocess
import sys
from typing import NamedTuple

ROOT = pathlib.Path(__file__).resolve().parents[2]


class Said(NamedTuple):
    """What a check said, and what it took: seconds of the processor, and gigabytes at the most."""

    status: int
    text: str
    seconds: float
    space: float

    def verdicts(self):
        """What it said of each function that it names, as `proved`."""
        return dict(re.findall(r"^fn (\S+): (.*)$", self.text, re.MULTILINE))

    def is_whole(self):
        """Whether the prover came to the end of what it was asked."""
        return re.search(r"^only=\d+ proved=\d+$", self.text, re.MULTILINE) is not None


@functools.lru_cache(maxsize=None)
def toolchain():
    """The toolchain's rt as a module; where it isn't there, that ends the program."""
    found = shutil.which("rt")
    if not found:
        sys.exit("rt is not installed: it comes with the toolchain")
    sys.dont_write_bytecode = True
    loader = importlib.machinery.SourceFileLoader("rt", os.path.realpath(found))
    module = sys.modules["rt"] = importlib.util.module_from_spec(importlib.util.spec_from_loader("rt", loader))
    loader.exec_module(module)
    return module


def crate_of(name):
    """The toolchain's view of a crate of crates.txt, or None where that has no such crate."""
    names = re.findall(r"^([a-z]\w*)[ :]", (ROOT / "crates.txt").read_text(encoding="utf-8"), re.MULTILINE)
    if name not in names:
        return None
    crate = toolchain().rtlib.Crate(str(ROOT / "crates" / name), str(ROOT), {})
    crate.out = io.StringIO()
    return crate


def asked(crate, functions, folder=None, kept=None):
    """Proves these functions of a crate with what they call, in its folder or in a copy of it: over the libraries of the crates below where all of
    them are built, else over their sources. What is in the folder `kept` of an earlier check isn't proved again."""
    is_built = all(it.is_built() for it in crate.below())
    words = [toolchain().rtlib.RATTLE, "check", *crate.words(["--jobs", "1"], keeps=False, as_source=not is_built)]
    for it in functions:
        words += ["--only", it]
    before = resource.getrusage(resource.RUSAGE_CHILDREN)
    done = subprocess.run([*words, *(["--incremental", str(kept)] if kept else [])], cwd=folder or crate.folder, stdin=subprocess.DEVNULL, stdout=subprocess.PIPE,
                          stderr=subprocess.STDOUT, text=True, errors="replace", check=False)
    after = resource.getrusage(resource.RUSAGE_CHILDREN)
    return Said(done.returncode, done.stdout, after.ru_utime + after.ru_stime - before.ru_utime - before.ru_stime, after.ru_maxrss / 1e6)
