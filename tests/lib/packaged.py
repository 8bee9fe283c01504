"""The Python package of this checkout, for the checks of it: its command, and what its calls are refused. Standard library only."""
import pathlib
import subprocess
import sys

ROOT = pathlib.Path(__file__).resolve().parents[2]
PACKAGE = ROOT / "clients" / "python"
sys.path.insert(0, str(PACKAGE))
import vadungsil as va

LIMIT = 30


def refusal_of(call):
    """The number that a call is refused with, 0 where it isn't; a refusal says words and a number."""
    try:
        call()
    except va.Refused as refused:
        text = str(refused)
        return refused.number if f"refused {refused.number}" in text and refused.meaning in text and refused.advice in text else -1
    return 0


def run(words, data=b"", **more):
    kept = {"input": data, "stdout": subprocess.PIPE, "stderr": subprocess.PIPE, "timeout": LIMIT, "check": False}
    return subprocess.run([str(it) for it in words], **{**kept, **more})


def command(words, data=b"", before=(), **more):
    """What `python3 -m vadungsil` prints, its status, and what standard error has. `before`: words of a program that starts it."""
    got = run([*before, sys.executable, "-m", "vadungsil", *words], data, cwd=PACKAGE, **more)
    return (got.stdout or b"").decode(), got.returncode, got.stderr.decode()
