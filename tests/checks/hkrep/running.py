"""Runs bin/hkrep, and checks what it prints, its status, and its standard error. Standard library only."""
import pathlib
import subprocess

from checks import report
from messages import E1

ROOT = pathlib.Path(__file__).resolve().parents[3]
PROGRAM = ROOT / "bin" / "hkrep"


def at(time, table, key, log="7", streams="1"):
    return ["at", "--log", log, "--streams", streams, str(time), str(table), str(key)]


def asked(command, *words, log="7", streams="1"):
    return [command, "--log", log, "--streams", streams, *map(str, words)]


def run(args, data=b"", **more):
    more.setdefault("stdout", subprocess.PIPE)
    return subprocess.run([str(PROGRAM), *args], input=data, stderr=subprocess.PIPE, timeout=60, **more)


def is_reason(line, why):
    """Whether a line of standard error is of a line that was printed: of the same number, with what was refused and what to do."""
    if line.endswith(": bad command"):
        return why.startswith(line.split(":")[0] + ": ") and "; expected: " in why
    return f"refused {line.split()[1]}: " in why and "; " in why


def check(name, args, data, out, status=0):
    """What is printed, the status, and a line on standard error for each line that is a refusal or of no command."""
    got = run(args, data)
    problems = []
    if got.stdout != out.encode():
        problems.append(f"printed {got.stdout[:300]!r}, wanted {out[:300]!r}")
    if got.returncode != status:
        problems.append(f"status {got.returncode}, wanted {status}")
    reasons = got.stderr.decode().splitlines()
    refused = [line for line in out.splitlines() if line.startswith("refused ") or line.endswith(": bad command")]
    if len(reasons) != len(refused) or not all(map(is_reason, refused, reasons)):
        problems.append(f"standard error has {reasons[:5]!r}")
    report(name, problems)


def check_told(name, args, data, told):
    """The whole of standard error."""
    got = run(args, data).stderr.decode()
    report(name, [] if got == told else [f"told {got!r}, wanted {told!r}"])


def check_bad_line(name, args, words):
    """A bad command line has status 2, prints nothing, and says what is wrong on standard error."""
    got = run(args, E1)
    problems = []
    if got.returncode != 2:
        problems.append(f"status {got.returncode}, wanted 2")
    if got.stdout:
        problems.append(f"printed {got.stdout!r}")
    text = got.stderr.decode()
    for word in words:
        if word not in text:
            problems.append(f"standard error lacks {word!r}: {text!r}")
    report(name, problems)


def check_help(name, args, words):
    got = run(args)
    text = got.stdout.decode()
    problems = [f"lacks {word!r}" for word in words if word not in text]
    if got.returncode != 0:
        problems.append(f"status {got.returncode}, wanted 0")
    report(name, problems)


def patched(data, *changes):
    data = bytearray(data)
    for at, byte in changes:
        data[at] = byte
    return bytes(data)
