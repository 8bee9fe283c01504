"""Devices that fail: full ones, a folder for a file, and each read and each write in turn."""
import os
import pathlib
import subprocess
import tempfile

from checks import report
from hkrep.running import PROGRAM, ROOT, at, run
from messages import E1, NEW_E1, mark


def failing_devices():
    with open("/dev/full", "wb") as full:
        got = run(["items"], E1, stdout=full)
    report("a write that fails ends with status 1", [] if got.returncode == 1 else [f"status {got.returncode}"])
    with open("/dev/full", "wb") as full:
        got = run(at(1, 1, 5), E1 + mark(1, 1, 1), stdout=full)
    report("so does one of an answer", [] if got.returncode == 1 else [f"status {got.returncode}"])
    folder = os.open(str(ROOT), os.O_RDONLY)
    try:
        for args in (["items"], at(1, 1, 5), ["world"]):
            got = subprocess.run([str(PROGRAM), *args], stdin=folder, stdout=subprocess.PIPE,
                                 stderr=subprocess.PIPE, timeout=60)
            problems = [] if (got.stdout, got.returncode) == (b"refused 91\n", 1) else [repr((got.stdout, got.returncode))]
            report(f"a read that fails is 91 ({args[0]})", problems)
        for args, told in ((["items", "--json"], b'{"refused":91}\n'), (["frames"], b"")):
            got = subprocess.run([str(PROGRAM), *args], stdin=folder, stdout=subprocess.PIPE, stderr=subprocess.PIPE, timeout=60)
            is_right = (got.stdout, got.returncode) == (told, 1) and b"refused 91: " in got.stderr
            report(f"a read that fails is 91 ({' '.join(args)})", [] if is_right else [repr((got.stdout, got.returncode, got.stderr))])
    finally:
        os.close(folder)


def told_of_items(data, length):
    """What `items` prints of so many of the first bytes of E1 and a mark."""
    lines = (b"commit log 7 stream 1 number 1 time 1 ends 0 rows 1\n", b"mark log 7 stream 1 n 1 m 1\n")
    return b"".join(line for line, end in zip(lines, (len(E1), len(data))) if end <= length)


# E1 and a mark in JSON.
JSON_LINES = (b'{"commit":{"log":"7","stream":1,"number":"1","time":"1","ends":[],"rows":[{"table":1,"key":"5","tag":9,"body":"41"}]}}\n'
              b'{"mark":{"log":"7","stream":1,"n":"1","m":"1"}}\n')


def told_of_json(data, length):
    """The same of `items --json`."""
    return b"".join(line for line, end in zip(JSON_LINES.splitlines(keepends=True), (len(E1), len(data))) if end <= length)


def told_of_frames(_data, _length):
    """What `frames` writes where a read fails behind so many bytes of these lines: frames that are few are written at the end of the input."""
    return b""


def told_of_lines(data, length):
    """What `world` prints of so many of the first bytes of a script of begins: its whole lines alone are made."""
    begun = data[:length].count(b"\n") - 1
    return b"".join(b"begun %d at 0\n" % slot for slot in range(1, begun + 1))


def failing_reads_and_writes():
    """Each read in turn fails, and each write, over input in small pieces."""
    source = ROOT / "tests" / "faults" / "failing_io.c"
    calls = ((["items"], E1 + mark(1, 1, 1), 7, told_of_items, b"refused 91\n"),
             (["world"], b"world 7 1 1\nbegin 1\nbegin 2\nbegin 3\n", 5, told_of_lines, b"refused 91\n"),
             (["items", "--json"], E1 + mark(1, 1, 1), 7, told_of_json, b'{"refused":91}\n'), (["frames"], JSON_LINES, 25, told_of_frames, b""))
    wholes = {"frames": NEW_E1 + mark(1, 1, 1, version=2)}
    with tempfile.TemporaryDirectory() as folder:
        library = pathlib.Path(folder) / "failing_io.so"
        subprocess.run(["cc", "-shared", "-fPIC", "-O1", "-o", str(library), str(source), "-ldl"], check=True)
        for args, data, step, told_of, refused in calls:
            whole = wholes.get(args[0], told_of(data, len(data)))
            for name in ("FAILING_READ", "FAILING_WRITE"):
                problems, number = [], 0
                while number < 100:
                    number += 1
                    environment = dict(os.environ, LD_PRELOAD=str(library), READ_STEP=str(step), **{name: str(number)})
                    got = subprocess.run([str(PROGRAM), *args], input=data, stdout=subprocess.PIPE,
                                         stderr=subprocess.PIPE, timeout=60, env=environment)
                    if got.returncode == 0:
                        problems += [] if got.stdout == whole else [f"undisturbed: {got.stdout!r}"]
                        break
                    is_right = got.stdout == told_of(data, step * (number - 1)) + refused
                    if name == "FAILING_WRITE":
                        is_right = whole.startswith(got.stdout) and got.stdout != whole
                    if got.returncode != 1 or not is_right:
                        problems.append(f"call {number}: status {got.returncode}, printed {got.stdout!r}")
                if number < 2 or number == 100:
                    problems.append(f"{number} runs")
                report(f"each call refused in turn ({name} of {' '.join(args)}, {number} runs)", problems[:5])


CHECKS = (failing_devices, failing_reads_and_writes)
