"""Items in frames of both versions: `items`, `rewrite`, and the first stories of `at`."""
import subprocess
import time

from checks import report
from fields import fields_of_end as end, fields_of_row as row, grouped
from hkrep.running import PROGRAM, ROOT, at, check, patched, run
from messages import E1, E2, NEW_E1, NEW_E2, TOO_SHORT, entry, mark


def worked_rows():
    check("an entry and its mark answer", at(1, 1, 5), E1 + mark(1, 1, 1), "9 41\n")
    check("the example file answers", at(1, 1, 5), (ROOT / "examples" / "first.bin").read_bytes(), "9 41\n")
    check("an entry without a mark can't be read", at(1, 1, 5), E1, "refused 26 readable 0\n", 1)
    check("an empty input at time 0", at(0, 1, 5), b"", "none\n")
    check("an empty input at time 1", at(1, 1, 5), b"", "refused 26 readable 0\n", 1)
    check("both items are printed", ["items"], E1 + mark(1, 1, 1),
          "commit log 7 stream 1 number 1 time 1 ends 0 rows 1\nmark log 7 stream 1 n 1 m 1\n")
    check("an empty input has no items", ["items"], b"", "")


def new_worked_rows():
    """The first stories with frames of version 2."""
    new = lambda stream, n, m: mark(stream, n, m, version=2)
    check("an entry of version 2 and its mark answer", at(1, 1, 5), NEW_E1 + new(1, 1, 1), "9 41\n")
    check("an entry of version 2 without a mark can't be read", at(1, 1, 5), NEW_E1, "refused 26 readable 0\n", 1)
    check("frames of both versions answer", at(2, 1, 5), NEW_E2 + E1 + new(1, 2, 2), "9 42\n")
    check("both items of version 2 are printed", ["items"], NEW_E1 + new(1, 1, 1),
          "commit log 7 stream 1 number 1 time 1 ends 0 rows 1\nmark log 7 stream 1 n 1 m 1\n")
    check("E2 of version 2 is printed", ["items"], NEW_E2, "commit log 7 stream 1 number 2 time 2 ends 1 rows 1\n")


def bytes_of_all_kinds():
    check("the greatest time is read", at(2 ** 62, 1, 5), entry(1, 2 ** 62, [(1, 5, 9, b"")]) + mark(1, 1, 2 ** 62),
          "9 -\n")
    check("a time above the greatest is 6", ["items"], entry(1, 2 ** 62 + 1, [(1, 5, 9, b"")]), "refused 6\n", 1)
    check("a body of 4,096 bytes", at(1, 1, 5), entry(1, 1, [(1, 5, 9, b"\xab" * 4096)]) + mark(1, 1, 1),
          "9 " + "ab" * 4096 + "\n")
    check("a body of 4,097 bytes is 9", ["items"], entry(1, 1, [(1, 5, 9, b"\xab" * 4097)]), "refused 9\n", 1)
    check("greatest numbers", at(1, 65535, 2 ** 64 - 1, log=str(2 ** 64 - 1)),
          entry(1, 1, [(65535, 2 ** 64 - 1, 2 ** 32 - 1, b"\x00")], log=2 ** 64 - 1) + mark(1, 1, 1, log=2 ** 64 - 1),
          "4294967295 00\n")
    check("a cut frame is 1, after the items before it", ["items"], E2 + E1[:-1],
          "commit log 7 stream 1 number 2 time 2 ends 1 rows 1\nrefused 1\n", 1)
    check("a length above the greatest is 2", ["items"], bytes.fromhex("00409821"), "refused 2\n", 1)
    check("the greatest length goes on", ["items"], bytes.fromhex("00409820"), "refused 1\n", 1)
    check("a length above the greatest of version 1 goes on", ["items"], bytes.fromhex("00408821"), "refused 1\n", 1)
    check("a length below the least is 10", ["items"], TOO_SHORT, "refused 10\n", 1)
    check("rows that do not rise are 7", ["items"], entry(1, 1, [(1, 6, 9, b""), (1, 5, 9, b"")]), "refused 7\n", 1)
    check("nothing follows a fault", ["items"], TOO_SHORT + E1, "refused 10\n", 1)
    many = b"".join(entry(n, n, [(1, n, 9, b"\x41")]) for n in range(1, 3001))
    check("many items", ["items"], many,
          "".join(f"commit log 7 stream 1 number {n} time {n} ends 0 rows 1\n" for n in range(1, 3001)))


def check_rewritten(name, data, wanted):
    got = run(["rewrite"], data)
    problems = [] if (got.stdout, got.returncode, got.stderr) == (wanted, 0, b"") else [f"{got.returncode} {got.stdout[:200]!r}, wanted {wanted[:200]!r}"]
    report(name, problems)


def rewriting():
    check_rewritten("E1 and its mark in version 2", E1 + mark(1, 1, 1), NEW_E1 + mark(1, 1, 1, version=2))
    check_rewritten("frames of version 2 stay", NEW_E2 + NEW_E1 + mark(1, 2, 2, version=2), NEW_E2 + NEW_E1 + mark(1, 2, 2, version=2))
    check_rewritten("frames of both versions", E2 + NEW_E1 + mark(1, 2, 2), NEW_E2 + NEW_E1 + mark(1, 2, 2, version=2))
    check_rewritten("nothing", b"", b"")
    tables = entry(9, 9, [(1, 5, 9, b"A"), (1, 6, 9, b"A"), (3, 1, 9, b"A")], [(2, 7, 1), (4, 1, 1), (4, 2, 1)])
    check_rewritten("the longest runs of one table", tables, grouped(9, 9, [(2, [end(7, 1)]), (4, [end(1, 1), end(2, 1)])], [(1, [row(5), row(6)]), (3, [row(1)])]))
    many = b"".join(entry(n, n, [(1, n, 9, b"\x41")]) for n in range(1, 3001))
    check_rewritten("many frames", many, b"".join(grouped(n, n, rows=[(1, [row(n)])]) for n in range(1, 3001)))
    for name, data, fault in (("a cut frame", E1 + E2[:-1], 1), ("a fault after an item", E1 + patched(E2, (4, 3)), 3),
                              ("a fault of version 2", NEW_E1 + patched(NEW_E2, (59, 0)) + E1, 8), ("a cut length", E1 + b"\0", 1)):
        got = run(["rewrite"], data)
        is_right = (got.stdout, got.returncode) == (b"", 1) and f"refused {fault}: " in got.stderr.decode()
        report(f"nothing is written of {name}, and it is told", [] if is_right else [f"{got.returncode} {got.stdout[:100]!r} {got.stderr!r}"])


def pieces():
    """What comes in pieces, through a pipe, is read as the whole is."""
    for args, data, wanted in ((["items"], E1 + mark(1, 1, 1), "commit log 7 stream 1 number 1 time 1 ends 0 rows 1\nmark log 7 stream 1 n 1 m 1\n"),
                               (["world"], b"world 7 1 1\nfront 1\nfront 1\n", "front horizon 0 readable 0\n" * 2)):
        problems = []
        for step in (1, 7):
            child = subprocess.Popen([str(PROGRAM), *args], stdin=subprocess.PIPE, stdout=subprocess.PIPE, stderr=subprocess.PIPE, bufsize=0)
            for at in range(0, len(data), step):
                child.stdin.write(data[at:at + step])
                time.sleep(0.001)
            got = child.communicate(timeout=60)[0].decode()
            if got != wanted:
                problems.append(f"pieces of {step}: {got!r}")
        report(f"{args[0]} read in pieces", problems)


CHECKS = (worked_rows, new_worked_rows, bytes_of_all_kinds, rewriting, pieces)
