"""Each fault of a frame, in both versions."""
from fields import fields_of_end as end, fields_of_row as row, framed, grouped
from checks import report
from hkrep.running import check, patched, run
from messages import E1, E2, NEW_E2, entry, mark


def fault_of(data):
    """The number of the fault that `items` prints last, or 0."""
    lines = run(["items"], data).stdout.decode().splitlines()
    return int(lines[-1].split()[1]) if lines and lines[-1].startswith("refused") else 0


def check_faults(name, cases):
    problems = [f"{what}: {fault_of(data)}, wanted {want}" for what, data, want in cases if fault_of(data) != want]
    report(name, problems[:5])


# A place of E2, the byte there, and the number that is printed, or 0 where an item is.
FAULTS_OF_AN_ENTRY = [
    (0, 1, 2), (3, 27, 10), (3, 0x42, 10), (3, 0x44, 1), (4, 0, 3), (4, 2, 8), (4, 3, 3), (5, 0, 4), (5, 2, 10), (5, 3, 4), (6, 0xff, 0),
    (14, 1, 5), (15, 0, 5), (15, 64, 0), (15, 65, 5), (23, 0, 6), (23, 1, 0), (23, 3, 6), (24, 0x40, 6), (31, 1, 6), (32, 4, 8),
    (33, 0, 10), (34, 0xff, 0), (36, 0xff, 0), (44, 0x40, 6), (51, 0, 6), (51, 2, 6), (52, 4, 8), (53, 0, 10), (53, 2, 10),
    (54, 0xff, 0), (56, 0xff, 0), (64, 0xff, 0), (68, 0x10, 9), (69, 0, 10), (69, 2, 10), (70, 0xff, 0)]


# The same of the mark (1, 2, 2).
FAULTS_OF_A_MARK = [
    (0, 1, 2), (3, 27, 10), (3, 29, 1), (4, 0, 3), (4, 2, 0), (4, 3, 3), (5, 0, 4), (5, 1, 10), (5, 3, 4), (13, 0xff, 0), (15, 0, 5),
    (15, 64, 0), (15, 65, 5), (16, 1, 6), (23, 0, 0), (23, 3, 6), (24, 0x40, 6), (31, 1, 6), (31, 3, 0)]


# The same of an entry with the ends of keys 5 and 7 and rows there: the low bytes of tables, keys and births.
FAULTS_OF_LISTS = [(61, 4, 7), (61, 5, 7), (61, 6, 0), (53, 0, 7), (69, 2, 6), (35, 2, 7), (97, 4, 7), (97, 5, 7), (97, 6, 0), (89, 0, 7),
                   (73, 2, 7)]


def faults_of_frames():
    lists = entry(2, 2, [(1, 5, 9, b""), (1, 7, 9, b"")], [(1, 5, 1), (1, 7, 1)])
    for name, data, table in (("an entry", E2, FAULTS_OF_AN_ENTRY), ("a mark", mark(1, 2, 2), FAULTS_OF_A_MARK),
                              ("lists", lists, FAULTS_OF_LISTS)):
        check_faults(f"each fault of {name}", [(f"byte {at} is {byte}", patched(data, (at, byte)), want) for at, byte, want in table])
    check_faults("order before birth", [("both", patched(lists, (61, 5), (69, 2)), 7)])
    check_faults("a byte after a mark", [("one", patched(mark(1, 2, 2), (3, 29)) + b"\0", 10)])
    of = lambda ends, rows, body: entry(2, 2, [(1, 5 + 2 * k, 9, b"A" * body) for k in range(rows)],
                                        [(1, 5 + 2 * k, 1) for k in range(ends)])
    check_faults("counts and bodies", [(f"{ends} ends, {rows} rows of {body} bytes", of(ends, rows, body), want) for ends, rows, body, want in (
        (0, 0, 0, 8), (1, 0, 0, 0), (0, 1, 0, 0), (0, 1, 4096, 0), (0, 1, 4097, 9), (1024, 1024, 0, 0), (1025, 1, 0, 8), (1, 1025, 0, 8))])
    check_faults("each cut of an entry", [(f"cut at {end}", E1[:end], 1) for end in range(1, len(E1))])
    check_faults("numbers and times", [(f"number {n}, time {at}", entry(n, at, [(1, 5, 9, b"")]), want) for n, at, want in (
        (0, 5, 6), (1, 5, 0), (5, 5, 0), (6, 5, 6), (1, 0, 6), (1, 2 ** 62, 0), (1, 2 ** 62 + 1, 6))])
    check("the items before a fault are printed", ["items"], E1 + patched(E2, (4, 3)) + E1,
          "commit log 7 stream 1 number 1 time 1 ends 0 rows 1\nrefused 3\n", 1)


# A place of E2 in version 2, the byte there, and the number that is printed, or 0 where an item is.
FAULTS_OF_A_NEW_ENTRY = [
    (0, 1, 2), (3, 27, 10), (3, 0x46, 10), (3, 0x48, 1), (4, 0, 3), (4, 3, 3), (5, 0, 4), (5, 2, 10), (5, 3, 4), (6, 0xff, 0),
    (14, 1, 5), (15, 0, 5), (15, 64, 0), (15, 65, 5), (23, 0, 6), (23, 1, 0), (23, 3, 6), (24, 0x40, 6), (31, 1, 6), (32, 4, 8),
    (33, 2, 7), (34, 0xff, 0), (36, 4, 8), (37, 0, 8), (38, 0xff, 0), (46, 0x40, 6), (53, 0, 6), (53, 2, 6), (54, 4, 8), (55, 0, 10),
    (55, 2, 10), (56, 0xff, 0), (58, 4, 8), (59, 0, 8), (59, 2, 10), (60, 0xff, 0), (68, 0xff, 0), (72, 0x10, 9), (73, 0, 10),
    (73, 2, 10), (74, 0xff, 0)]


# The same of the mark (1, 2, 2) of version 2.
FAULTS_OF_A_NEW_MARK = [
    (0, 1, 2), (3, 27, 10), (3, 29, 1), (4, 0, 3), (4, 1, 0), (4, 3, 3), (5, 0, 4), (5, 3, 4), (15, 0, 5), (15, 65, 5), (16, 1, 6),
    (23, 0, 0), (23, 3, 6), (24, 0x40, 6), (31, 1, 6)]


def new_lists():
    """Each rule of the groups of version 2, kept and broken."""
    one, nothing = [(1, [row(5)])], ()
    of = lambda ends, rows: grouped(9, 9, ends, rows)
    many = [row(key, body=b"") for key in range(1024)]
    cases = [
        ("a row", of(nothing, one), 0), ("an end", of([(1, [end(5, 1)])], nothing), 0), ("neither", of(nothing, nothing), 8),
        ("two groups of rows", of(nothing, [(1, [row(5)]), (2, [row(5)])]), 0),
        ("two groups of rows of one table", of(nothing, [(1, [row(5)]), (1, [row(6)])]), 7),
        ("tables of rows that fall", of(nothing, [(2, [row(5)]), (1, [row(6)])]), 7),
        ("a group without rows", of(nothing, [(1, [])]), 8),
        ("a second group without rows", of(nothing, [(1, [row(5)]), (2, [])]), 8),
        ("a table before a count", of(nothing, [(1, [row(5)]), (1, [])]), 7),
        ("keys of rows that stand still", of(nothing, [(1, [row(5), row(5)])]), 7),
        ("keys of rows that fall", of(nothing, [(1, [row(6), row(5)])]), 7),
        ("keys that fall from table to table", of(nothing, [(1, [row(6)]), (2, [row(5)])]), 0),
        ("order before a body", of(nothing, [(1, [row(6), row(5, length=4097)])]), 7),
        ("a body of 4,097 bytes", of(nothing, [(1, [row(5, body=b"A" * 4097)])]), 9),
        ("two groups of ends", of([(1, [end(5, 1)]), (2, [end(5, 1)])], nothing), 0),
        ("two groups of ends of one table", of([(1, [end(5, 1)]), (1, [end(6, 1)])], nothing), 7),
        ("tables of ends that fall", of([(2, [end(5, 1)]), (1, [end(6, 1)])], nothing), 7),
        ("a group without ends", of([(1, [])], one), 8),
        ("keys of ends that stand still", of([(1, [end(5, 1), end(5, 1)])], nothing), 7),
        ("order before birth", of([(1, [end(5, 1), end(5, 9)])], nothing), 7),
        ("born at the time", of([(1, [end(5, 9)])], nothing), 6),
        ("born at 0", of([(1, [end(5, 0)])], nothing), 6),
        ("1,024 rows of a table", of(nothing, [(1, many)]), 0),
        ("1,025 rows of a table", of(nothing, [(1, many + [row(2000)])]), 8),
        ("1,024 rows of two tables", of(nothing, [(1, many[:-1]), (2, [row(1)])]), 0),
        ("1,025 rows of two tables", of(nothing, [(1, many), (2, [row(1)])]), 8),
        ("1,024 tables of rows", of(nothing, [(table, [row(5, body=b"")]) for table in range(1024)]), 0),
        ("1,025 groups of rows", of(nothing, [(table, [row(5, body=b"")]) for table in range(1025)]), 8),
        ("1,024 tables of ends", of([(table, [end(5, 1)]) for table in range(1024)], nothing), 0),
        ("1,025 groups of ends", of([(table, [end(5, 1)]) for table in range(1025)], nothing), 8),
        ("1,025 ends of two tables", of([(1, [end(key, 1) for key in range(1024)]), (2, [end(1, 1)])], nothing), 8),
        ("a byte after the rows", framed(of(nothing, one)[4:] + b"\0"), 10)]
    check_faults("the groups of version 2", cases)


def faults_of_new_frames():
    for name, data, table in (("an entry", NEW_E2, FAULTS_OF_A_NEW_ENTRY), ("a mark", mark(1, 2, 2, version=2), FAULTS_OF_A_NEW_MARK)):
        check_faults(f"each fault of {name} of version 2", [(f"byte {at} is {byte}", patched(data, (at, byte)), want) for at, byte, want in table])
    check_faults("each cut of an entry of version 2", [(f"cut at {end}", NEW_E2[:end], 1) for end in range(1, len(NEW_E2))])
    check_faults("each shorter rest of version 2", [(f"{size} bytes", framed(NEW_E2[4:4 + size]), 10) for size in range(28, len(NEW_E2) - 4)])
    new_lists()
    full = [row(5, body=b"A" * 4096)]
    check_faults("the longest frame", [("of version 2", grouped(9, 9, [(table, [end(5, 1)]) for table in range(1024)], [(table, full) for table in range(1024)]), 0)])


CHECKS = (faults_of_frames, faults_of_new_frames)
