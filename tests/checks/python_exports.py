"""Checks of the Python package's export (clients/python/vadungsil/export.py), which tests/checks/python_client.py runs. Standard library only."""
import csv
import io
import json
import os
import pathlib
import sqlite3
import stat
import sys
import tempfile
import threading

sys.path.append(str(pathlib.Path(__file__).resolve().parents[1] / "lib"))
from checks import differ, report
from client import Node as Served
from client import free_port
from packaged import command, refusal_of, va

ROWS = {(table, key): (table, bytes([key % 256])) for table in (1, 9, 65535) for key in (0, 5, 2 ** 63, 2 ** 64 - 1, *range(100, 400))}
TABLES = ["--tables", "0,1,2,9,65535"]


def fill(node):
    """The rows at time 1, and one more at 2."""
    writer = va.LogWriter(7, 1)
    node.items([writer.commit([(*place, *row) for place, row in ROWS.items()]), *writer.marks()])
    node.items([writer.commit([(1, 7, 9, b"later")]), *writer.marks()])


def rows_of_csv(text):
    return {(int(table), int(key)): (int(tag), bytes.fromhex(body)) for table, key, tag, body in list(csv.reader(io.StringIO(text)))[1:]}


def exports():
    """All rows of a moment, in each form, while the log goes on; a failed export leaves no file."""
    problems = []
    with Served(8) as served, va.Node(served.port) as node, tempfile.TemporaryDirectory() as folder:
        fill(node)
        path, port = pathlib.Path(folder), ["--port", str(served.port)]
        for name in ("all.db", "all.csv", "all.jsonl"):
            got = command([*port, "export", "--at", "1", "--out", str(path / name), *TABLES])
            problems += differ([(name, got, (f"rows {len(ROWS)}\n", 0, ""))])
        base = sqlite3.connect(path / "all.db")
        found = {(table, int(key)): (tag, body) for table in (1, 9, 65535)
                 for key, tag, body in base.execute(f"SELECT * FROM table_{table} ORDER BY key")}
        rising = [int(it[0]) for it in base.execute("SELECT key FROM table_1 ORDER BY key")]
        problems += differ([("sqlite", found, ROWS), ("moment", base.execute("SELECT * FROM moment").fetchall(), [(1, 3, len(ROWS))]),
                            ("in order", rising, sorted(key for table, key in ROWS if table == 1))])
        base.close()
        problems += differ([("csv", rows_of_csv((path / "all.csv").read_text()), ROWS)])
        lines = [json.loads(line) for line in (path / "all.jsonl").read_text().splitlines()]
        problems += differ([("jsonl", {(it["table"], it["key"]): (it["tag"], bytes.fromhex(it["body"])) for it in lines}, ROWS)])
        printed = command([*port, "export", "--at", "2", "--form", "csv", "--tables", "1"])[0].splitlines()
        problems += differ([("standard output", len(printed), 1 + sum(table == 1 for table, _ in ROWS) + 1)])
        early = command([*port, "export", "--at", "3", "--out", str(path / "no.db"), *TABLES])
        problems += differ([("not yet", early[:2], ("refused 26 readable 2\n", 1)),
                            ("files", sorted(it.name for it in path.iterdir()), ["all.csv", "all.db", "all.jsonl"])])
        nodes = va.Nodes([free_port(), served.port])
        problems += differ([("by many nodes", va.export(nodes, str(path / "many.csv"), "csv", 1, [1, 9, 65535]), len(ROWS)),
                            ("the same", (path / "many.csv").read_text(), (path / "all.csv").read_text())])
        problems += differ([("of all tables", va.export(node, str(path / "all_tables.csv"), "csv", 1), len(ROWS)),
                            ("of all tables, by many nodes", va.export(nodes, str(path / "many_tables.csv"), "csv", 1), len(ROWS))])
        problems += differ([("as of these", (path / it).read_text(), (path / "all.csv").read_text()) for it in ("all_tables.csv", "many_tables.csv")])
        alone = refusal_of(lambda: node.at(1).count(70000))
        problems += differ([("a table that is none", refusal_of(lambda: nodes.at(1).counts([70000])), alone)])
        nodes.close()
    report("an export of one moment as SQLite, CSV and JSON lines", problems)


# ---------------------------------------------------------------- where it is written

# no file may have more than 8,192 bytes: as on a disk that is full
FULL = ["bash", "-c", 'ulimit -f 8; exec "$@"', "-"]


def told(name, got, status, *words):
    """A command that failed printed nothing, and said why in one line with these words."""
    out, code, said = got
    is_line = said.startswith("vadungsil: ") and said.count("\n") == 1 and said.endswith("\n") and all(word in said for word in words)
    return differ([(name, (out, code, is_line), ("", status, True))]) + ([] if is_line else [f"{name}: {said!r}"])


def into_what_is_no_file(export, path):
    """A pipe and a device are written into, and stand afterwards; SQLite needs a file."""
    problems, read = [], []
    pipe, device = path / "pipe", path / "device"
    os.mkfifo(pipe)
    reader = threading.Thread(target=lambda: read.append(pipe.read_text()), daemon=True)
    reader.start()
    problems += differ([("a pipe", export(pipe, "--form", "csv"), (f"rows {len(ROWS)}\n", 0, ""))])
    reader.join(30)
    problems += differ([("is still one", stat.S_ISFIFO(os.stat(pipe).st_mode), True)])
    problems += differ([("has the rows", [rows_of_csv(text) for text in read], [ROWS])])
    if made(device, 3):
        problems += differ([(form, export(device, "--form", form), (f"rows {len(ROWS)}\n", 0, "")) for form in ("csv", "jsonl")])
        problems += differ([("is still one", stat.S_ISCHR(os.stat(device).st_mode), True)])
    problems += told("SQLite into a pipe", export(pipe), 2, "SQLite needs a file", str(pipe))
    problems += told("SQLite on standard output", export("-", "--form", "sqlite"), 2, "SQLite needs a file")
    # by a link of the test's own, so that no export can put a file in the place of what stands in /dev
    standard = path / "standard"
    standard.symlink_to("/dev/stdout")
    out, status, said = export(standard, "--form", "csv")
    return problems + differ([("/dev/stdout", (rows_of_csv(out), status, said), (ROWS, 0, ""))])


def made(device, number):
    """Whether there is a device of the test's own: 3 forgets what is written, 7 is full. Who may not make one has none."""
    try:
        os.mknod(device, stat.S_IFCHR | 0o600, os.makedev(1, number))
        with open(device, "wb"):
            return True
    except OSError:
        device.unlink(missing_ok=True)
        return False


def over_what_stands(export, path):
    """A file that stands, and a .part of another, are left as they are without --force; with it a failed export leaves the file too."""
    problems = []
    for name in ("it.csv", "it.jsonl", "it.db"):
        file = path / name
        file.write_text("mine")
        file.chmod(0o600)
        problems += told(name, export(file), 1, str(file), "stands", "--force") + differ([("is as it was", file.read_text(), "mine")])
        problems += told(f"{name} that doesn't fit", export(file, "--force", before=FULL), 1, str(file))
        problems += differ([("is as it was", file.read_text(), "mine"), (f"{name} by force", export(file, "--force"), (f"rows {len(ROWS)}\n", 0, ""))])
        problems += differ([("for the same readers", file.stat().st_mode & 0o777, 0o600)])
    other = path / "other.csv.part"
    other.write_text("mine")
    problems += told("a .part that stands", export(path / "other.csv"), 1, "other.csv.part stands")
    problems += differ([("is as it was", other.read_text(), "mine")])
    link = path / "link.csv"
    link.symlink_to("linked.csv")
    problems += differ([("by a link", export(link)[:2], (f"rows {len(ROWS)}\n", 0))])
    problems += differ([("leads there", (link.is_symlink(), rows_of_csv(link.read_text())), (True, ROWS))])
    problems += differ([("by force", export(path / "other.csv", "--force")[:2], (f"rows {len(ROWS)}\n", 0))])
    for name in ("it.csv", "it.jsonl", "it.db", "link.csv", "linked.csv", "other.csv"):
        (path / name).unlink()
    return problems


def where_it_can_not(export, path):
    """Each is told in a line, and leaves nothing behind."""
    problems = told("no folder", export(path / "no" / "it.csv"), 1, str(path / "no" / "it.csv"), "No such file or directory")
    problems += told("a folder", export(path, "--form", "csv"), 1, str(path), "Is a directory")
    problems += told("no right", export("/proc/self/it.csv"), 1, "/proc/self/it.csv: ")
    for name in ("it.csv", "it.jsonl", "it.db"):
        reason = "disk" if name == "it.db" else "File too large"
        problems += told(f"{name} that doesn't fit", export(path / name, before=FULL), 1, str(path / name), reason)
    device = path / "full"
    if made(device, 7):
        problems += told("a full device", export(device, "--form", "jsonl"), 1, f"{device}: No space left on device")
        device.unlink()
    with open("/dev/full", "wb") as full:
        problems += told("a full standard output", export("-", stdout=full), 1, "standard output: No space left on device")
    problems += told("a closed standard output", export("-", before=["bash", "-c", 'exec "$@" >&-', "-"]), 1, "standard output: is closed")
    problems += differ([("nothing is left", sorted(it.name for it in path.iterdir()), [])])
    return problems


def export_places():
    """Where an export may go: into what is no file, and never in its place; not over what stands; and what can't be written is told."""
    problems = []
    with Served(64) as served, va.Node(served.port) as node:
        fill(node)
        words = ["--port", str(served.port), "export", "--at", "1", *TABLES, "--out"]
        for check in (into_what_is_no_file, over_what_stands, where_it_can_not):
            with tempfile.TemporaryDirectory() as folder:
                problems += check(lambda out, *own, **more: command([*words, str(out), *own], **more), pathlib.Path(folder))
    report("an export writes into pipes and devices, over no file that stands, and tells in a line what it can't", problems)
