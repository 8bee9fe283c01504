"""Scripts that `world` plays, lines that are no commands, and the items that it writes."""
import pathlib
import tempfile

import reference
from checks import report
from hkrep.running import ROOT, check, run
from messages import mark, new_entry


def world_scripts():
    scripts = [*(ROOT / "examples" / "world").glob("*.script"), *(ROOT / "tests" / "scripts").glob("*.script")]
    for script in sorted(scripts):
        out = script.with_suffix(".out").read_text()
        check(f"the script {script.stem}", ["world"], script.read_bytes(), out, 1 if "refused" in out else 0)
    full = "".join(f"put 1 1 {key} 9 41\n" for key in range(1024))
    check("a transaction has 1,024 writes", ["world"],
          f"world 7 1 1\nbegin 1\n{full}put 1 1 1024 9 41\nremove 1 1 1024\nput 1 1 5 9 41\ncommit 1 1\n".encode(),
          "begun 1 at 0\n" + "ok\n" * 1024 + "refused 33\nrefused 33\nrefused 32\ncommitted 1\n", 1)
    check("no script", ["world"], b"", "")
    check("empty lines alone", ["world"], b"\n\n", "")
    check("a world alone", ["world"], b"world 7 1 1", "")
    check("leading zeros, and no line feed at the end", ["world"], b"\nworld 007 01 001\n\nfront 0001",
          "front horizon 0 readable 0\n")
    long = "front " + "0" * (16384 - 7) + "1"
    check("a line of 16,384 bytes", ["world"], f"world 7 1 1\n{long}\n".encode(), "front horizon 0 readable 0\n")
    check("a line of 16,385 bytes", ["world"], f"world 7 1 1\n{long}0\n".encode(), "line 2: bad command\n", 1)
    check("a slot begins again", ["world"], b"world 7 1 1\nbegin 16\nput 16 1 5 9 -\nbegin 16\ncommit 16 1\n",
          "begun 16 at 0\nok\nbegun 16 at 0\ncommitted none\n")
    check("an empty body", ["world"], b"world 7 1 1\nbegin 1\nput 1 1 5 9 -\ncommit 1 1\nask 0 1 get 1 5\n",
          "begun 1 at 0\nok\ncommitted 1\n9 -\n")
    two = (b"world 7 2 1\nbegin 1\nput 1 1 5 9 41\ncommit 1 1\nbegin 1\nbegin 2\nput 1 1 5 9 42\nput 2 1 5 9 43\n"
           b"commit 2 2\ncommit 1 1\ncommit 1 1\n")
    check("a conflict leaves its slot", ["world"], two,
          "begun 1 at 0\nok\ncommitted 1\nbegun 1 at 1\nbegun 2 at 1\nok\nok\ncommitted 2\n"
          "refused 30 table 1 key 5 at 2\nrefused 30 table 1 key 5 at 2\n", 1)
    check("refused commands go on", ["world"],
          b"world 7 1 1\nbegin 1\nput 1 1 5 9 41\nput 1 1 5 9 41\nremove 1 1 5\ncommit 1 2\nabsorb 1 1\nabsorb 2 1\n"
          b"batch 1 1\nprune 1 1\nmerge 1 2\ndelta 2 1 0\nask 0 1 count 1\nask 2 0 count 1\nfront 2\nmark 2\ncommit 1 1\n",
          "begun 1 at 0\nok\nrefused 32\nrefused 32\nrefused 34\nrefused 45\nrefused 45\nrefused 45\n"
          "refused 24 readable 0\nrefused 45\nrefused 45\nrefused 26 readable 0\nrefused 45\nrefused 45\n"
          "refused 34\ncommitted 1\n", 1)
    check("a removed key that is absent", ["world"], b"world 7 1 1\nbegin 1\nremove 1 1 9\ncommit 1 1\n",
          "begun 1 at 0\nok\nrefused 31 table 1 key 9\n", 1)


# A script of two streams, what it prints, and the frames of its items.
EMITTING = b"""world 7 2 1
begin 1
put 1 1 5 9 41
commit 1 1
mark 1
begin 2
put 2 1 5 9 42
put 2 1 6 9 -
prune 1 9
commit 2 2
retire 2
"""


EMITTED = (new_entry(1, 1, [(1, 5, 9, b"A")]) + mark(1, 1, 1, version=2)
           + new_entry(1, 2, [(1, 5, 9, b"B"), (1, 6, 9, b"")], [(1, 5, 1)], stream=2) + mark(2, 1, 2 ** 62, version=2))


def kept_items(folder, script, name="items.bin"):
    """The status of a script with `--items`, what it printed and told, and what the file has."""
    file = pathlib.Path(folder) / name
    got = run(["world", "--items", str(file)], script)
    return got.returncode, got.stdout.decode(), got.stderr.decode(), file.read_bytes() if file.is_file() else None


def items_of_worlds():
    """The frames of a world's items in a file of their own: at the end of the script, none where it stopped before."""
    plain = run(["world"], EMITTING)
    printed = plain.stdout.decode()
    with tempfile.TemporaryDirectory() as folder:
        (pathlib.Path(folder) / "items.bin").write_bytes(b"what stood there")
        kept = kept_items(folder, EMITTING)
        many = b"world 7 1 1\n" + b"begin 1\nput 1 1 5 9 " + b"41" * 4000 + b"\ncommit 1 1\n"
        several = b"world 7 1 1\n" + b"".join(b"begin 1\nput 1 1 %d 9 %s\ncommit 1 1\n" % (n, b"42" * 4000) for n in range(1, 41))
        frames = b"".join(new_entry(n, n, [(1, n, 9, b"B" * 4000)]) for n in range(1, 41))
        cases = [("the file has the items' frames, and the lines are as without it", kept, (plain.returncode, printed, plain.stderr.decode(), EMITTED)),
                 ("a body of 4,000 bytes", kept_items(folder, many)[3], new_entry(1, 1, [(1, 5, 9, b"A" * 4000)])),
                 ("more than one write has", kept_items(folder, several)[3], frames),
                 ("no item", kept_items(folder, b"world 7 1 1\n")[3], b""), ("no script", kept_items(folder, b"")[3], b""),
                 ("a script that stops", kept_items(folder, EMITTING + b"bogus\n")[::3], (1, b"")),
                 ("a folder that isn't there", kept_items(folder, EMITTING, "no/items.bin")[0::3], (1, None)),
                 ("which is told", "stopped: can't make the file " in kept_items(folder, EMITTING, "no/items.bin")[2], True)]
    full = run(["world", "--items", "/dev/full"], EMITTING)
    told = "stopped: the file of items can't be written; see where it goes\n"
    cases += [("a full device", (full.returncode, full.stdout.decode(), full.stderr.decode().endswith(told)), (1, printed, True))]
    for name, got, wanted in cases:
        report(f"world --items: {name}", [] if got == wanted else [f"{got!r} where {wanted!r} was to be"[:600]])


BAD_OPENINGS = ["world", "world 7", "world 7 1", "world 7 0 1", "world 7 65 1", "world 7 1 0", "world 7 1 17", "world 7 1 1 1",
                " world 7 1 1", "world 7 1 1 ", "world  7 1 1", "World 7 1 1", "begin 1", "world -7 1 1", "world +7 1 1",
                "world 18446744073709551616 1 1", "world 7 1 1\r"]


BAD_LINES = ["begin", "begin 0", "begin 17", "begin 1 1", "put 1 1 5 9", "put 1 1 5 9 41 42", "put 1 1 5 9 4", "put 1 1 5 9 4G",
             "put 1 1 5 9 AB", "put 1 1 5 9 --", "put 1 65536 5 9 41", "put 1 1 18446744073709551616 9 41", "put 1 1 5 4294967296 41",
             "put 1 1 5 9 " + "41" * 4097, "put 2 1 5 9 41", "remove 1 1", "remove 2 1 5", "remove 1 1 5 9", "commit 1", "commit 1 0",
             "commit 1 65", "commit 2 1", "commit 1 1 1", "mark", "mark 0", "mark 65", "absorb 1", "absorb 1 x", "absorb 65536 1",
             "absorb 1 1 1", "batch 1", "batch 1 ", "batch 1" + " 1" * 65, "prune 1", "prune 1 4611686018427387905", "merge 1",
             "merge 1 1 1", "delta 1 1", "delta 1 1 4611686018427387905", "ask", "ask 1", "ask 1 0", "ask 1 0 all 1", "ask 1 0 get 1",
             "ask 1 0 get 1 5 6", "ask 1 0 range 1 5", "ask 1 0 tag 1", "ask 1 0 tag 1 4294967296", "ask 1 0 count", "ask 1 0 count 1 1",
             "ask 1 4611686018427387905 count 1", "front", "front 1 1", "front  1", " front 1", "front 1 ", "front 1\r", "FRONT 1",
             "world 7 1 1", "front \u0661", " ", "front 0x1", "a" * 16384, "a" * 16385]


def bad_scripts():
    for line in BAD_OPENINGS:
        check(f"no opening: {line[:40]!r}", ["world"], (line + "\nfront 1\n").encode(), "line 1: bad command\n", 1)
    opening = b"\nworld 7 1 1\nbegin 1\n\n"
    for line in BAD_LINES:
        check(f"no command: {line[:40]!r}", ["world"], opening + line.encode() + b"\nfront 1\n",
              "begun 1 at 0\nline 5: bad command\n", 1)
    check("bytes that are no text", ["world"], opening + b"\xff\n", "begun 1 at 0\nline 5: bad command\n", 1)
    check("an empty slot after its commit", ["world"], opening + b"commit 1 1\ncommit 1 1\n",
          "begun 1 at 0\ncommitted none\nline 6: bad command\n", 1)


def long_scripts():
    """10,000 lines: commits that each put a key anew, all items in one replica, in other orders in another, and a merge."""
    lines = ["world 7 2 2"]
    wanted = []
    for number in range(1, 2001):
        lines += ["begin 1", f"put 1 1 {number % 50} 9 {number % 256:02x}", f"commit 1 {number % 2 + 1}"]
        wanted += [f"begun 1 at {number - 1}", "ok", f"committed {number}"]
    lines += ["mark 1", "mark 2"]
    wanted += ["mark stream 1 n 1000 m 2000", "mark stream 2 n 1000 m 2000"]
    for item in range(2002, 2, -1):
        lines.append(f"absorb 1 {item}")
        wanted.append("taken")
    for item in range(1, 1998):
        lines.append(f"absorb 2 {item}")
        wanted.append("taken")
    lines += ["absorb 1 2", "absorb 1 1", "merge 2 1", "ask 2 2000 get 1 0", "ask 2 1999 get 1 49", "front 2"]
    wanted += ["taken", "taken", "ok", f"9 {2000 % 256:02x}", f"9 {1999 % 256:02x}", "front horizon 0 readable 2000"]
    check(f"a script of {len(lines)} lines", ["world"], ("\n".join(lines) + "\n").encode(), "\n".join(wanted) + "\n")


def long_chains():
    """A key of 100 versions, which come to a replica by merges, batches and deltas: its chain has 32 in a list and more in maps, and takes
    more each time. What is wanted is what the definition's plain program tells."""
    lines = ["world 7 1 4"]
    for number in range(1, 101):
        lines += ["begin 1", f"put 1 1 5 {number % 3} {number:02x}", "commit 1 1"]
    lines.append("mark 1")
    for replica, first, step in ((1, 1, 3), (2, 2, 3), (3, 3, 3)):
        lines += [f"absorb {replica} {item}" for item in range(first, 101, step)]
    lines.append("absorb 1 101")
    asks = [f"ask 1 {time} get 1 5" for time in (0, 1, 31, 32, 33, 34, 64, 99, 100)]
    # 34 versions of its own and the ends of those before them, then 33 more in their midst, and then the rest
    lines += ["front 1", "merge 1 2", "merge 1 2", "batch 4 " + " ".join(map(str, range(3, 101, 9))), "merge 1 4", "merge 1 3", "front 1", *asks]
    lines += ["ask 1 100 tag 1 0", "ask 1 50 tag 1 2", "ask 1 77 count 1"]
    # one that has none takes all of them at once, by a delta and by merges; and what is pruned comes back by no merge
    lines += ["delta 4 1 0", "front 4", "ask 4 70 get 1 5", "prune 4 60", "merge 4 1", "merge 2 4", "ask 2 60 get 1 5", "ask 2 59 get 1 5", "front 2"]
    world, wanted = reference.World(7, 1, 4), []
    for line in lines[1:]:
        try:
            wanted += world.told(line.split(" "))
        except reference.Refused as refused:
            wanted.append(str(refused))
    check("a chain of more than 32 versions takes more by joins", ["world"], ("\n".join(lines) + "\n").encode(), "".join(f"{it}\n" for it in wanted), 1)


CHECKS = (world_scripts, items_of_worlds, bad_scripts, long_scripts, long_chains)
