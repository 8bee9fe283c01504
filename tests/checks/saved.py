#!/usr/bin/env python3
"""Checks that nothing of a corrupt file of `hkrep save` is taken, that a good file isn't lost by one that can't be loaded, and what is said.

    saved.py                  all of it, with 500 flips of a bit
    saved.py flips 10000 7    so many flips, cuts, zeroed and doubled blocks alone, of this seed: by hand

A file's checksum is made and judged here from docs/FORMATS.md (tests/lib/saved_file.py), and never taken from the program. Prints a line for each
check and ends with 'N passed, M failed'. Standard library only."""
import pathlib
import random
import re
import subprocess
import sys
import tempfile
import time
import warnings

sys.path.append(str(pathlib.Path(__file__).resolve().parents[1] / "lib"))
import messages as say
import vadungsil
from checks import differ, ended, free_port, guarded, is_built, report
from damaged import damaged
from saved_file import HEAD, frames_of, summed, what_is_wrong
from shown import of
from staying import PROGRAM, OwnNode, said

FOLDER = pathlib.Path(tempfile.mkdtemp(prefix="saved"))
LINE = re.compile(r"\d{4}-\d\d-\d\dT\d\d:\d\d:\d\d\.\d{3}Z (\w+) - load (\S+): (.*)\n?")
ENTRIES, KEYS, LIMIT = 300, 50, 60
# how many flips go to the program, how many to the client, and how many to `--load`; beside them a fifth of cuts, of zeroed and of doubled blocks
FLIPS, STARTS = 500, 12
DAMAGED = "the file is corrupt: load another, as FILE.1 of 'hkrep save --out FILE', or save a node anew"
UNSUMMED = "so corrupt bytes may not show; 'hkrep save' writes one\n"
NO_FILE = ("stopped: a file of --load is there, and none is whole; see the lines above. Give another by --load, put it elsewhere, or begin without it by "
           "--load-or-empty: 'hkrep save' to its name takes its place then")


def run(*words, data=b""):
    done = subprocess.run([str(PROGRAM), *map(str, words)], input=data, capture_output=True, timeout=LIMIT, check=False)
    return done.returncode, done.stdout, "".join(said(done.stderr.decode().splitlines(keepends=True)))


def history():
    """A log in which rows end: what a node has of it has rows, ends and a range of readable times."""
    chance, live, frames = random.Random(1), {}, []
    for time_ in range(1, ENTRIES + 1):
        keys = sorted(chance.sample(range(KEYS), 3))
        ends = [(1, key, live[key]) for key in keys if key in live]
        frames.append(say.entry(time_, time_, [(1, key, 9, b"row%d-%d" % (time_, key)) for key in keys], ends))
        live.update({key: time_ for key in keys})
    return say.items(*frames, say.mark(1, ENTRIES, ENTRIES))


def facts_of(node):
    with node.link() as link:
        return link.ask(say.full())


def in_chunks(whole):
    """The same snapshot as chunks, of the kinds of FORMATS, with their checksum."""
    facts = [(it["facts"]) for it in (whole[1],)][0]
    chunks = [say.add(facts[at:at + 100]) for at in range(0, len(facts), 100)]
    head = {"horizon": whole[1]["horizon"], "streams": whole[1]["streams"], "count": len(facts)}
    return summed(*chunks, say.merge_parts(**head))


def saved():
    """What a node has, its file, and the same in chunks."""
    with OwnNode() as node, node.link() as link:
        link.ask(history())
        link.ask(say.prune(100))
        whole = facts_of(node)
        status, data, _ = run("save", "--port", node.port)
        plain = run("save", "--port", node.port, "--plain")[1]
    return whole, data if status == 0 else b"", plain


def a_file():
    """A file has the frame of its fragment, as FORMATS says it, and behind it that of the checksum; `--plain` leaves that out."""
    whole, data, plain = saved()
    parts = {key: whole[1][key] for key in ("base", "horizon", "streams", "facts")}
    wanted = say.merge_this(**parts)
    (FOLDER / "good").write_bytes(data)
    (FOLDER / "plain").write_bytes(plain)
    (FOLDER / "chunks").write_bytes(in_chunks(whole))
    report("a file has its fragment and its checksum", differ([
        ("the file", data == summed(wanted), True), ("by the judge", what_is_wrong(data), None), ("--plain", plain == wanted, True),
        ("the one of docs/FORMATS.md", [bytes.fromhex(it.text) for it in of("saved.py frame")], [summed(say.merge_this())[-40:]]),
        ("its frames", [len(it) for it in frames_of(data)], [len(wanted), 40]), ("its last frame", data[-40:-32] == HEAD, True)]))
    return whole


def is_other(good, data):
    """Whether a file may be refused: it is another, and not cut exactly before its checksum, which is a file of before that was whole."""
    return data not in (good, good[:-40])


def both_damaged(count, chance, tried):
    """The damaged forms of a file of one fragment and of one in chunks, each with its kind; how many of a kind there were is counted in `tried`."""
    for name in ("good", "chunks"):
        good = (FOLDER / name).read_bytes()
        for kind, data in damaged(good, count // 2, chance):
            if is_other(good, data):
                tried[kind] = tried.get(kind, 0) + 1
                yield name, kind, data


def flips(count, seed):
    """Each corrupt file is refused by `load`, with a word and a place, and nothing of it is joined: the node stays empty."""
    chance, pairs, silent, tried = random.Random(seed), [], [], {}
    with OwnNode("--links", "200") as node:
        nothing = facts_of(node)
        for name, kind, data in both_damaged(count, chance, tried):
            status, out, errors = run("load", "--port", node.port, data=data)
            if status != 1 or not out.splitlines()[-1:] or not out.splitlines()[-1].startswith(b"refused ") or "refused " not in errors:
                silent.append((name, kind, status, out, errors[:100]))
        pairs += [("silent", silent, []), ("what the node has", facts_of(node) == nothing, True)]
        pairs += [("then a good one", run("load", "--port", node.port, data=(FOLDER / "good").read_bytes())[0], 0)]
    report("corrupt files are refused by load", differ(pairs), f"{tried}, {len(silent)} silent")


def flips_in_the_client(count, seed):
    """The same of `Node.load`."""
    chance, silent, tried = random.Random(seed), [], {}
    with OwnNode("--links", "200") as node, vadungsil.Node(node.port) as client:
        nothing = facts_of(node)
        for name, kind, data in both_damaged(count, chance, tried):
            file = FOLDER / "bad"
            file.write_bytes(data)
            try:
                silent.append((name, kind, client.load(file)))
            except vadungsil.Refused as refused:
                if not refused.place:
                    silent.append((name, kind, str(refused)))
        kept = facts_of(node) == nothing
        told = [client.load(FOLDER / name).is_checked for name in ("good", "chunks")]
        with warnings.catch_warnings(record=True) as warned:
            warnings.simplefilter("always")
            told.append(client.load(FOLDER / "plain").is_checked)
        whole = facts_of(node)
    report("corrupt files are refused by the client", differ([
        ("silent", silent, []), ("what the node has", kept, True), ("good ones", told, [True, True, False]), ("it has it then", len(whole[1]["facts"]) > KEYS, True),
        ("a warning", [str(it.message) for it in warned], ["the file has no checksum behind its last fragment, so corrupt bytes may not show"])]), f"{tried}, {len(silent)} silent")


def starts(whole):
    """The same of `node --load`: it ends with 1 before a port is open; what is whole is loaded."""
    chance, silent = random.Random(3), []
    for name in ("good", "chunks"):
        good = (FOLDER / name).read_bytes()
        for kind, data in list(damaged(good, STARTS, chance)):
            if not is_other(good, data):
                continue
            file = FOLDER / "bad"
            file.write_bytes(data)
            status, out, errors = run("node", "--log", 7, "--streams", 1, "--port", free_port(), "--load", file)
            if (status, out) != (1, b"") or errors.splitlines()[-1] != NO_FILE:
                silent.append((name, kind, status, out, errors[-200:]))
    pairs = [("silent", silent, [])]
    for name in ("good", "chunks", "plain"):
        with OwnNode("--load", FOLDER / name, "--need-data") as node:
            pairs.append((f"{name}: what it has", facts_of(node) == whole, True))
    report("corrupt files are refused by node --load", differ(pairs))


# what is wrong with a file, what `load` prints of it, and what it says: the digests are hashlib's
def words():
    good = (FOLDER / "good").read_bytes()
    frame, at = good[:-40], len(good) - 40
    own = summed(frame)[-32:]
    said_ = bytes(32)
    cases = [
        ("another checksum", frame + HEAD + said_, b"refused 6\n", f"frame 2: refused 6: at byte {at} the checksum of the frames before it is {own.hex()}, where it says {said_.hex()}; {DAMAGED}\n"),
        ("half of one", good[:-1], b"refused 6\n", f"frame 2: refused 6: at byte {at} the input ends inside the frame of a checksum; {DAMAGED}\n"),
        ("another form", frame + HEAD[:7] + b"\2" + own, b"refused 6\n", f"frame 2: refused 6: at byte {at} it has a checksum of the form 2, not 1; {DAMAGED}\n"),
        ("another length", frame + bytes.fromhex("00000025027f0001") + own + b"\0", b"refused 6\n",
         f"frame 2: refused 6: at byte {at} the frame of a checksum has 37 bytes behind its length, not 36; {DAMAGED}\n"),
        ("one more", good + good[-40:], b"refused 6\n", f"frame 3: refused 6: at byte {len(good)} the checksum of the frames before it is {summed()[-32:].hex()}, where it says {own.hex()}; {DAMAGED}\n"),
        ("none", frame, b"done 2\n", f"the input has no checksum behind its last fragment, {UNSUMMED}"),
        ("none behind the second", good + frame, b"done 2\ndone 3\n", f"the input has no checksum behind its last fragment, {UNSUMMED}"),
        ("two fragments", good + good, b"done 2\ndone 3\n", ""),
        ("the second damaged", good + frame + HEAD + said_, b"done 2\nrefused 6\n",
         f"frame 4: refused 6: at byte {2 * len(frame) + 40} the checksum of the frames before it is {own.hex()}, where it says {said_.hex()}; {DAMAGED}\n"),
        ("a request behind it", good + say.front(), b"refused 4\n", None),
    ]
    pairs = []
    for name, data, out, errors in cases:
        with OwnNode() as node:
            got = run("load", "--port", node.port, data=data)
            pairs += [(name, got[1], out), (f"{name}: its status", got[0], int(b"refused" in out))]
            pairs += [(f"{name}: its words", got[2], errors)] if errors is not None else []
    # for a program of before: it joins what it reads, and then refuses the frame that it doesn't know
    with OwnNode() as node:
        pairs += [("push", run("push", "--messages", 2, "--port", node.port, data=good)[:2], (1, b"done 2\nrefused 4\n")), ("--plain", run("push", "--port", node.port, data=frame)[:2], (0, b"done 3\n"))]
    report("what is said of a checksum", differ(pairs))


def lines_of(errors):
    """What is said of each file of --load: how grave it is, its name, and the front or the number of what refuses it."""
    found = [LINE.match(line) for line in errors]
    return [(it[1], pathlib.Path(it[2]).name, (re.search(r"refused \d+|front.*|can't open it|no checksum", it[3]) or [it[3]])[0]) for it in found if it]


def files_of_load(whole):
    """The first file that is whole is taken, and of each other it is said why not; one that is there and none whole ends the node before a port is open."""
    good, bad, none = FOLDER / "good", FOLDER / "bad", FOLDER / "none"
    bad.write_bytes(good.read_bytes()[:-1])
    front = f"front horizon 100 readable {ENTRIES}"
    refused, absent, taken = ("error", "bad", "refused 6"), ("warn", "none", "can't open it"), ("info", "good", front)
    load = lambda *files: [word for file in files for word in ("--load", file)]
    cases = [
        ("the first", load(good, bad), [], [taken]), ("the second", load(bad, good), [], [refused, taken]), ("the third", load(none, bad, good), [], [absent, refused, taken]),
        ("a file without a checksum", load(FOLDER / "plain"), [], [("info", "plain", front), ("warn", "plain", "no checksum")]),
        ("none there", load(none), None, [absent]), ("or empty", [*load(bad), "--load-or-empty"], None, [refused]), ("one, or empty", [*load(bad, good), "--load-or-empty"], [], [refused, taken]),
    ]
    pairs = []
    for name, options, facts, lines in cases:
        with OwnNode(*options) as node:
            until = time.monotonic() + 10
            while len(lines_of(list(node.words))) < len(lines) and time.monotonic() < until:
                time.sleep(0.01)
            pairs += [(f"{name}: its lines", lines_of(list(node.words)), lines), (f"{name}: what it has", facts_of(node) == whole, facts is not None)]
    folder = FOLDER / "folder"
    folder.mkdir()
    for name, options, lines in (("refused", load(bad), [refused]), ("refused, and one that isn't there", load(bad, none), [refused, absent]),
                                 ("a folder", load(folder), [("error", "folder", "refused 91")]),
                                 ("with another node to ask", [*load(bad), "--from", free_port()], [refused])):
        status, out, errors = run("node", "--log", 7, "--streams", 1, "--port", free_port(), *options)
        pairs += [(f"{name}: its status", (status, out), (1, b"")), (f"{name}: its lines", lines_of(errors.splitlines()), lines), (f"{name}: the last", errors.splitlines()[-1], NO_FILE)]
    many = run("node", "--log", 7, "--streams", 1, *load(*[good] * 9))
    pairs += [("nine files", (many[0], "up to 8 files are wanted" in many[2]), (2, True))]
    alone = run("node", "--log", 7, "--streams", 1, "--load-or-empty")
    pairs += [("--load-or-empty alone", (alone[0], "--load" in alone[2]), (2, True))]
    report("files of --load", differ(pairs))


def what_stays():
    """A save keeps what the file had as FILE.1; a node that has nothing doesn't take the place of a file that has something."""
    file, before, good = FOLDER / "kept.save", FOLDER / "kept.save.1", (FOLDER / "good").read_bytes()
    nothing = summed(say.merge_this())
    stays = f"stopped: the node has nothing, and the file {file} has something: it stays; --force replaces it\n"
    at = lambda: (file.read_bytes(), before.read_bytes() if before.exists() else None, sorted(it.name for it in FOLDER.iterdir() if it.name.startswith("kept")))
    names = ["kept.save", "kept.save.1"]
    with OwnNode() as empty, OwnNode("--load", FOLDER / "good") as full:
        save = lambda node, *more: run("save", "--port", node.port, "--out", file, *more)
        pairs = [("of nothing, to a new file", (save(empty), *at()), ((0, b"", ""), nothing, None, names[:1])), ("again", (save(empty), *at()), ((0, b"", ""), nothing, None, names[:1])),
                 ("of something", (save(full), *at()), ((0, b"", ""), good, None, names[:1])), ("of nothing over it", (save(empty), *at()), ((3, b"", stays), good, None, names[:1])),
                 ("--plain", (save(empty, "--plain")[0], *at()), (3, good, None, names[:1])), ("of something again", (save(full, "--plain"), *at()), ((0, b"", ""), good[:-40], good, names)),
                 ("of nothing, by force", (save(empty, "--force"), *at()), ((0, b"", ""), nothing, good[:-40], names)), ("of nothing again", (save(empty), *at()), ((0, b"", ""), nothing, good[:-40], names))]
        file.write_bytes(b"no file of save")
        pairs += [("of nothing over another file", save(empty)[0], 3), ("and it stays", file.read_bytes(), b"no file of save"), ("--force alone", run("save", "--port", full.port, "--force")[0], 2)]
        file.write_bytes(b"")
        pairs += [("of nothing over an empty file", (save(empty), *at()), ((0, b"", ""), nothing, good[:-40], names))]
    report("what a save keeps", differ(pairs))


def a_time_that_cant_be_read():
    """26 to who asks a node says how far it is and how to wait; to who feeds frames it speaks of marks."""
    with OwnNode("--load", FOLDER / "good") as node:
        asked = run("ask", "--port", node.port, "count", 1, "--at", ENTRIES + 1)
    fed = run("at", "--log", 7, "--streams", 1, 2, 1, 5, data=say.E1 + say.mark(1, 1, 1))
    report("what is said of a time that can't be read yet", differ([
        ("a node", asked, (1, f"refused 26 readable {ENTRIES}\n".encode(), f"request 1: refused 26: time {ENTRIES + 1} is above the resolved time {ENTRIES}; the node can be read up to "
                           f"{ENTRIES}: ask there, or wait with --wait\n")),
        ("frames", fed, (1, b"refused 26 readable 1\n", "refused 26: time 2 is above the resolved time 1; feed the marks of all streams, or ask at 1\n"))]))


def main():
    if not is_built(PROGRAM):
        return ended()
    start = time.monotonic()
    whole = a_file()
    if sys.argv[1:2] == ["flips"]:
        count, seed = int(sys.argv[2]), int(sys.argv[3])
        guarded(flips, count, seed)
        guarded(flips_in_the_client, count, seed + 1)
        return ended()
    for check, *given in ((flips, FLIPS, 1), (flips_in_the_client, FLIPS, 2), (starts, whole), (words,), (files_of_load, whole), (what_stays,), (a_time_that_cant_be_read,)):
        guarded(check, *given)
    print(f"saved files: {time.monotonic() - start:.1f} s")
    return ended()


if __name__ == "__main__":
    sys.exit(main())
