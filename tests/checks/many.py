#!/usr/bin/env python3
"""Thousands of links at once to one `bin/hkrep node`: links that ask, wait, are cut off, trickle or never read, beside one that feeds. Each
reply is what tests/lib/reference.py makes of the same items.

    tests/checks/many.py [LINKS [SEED]]      LINKS: 5,000 where left out; 10,000 by hand

It raises its own limit of open files as far as it may, and says so where that is too few for so many. Prints a line for each check and ends with
'N passed, M failed'. Standard library only."""
import collections
import functools
import os
import pathlib
import random
import statistics
import sys
import time

sys.path.append(str(pathlib.Path(__file__).resolve().parents[1] / "lib"))
import fields
import messages as say
import reference
from checks import differ, ended, guarded, is_built, report, skip
from crowd import Crowd, Pause, Say, raised_files
from staying import LIMIT, PROGRAM, Staying

LINKS = 5_000
# files beside those of the links: of this script, and of the node
OTHER_FILES = 100
# what the links do by turns, on each of two ports: that for all, and that for those who only read
ROLES, PORTS = ("asks", "waits", "is_cut", "trickles", "never_reads"), 2
# entries that are there before the links open, and those that come beside them, so many in a list
BEFORE, BESIDE, LIST = 200, 300, 5
KEYS, LARGE_KEYS, LARGE = 40, 4, 1_000
# what a silent link may cost, in bytes of the node's memory, where the links are more than what else it may have begun to use
MOST_SILENT, FEW = 1_024, 1_000
# what the node may hold of a link that doesn't read: replies until they are more than 65,536 bytes and one reply, what was read of it, and as much for
# how its lists grow
MOST_UNREAD = 4 * 65_536
# how many bytes a link asks for that never reads
UNREAD = 160_000
# the longest wait, in milliseconds
LONG = 600_000
# how long a Get may take, in seconds, and how many times what it took alone
SOON, TIMES = 0.01, 3


class Story:
    """A log of one stream, written by the reference's primary, and what a node replies of it."""

    def __init__(self, count, seed):
        source, primary = random.Random(seed), reference.Primary(7, 1)
        for time_of in range(1, count + 1):
            place = (1, source.randrange(KEYS))
            is_removed = place in primary.tables_at(primary.last()) and source.random() < 0.3
            writes = {place: None if is_removed else (source.randrange(3), source.randbytes(source.randrange(40)))}
            if time_of <= LARGE_KEYS:
                writes[2, time_of] = (9, source.randbytes(LARGE))
            primary.commit(primary.last(), writes, 1)
        self.items, self.last = primary.items, count

    def frames(self, first, last):
        """The entries of these numbers, and the mark that closes up to the last."""
        return [*(reference.frame(it) for it in self.items[first - 1:last]), reference.frame(reference.Mark(7, 1, last, last))]

    @functools.lru_cache(None)
    def tables(self, at):
        return reference.shown(self.items, at)

    @functools.lru_cache(None)
    def answer(self, at, kind, *words):
        """The reply to Ask, byte by byte."""
        tables = self.tables(at)
        if kind == "get":
            return fields.spelled(fields.fields_of_one(tables.get(words)))
        if kind == "count":
            return fields.spelled(fields.fields_of_number(sum(1 for table, _ in tables if table == words[0])))
        rows = [(key, *row) for (table, key), row in sorted(tables.items()) if table == words[0] and words[1] <= key <= words[2]]
        return fields.spelled(fields.fields_of_rows(rows))


ASKED = {"get": say.get, "count": say.count, "scan": say.scan}


@functools.lru_cache(None)
def question(at, kind, *words):
    return say.ask(at, ASKED[kind](*words))


def words_of(source):
    """A question: a Get mostly, a Count, or a Range, whose links are moved to workers for long answers."""
    kind = source.choice(["get"] * 7 + ["count"] * 2 + ["scan"])
    return (kind, 1, *{"get": [source.randrange(KEYS)], "count": [], "scan": sorted((source.randrange(KEYS), source.randrange(KEYS)))}[kind])


def readable_of(frame):
    """How far a Front or a Ready says that the node can be read; nothing was pruned."""
    name, horizon, readable = say.read_reply(frame[4:])
    assert name in ("front", "ready") and horizon == 0, (name, horizon, readable)
    return readable


class Play:
    """What the links do, as steps of tests/lib/crowd.py; each draws at random by its number."""

    def __init__(self, story, seed):
        self.story, self.seed, self.fed, self.readable, self.unread = story, seed, BEFORE, {}, {}

    def first(self, number):
        """Asks how far the node can be read."""
        self.readable[number] = readable_of((yield Say(say.front(), 1))[0])
        assert self.readable[number] >= BEFORE, self.readable[number]

    def drawn(self, number):
        return random.Random(f"{self.seed} {number}"), self.readable[number]

    def batch(self, source, at, count):
        """So many questions up to a time, and their replies."""
        chosen = [(source.randint(1, at), *words_of(source)) for _ in range(count)]
        return b"".join(question(*it) for it in chosen), [self.story.answer(*it) for it in chosen]

    def asks(self, number):
        source, at = self.drawn(number)
        for _ in range(4):
            asked, wanted = self.batch(source, at, source.randint(1, 12))
            got = yield Say(asked + say.front(), len(wanted) + 1)
            assert got[:-1] == wanted, "other replies"
            now = readable_of(got[-1])
            assert now >= at, f"went back from {at} to {now}"
            at = now

    def waits(self, number):
        """For a time that will come, and for one that never comes, each with questions behind it."""
        source, at = self.drawn(number)
        for wanted_at, milliseconds in ((source.randint(at + 1, self.story.last), LONG), (self.story.last + 1, source.randint(1, 800))):
            start = time.monotonic()
            asked, wanted = self.batch(source, at, source.randint(0, 3))
            got = yield Say(say.wait(wanted_at, milliseconds) + asked, 1 + len(wanted))
            now, took = readable_of(got[0]), time.monotonic() - start
            assert got[1:] == wanted, "other replies behind a wait"
            assert at <= now <= self.story.last and (now >= wanted_at or took >= milliseconds / 1000), f"waited for {wanted_at}, {milliseconds} ms: {now}, {took:.3f} s"

    def is_cut(self, number):
        """Ends inside a frame, or with a length that no frame has."""
        source, at = self.drawn(number)
        asked, wanted = self.batch(source, at, source.randint(0, 3))
        half = say.TOO_LONG if source.random() < 0.2 else question(at, "get", 1, 5)[:source.randint(1, 24)]
        got = yield Say(asked + half, len(wanted) + 1, "cut")
        assert got == [*wanted, say.refused(2 if half == say.TOO_LONG else 1)], "other replies before a cut"

    def trickles(self, number):
        asked, wanted = self.batch(*self.drawn(number), 2)
        got = yield Say(asked, len(wanted), "slow")
        assert got == wanted, "other replies to a trickle"

    def never_reads(self, number):
        """Asks for more than the system takes, and reads nothing while the others play: Gets of large rows, or Ranges of them."""
        source, at = self.drawn(number)
        kinds = [("get", 2, key) for key in range(1, LARGE_KEYS + 1)] if source.random() < 0.5 else [("scan", 2, 1, LARGE_KEYS)]
        self.unread[number] = [(at, *kinds[of % len(kinds)]) for of in range(UNREAD // (LARGE * LARGE_KEYS // len(kinds)))]
        yield Say(b"".join(question(*it) for it in self.unread[number]), 0, "unread")

    def reads_at_last(self, number):
        asked = self.unread[number]
        got = yield Say(b"", len(asked))
        assert got == [self.story.answer(*it) for it in asked], "other replies to who reads at last"

    def feeds(self):
        """A list and its mark each hundredth of a second, all of them new."""
        while self.fed < self.story.last:
            last = min(self.fed + LIST, self.story.last)
            frames = self.story.frames(self.fed + 1, last)
            name, _, new = say.read_reply((yield Say(say.feed(*frames), 1))[0][4:])
            assert (name, new) == ("fed", len(frames)), (name, new)
            self.fed = last
            yield Pause(0.01)


def usual(link, story):
    """What a Get takes in the middle of many, in seconds."""
    took = []
    for key in [it % KEYS for it in range(400)]:
        start = time.perf_counter()
        link.send(question(BEFORE, "get", 1, key))
        got = link.read(len(story.answer(BEFORE, "get", 1, key)))
        took.append(time.perf_counter() - start)
        assert got == story.answer(BEFORE, "get", 1, key), got
    return statistics.median(took)


def resident(node):
    """How many bytes of it stand in memory, to the page."""
    return int(pathlib.Path(f"/proc/{node.child.pid}/statm").read_text().split()[1]) * os.sysconf("SC_PAGE_SIZE")


def files_of(node, wanted=None):
    """How many files it has open, once they are as many as is wanted, or are at last."""
    until = time.monotonic() + LIMIT
    while True:
        found = len(os.listdir(f"/proc/{node.child.pid}/fd"))
        if wanted in (None, found) or time.monotonic() > until:
            return found
        time.sleep(0.01)


class Crowded:
    """A node, so many links to it at once, and what goes wrong with them."""

    def __init__(self, node, links, seed):
        self.node, self.links, self.crowd, self.members = node, links, Crowd(), []
        self.story = Story(BEFORE + BESIDE, seed)
        self.play = Play(self.story, seed)

    def problems(self):
        """Those since the last time."""
        found, self.crowd.problems = self.crowd.problems, []
        return found

    def begin(self):
        """Gives the node its first items, and what a Get takes alone."""
        with self.node.link() as link:
            assert link.ask(say.items(*self.story.frames(1, BEFORE)))[0] == "done"
            took = usual(link, self.story)
        assert self.node.line() == "ended 0"
        return took

    def beside(self):
        """What a Get takes of a further link."""
        with self.node.link() as link:
            return usual(link, self.story)

    def all_play(self, steps, numbers):
        for number in numbers:
            self.crowd.play(self.members[number], steps(number))
        self.crowd.run()

    def open(self):
        """Opens all of them, each of which asks once; gives what one costs."""
        before = resident(self.node)
        for number in range(self.links):
            port = self.node.read_port if number % PORTS else self.node.port
            self.members.append(self.crowd.open(f"link {number}", port, is_small=role_of(number) == "never_reads"))
        self.all_play(self.play.first, range(self.links))
        return (resident(self.node) - before) / self.links

    def mix(self):
        """Each does what is its own, beside one that feeds; gives what the node holds for one that doesn't read."""
        before = resident(self.node)
        self.crowd.play(self.crowd.open("the feeder", self.node.feed_port), self.play.feeds())
        self.all_play(lambda number: getattr(self.play, role_of(number))(number), range(self.links))
        return (resident(self.node) - before) / len(self.play.unread)

    def read_at_last(self):
        self.all_play(self.play.reads_at_last, [number for number in self.play.unread if self.members[number].socket.fileno() >= 0])

    def ends(self, count):
        """The next so many ends that are told."""
        return collections.Counter(self.node.line() for _ in range(count))

    def end_some(self, members):
        for number, member in enumerate(members):
            (member.close if number % 2 else member.leave)()
        return self.ends(len(members))

    def end(self):
        """Some close and some break off; gives how all ended, each number with how often."""
        left = list(self.crowd.members.values())
        return self.ends(self.links + 2 - len(left)) + self.end_some(left)


def role_of(number):
    """What a link does, by turns on each port."""
    return ROLES[number // PORTS % len(ROLES)]


def times(name, took, alone):
    """A problem where a Get took too long."""
    return [] if took < max(SOON, TIMES * alone) else [f"a Get {name}: {took * 1e3:.2f} ms, alone {alone * 1e3:.2f} ms"]


def crowds(links, seed):
    """So many links at once, which all do something else beside one another."""
    first = -(-links // PORTS)
    with Staying(first + 1, reading=first, feeding=1) as node:
        it = Crowded(node, links, seed)
        alone, files = it.begin(), files_of(node)
        each = it.open()
        silent = it.beside()
        report(f"{links} links at once", it.problems() + times("beside silent links", silent, alone), f"{each:.0f} bytes each, a Get beside them {silent * 1e6:.0f} us, alone {alone * 1e6:.0f} us")
        if links >= FEW:
            report("a silent link costs little", [] if each <= MOST_SILENT else [f"{each:.0f} bytes"])
        held = it.mix()
        report("links that ask, wait, are cut off, trickle and never read, beside one that feeds", it.problems() + differ([("fed", it.play.fed, it.story.last)]))
        report("a link that never reads costs little", [] if held <= MOST_UNREAD else [f"{held:.0f} bytes"], f"{held:.0f} bytes")
        it.read_at_last()
        report("what was not read is all there", it.problems())
        ends, cut = it.end(), sum(role_of(number) == "is_cut" for number in range(links))
        broken = sum(ends[f"ended {number}"] for number in (1, 2))
        told = {"ended 0", "ended 1", "ended 2", "ended 91"}
        report("all ends are told", differ([("cut off", broken, cut), ("how they ended", set(ends) <= told, True)]), str(dict(ends)))
        after = it.beside()
        report("the node lives on", times("after them", after, alone) + differ([("files", files_of(node, files), files)]))


def main():
    links, seed = [int(word) for word in sys.argv[1:3]] + [LINKS, 1][len(sys.argv) - 1:]
    if is_built(PROGRAM):
        files = raised_files(links + OTHER_FILES)
        if files < links + OTHER_FILES:
            skip(f"{links} links take {links + OTHER_FILES} open files, and {files} are allowed (ulimit -n): fewer links are tried", needed=False)
        start = time.monotonic()
        guarded(crowds, min(links, files - OTHER_FILES), seed)
        print(f"many links: {time.monotonic() - start:.1f} s")
    return ended()


if __name__ == "__main__":
    sys.exit(main())
