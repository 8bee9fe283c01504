#!/usr/bin/env python3
"""The past is final: whatever a guarded node is sent, over each of its three ports, what it has answered at a time it answers there ever
after, or that time is refused 25. Messages that mean ill go to guarded nodes and to others; beside them a reader asks again, after each message,
all that it asked before, and another one asks while they are under way. A node that is not guarded has to be brought to answer otherwise, or
the messages would show nothing.

    tests/checks/final.py [SECONDS [SEED]]

For each second a thousand messages go to guarded nodes and half as many to others, so what is printed hangs on the seed alone. Prints a line
for each check and ends with 'N passed, M failed'. Standard library only."""
import collections
import concurrent.futures
import os
import pathlib
import random
import sys
import threading
import time as clock

sys.path.append(str(pathlib.Path(__file__).resolve().parents[1] / "lib"))
import hostile
import messages as say
from checks import ended, guarded, is_built, report
from staying import LIMIT, PROGRAM, Staying

GUARDED, OTHERS = 1_000, 500      # messages for each second
STORY = 250      # messages to one node, at most
MOST_KNOWN = 120      # questions that a reader asks again
PORTS = ("first", "feed", "read")
# the version and kind of a refusal
REFUSED = (b"\1\x24", b"\2\x48")
DAMAGED = ("the node", "whole", "damaged (41)")


# ---------------------------------------------------------------- what is asked again

def asked(link, questions):
    """The rests of the replies to questions that are sent at once."""
    link.send(b"".join(questions))
    kept, found = b"", []
    while len(found) < len(questions):
        piece = link.socket.recv(262_144)
        if not piece:
            raise EOFError("the link ended")
        kept += piece
        while len(kept) >= 4 and len(kept) >= 4 + int.from_bytes(kept[:4], "big"):
            size = 4 + int.from_bytes(kept[:4], "big")
            found.append(kept[4:size])
            kept = kept[size:]
    return found


def refusal(rest):
    """The number of a refusal and its first field, else (0, 0)."""
    return (rest[2], int.from_bytes(rest[3:11], "big")) if rest[:2] in REFUSED else (0, 0)


def may_follow(time, before, after):
    """Whether an answer at a time may come behind one before it: the same, or that the time is below the horizon, from then on for good. What
    has no memory (90), or waits (42), says nothing."""
    number, field = refusal(after)
    if after == before or number in (90, 42):
        return True
    was, least = refusal(before)
    return number == 25 and field > time and (was != 25 or field >= least)


class Reader:
    """What was asked of a node, and what it answered."""

    def __init__(self, source):
        self.source, self.known = source, {}      # the frame of a question: its time, its words, and the answer
        self.front, self.gone = (0, 0), 0      # how many answers became a time below the horizon

    def differing(self, link):
        """What is answered otherwise than before, of all that was asked."""
        now = link.ask(say.front())
        if now[0] != "front":
            return [] if now[1] in (90, 42) else [DAMAGED if now[1] == 41 else ("the front", self.front, now)]
        before, self.front = self.front, now[1:]
        wrong = [("the front", before, now[1:])] if now[1] < before[0] or now[2] < before[1] else []
        found = asked(link, list(self.known))
        for (question, (time, words, answer)), after in zip(list(self.known.items()), found):
            if not may_follow(time, answer, after):
                wrong.append((words, in_words(answer), in_words(after)))
            if refusal(after)[0] not in (90, 42):
                self.gone += (refusal(answer)[0], refusal(after)[0]) == (0, 25)
                self.known[question] = time, words, after
        return wrong

    def learn(self, link):
        """Asks a few things at times that can be read, one of them at the readable mark."""
        horizon, readable = self.front
        times = [readable, horizon, self.source.randint(horizon, min(readable, horizon + 60))]
        chosen = [hostile.question(self.source, time) for time in times if horizon <= time <= readable]
        new = {question: (time, words) for question, time, words in chosen if question not in self.known}
        for (question, (time, words)), answer in zip(new.items(), asked(link, list(new))):
            # another link's change may have raised the horizon since
            if refusal(answer)[0] not in (90, 42):
                self.known[question] = time, words, answer
        while len(self.known) > MOST_KNOWN:
            del self.known[self.source.choice(list(self.known))]
        return self.latest(link)

    def latest(self, link):
        """The latest answer is that at the time which it tells."""
        table = self.source.randint(1, 2)
        rest, = asked(link, [say.latest(say.scan(table, 0, 9))])
        if rest[:2] != b"\2\x42":
            return [] if refusal(rest)[0] in (90, 42) else [("the latest answer", "an answer", in_words(rest))]
        time = int.from_bytes(rest[2:10], "big")
        question = say.ask(time, say.scan(table, 0, 9))
        words, answer = f"Range of table {table} at {time}", b"\1\x23" + rest[10:]
        before = self.known.setdefault(question, (time, words, answer))[2]
        return [] if before == answer else [(words, in_words(before), in_words(rest))]


def in_words(rest):
    """A reply in words."""
    return " ".join(map(str, say.read_reply(rest)))[:120]


# ---------------------------------------------------------------- a node and what it is sent

class Told:
    """What came of messages: how many they were, what of each kind was refused, and changed an answer; how many answers became times below the
    horizon, the first message that changed one, and what is wrong."""

    def __init__(self):
        self.sent, self.gone, self.refusals, self.bites = 0, 0, collections.Counter(), collections.Counter()
        self.first_bite, self.problems = None, []

    def add(self, other):
        self.sent, self.gone = self.sent + other.sent, self.gone + other.gone
        self.refusals, self.bites = self.refusals + other.refusals, self.bites + other.bites
        self.first_bite, self.problems = self.first_bite or other.first_bite, self.problems + other.problems


class Story:
    """A node of three ports, a link to each, and what came of what was sent over them."""

    def __init__(self, node, source):
        self.node, self.source, self.links, self.holds, self.told = node, source, {}, 0, Told()

    def link(self, port):
        if port not in self.links:
            number = {"first": self.node.port, "feed": self.node.feed_port, "read": self.node.read_port}[port]
            self.links[port] = self.node.link(number)
        return self.links[port]

    def unlink(self, port):
        """A link is gone, and its holds with it, which is waited for: or what a prune does would hang on the schedule."""
        self.links.pop(port).close()
        until = clock.monotonic() + LIMIT
        while port == "first" and self.holds and clock.monotonic() < until:
            self.holds = self.link("read").ask(say.status())[1].least_hold is not None

    def send(self, message):
        """Sends one message of some frames; gives what was replied, and opens a new link for the next one where this one ended."""
        link, replies = self.link(message.port), []
        for frame in message.frames:
            link.send(frame)
            rest = link.rest()
            self.told.sent += 1
            replies.append(say.read_reply(rest))
            self.holds += rest[:2] == b"\2\x47"
            number, _ = refusal(rest)
            self.told.refusals[message.name, number] += number > 0
            # a fault of form, which is told in version 1, ends the link
            if 1 <= number <= 10 and rest[0] == 1:
                self.unlink(message.port)
                break
        return replies


def started(words):
    """A node; where another program took one of its ports meanwhile, with others."""
    for _ in range(9):
        try:
            return Staying(3, *words, streams=hostile.STREAMS, reading=4, feeding=2)
        except RuntimeError:
            pass
    raise RuntimeError("no node can be started")


def one_story(is_guarded, seed, most):
    """Messages to one node, until nothing of it can be read any more, or it is damaged."""
    source = random.Random(f"final {seed}")
    words = ["-q", *([] if is_guarded else ["--no-guard"])]
    with started(words) as node:
        story, reader = Story(node, source), Reader(source)
        told = story.told
        beside = Beside(node, f"{seed} beside") if is_guarded else None
        try:
            while told.sent < most and not told.problems:
                whole = hostile.whole_of(story.link("first"))
                if whole is None or whole["horizon"] > 2 ** 60:
                    break
                message = hostile.message(source, whole, not is_guarded)
                replies = story.send(message)
                judge(story, reader, message, replies, is_guarded, seed)
        except (OSError, EOFError, ValueError, TypeError) as error:
            told.problems.append(f"seed {seed}, message {told.sent}: {type(error).__name__}: {error}")
        told.gone = reader.gone
        if beside:
            told.problems += beside.ended()
    return told


def judge(story, reader, message, replies, is_guarded, seed):
    """Asks again over one of the links: a guarded node answers as before, of another what changed its answers is counted."""
    link = story.link(story.source.choice(PORTS))
    wrong = reader.differing(link)
    if not wrong and reader.front[0] <= 2 ** 60:
        wrong = reader.learn(link)
    if not wrong:
        return
    what, before, after = wrong[0]
    text = f"seed {seed}, message {story.told.sent}, {message.words}, replied {replies[-1][:3]}: {what}: {before}, and then {after}"
    if is_guarded:
        story.told.problems.append(text)
    elif wrong[0] is not DAMAGED:
        story.told.bites[message.name] += 1
        story.told.first_bite = story.told.first_bite or text


class Beside:
    """A reader that asks over a link of its own while messages are under way."""

    def __init__(self, node, seed):
        self.link, self.reader, self.problems = node.link(node.read_port), Reader(random.Random(seed)), []
        self.stop, self.seed = threading.Event(), seed
        self.thread = threading.Thread(target=self.run, daemon=True)
        self.thread.start()

    def run(self):
        try:
            while not self.stop.wait(0.002) and not self.problems:
                wrong = self.reader.differing(self.link) or self.reader.learn(self.link)
                self.problems += [f"seed {self.seed}: {what}: {before}, and then {after}" for what, before, after in wrong[:1]]
        except (OSError, EOFError, ValueError, TypeError) as error:
            self.problems.append(f"seed {self.seed}: {type(error).__name__}: {error}")

    def ended(self):
        self.stop.set()
        self.thread.join(30)
        return self.problems


# ---------------------------------------------------------------- many

def part(is_guarded, seed, count):
    """So many messages to nodes, one after the other."""
    told, number = Told(), 0
    while told.sent < count and not told.problems:
        told.add(one_story(is_guarded, f"{seed}.{number}", min(STORY, count - told.sent)))
        number += 1
    return told


def played(is_guarded, count, seed):
    """The same in eight parts, side by side: how it is cut hangs on no machine."""
    kind, told = "guarded" if is_guarded else "other", Told()
    with concurrent.futures.ProcessPoolExecutor(max_workers=os.cpu_count()) as pool:
        for it in pool.map(part, [is_guarded] * 8, [f"{seed} {kind} {at}" for at in range(8)], [-(-count // 8)] * 8):
            told.add(it)
    return told


def on_guarded(seconds, seed):
    """No answer differs; and each kind of change was refused 23 now and then, so that each was tried."""
    told = played(True, seconds * GUARDED, seed)
    if not told.problems:
        told.problems += [f"no message of this kind was refused 23: {name}" for name in hostile.CHANGES if not told.refusals[name, 23]]
        told.problems += [f"{name} was refused 41" for name, number in told.refusals if number == 41]
    refused = ", ".join(f"{name} {told.refusals[name, 23]}" for name in hostile.CHANGES)
    report(f"what a guarded node answered it answers ever after ({told.sent} messages of seed {seed}; refused 23: {refused}; answers that are 25 now: {told.gone})", told.problems)


def on_others(seconds, seed):
    """Messages of each kind change what was answered."""
    told = played(False, seconds * OTHERS, seed)
    if not told.problems:
        told.problems += [f"no message of this kind changed an answer: {name}" for name in hostile.CHANGES if not told.bites[name]]
    changed = ", ".join(f"{name} {told.bites[name]}" for name in hostile.CHANGES)
    report(f"and another node doesn't ({told.sent} messages of seed {seed}; that changed an answer: {changed})", told.problems)
    if told.first_bite:
        print(f"  the first: {told.first_bite}"[:400], flush=True)


def main(words):
    if len(words) > 2 or any(not (it.isascii() and it.isdigit()) for it in words[:1]):
        print("usage: tests/checks/final.py [SECONDS [SEED]]", file=sys.stderr)
        return 2
    seconds, seed = int((words + ["10"])[0]), (words[1:] + ["1"])[0]
    if is_built(PROGRAM):
        for check in (on_guarded, on_others):
            guarded(check, seconds, seed)
    return ended()


if __name__ == "__main__":
    sys.exit(main(sys.argv[1:]))
