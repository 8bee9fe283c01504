"""Logs, nodes that follow others, and peers that mean ill, for the checks of `hkrep node --follow`. Standard library only."""
import contextlib
import os
import random
import re
import signal
import socket
import subprocess
import threading
import time

import messages as say
import vadungsil
from checks import free_port
from staying import LIMIT, Running, said

STREAMS, TABLE, TAG = 4, 1, 9
# a line on a node that is followed, behind its time: how grave it is, which node, and the words
FOLLOWED = re.compile(r"\S+Z (info|warn|error) - follow (\S+): (.*)\n")
# what the times of a log are, by the numbers of its changes: microseconds since 1970, small numbers, and those of a capture, which have gaps
TIMES = {"a clock": lambda at: 1_764_000_000_000_000 + 1_237 * at + at % 5 if at else 0, "small numbers": lambda at: at,
         "a capture": lambda at: 10 * at + at % 7}
# for how many milliseconds a node is asked to let a wait stand
TURN = 500


class Story:
    """A log of four streams: change `at` is in stream `(at - 1) % 4 + 1`, puts key `at % keys`, and ends what stood there. Two of them are one
    up to the change `fork`; behind it each has the rows of its name."""

    def __init__(self, keys=50, name="", fork=0, times=TIMES["small numbers"], log=7):
        self.keys, self.name, self.fork, self.time, self.log = keys, name, fork, times, log

    def row(self, at):
        return TAG, f"change {at}{self.name if at > self.fork else ''}".encode()

    @staticmethod
    def stream(at):
        return (at - 1) % STREAMS + 1

    @staticmethod
    def count(stream, last):
        """How many entries a stream has of the changes up to `last`."""
        return (last - stream) // STREAMS + 1 if last >= stream else 0

    def entry(self, at):
        ends = [(TABLE, at % self.keys, self.time(at - self.keys))] if at > self.keys else []
        return say.new_entry(self.count(self.stream(at), at), self.time(at), [(TABLE, at % self.keys, *self.row(at))], ends, stream=self.stream(at), log=self.log)

    def entries(self, first, last):
        return [self.entry(at) for at in range(first, last + 1)]

    def marks(self, last, streams=range(1, STREAMS + 1)):
        return [say.mark(it, self.count(it, last), self.time(last), log=self.log) for it in streams]

    def feed(self, link, first, last):
        """Sends the changes first to last, and what closes them."""
        reply = link.ask(say.feed(*self.entries(first, last), *self.marks(last)))
        assert reply[0] == "fed", reply

    def standing(self, last):
        """The latest change of each key."""
        return sorted(range(max(1, last - self.keys + 1), last + 1), key=lambda at: at % self.keys)

    def rows(self, last):
        return "rows", [(at % self.keys, *self.row(at)) for at in self.standing(last)]

    def fact(self, at, last):
        died = self.time(at + self.keys) if at + self.keys <= last else None
        return TABLE, at % self.keys, self.time(at), self.row(at), died

    def whole(self, last, horizon=0):
        """What a node that has the changes up to `last`, pruned to the time of the change `horizon`, has in all."""
        from_ = self.time(horizon) if horizon else 0
        facts = [self.fact(at, last) for at in range(1, last + 1)]
        streams = [(self.count(it, last), self.time(last), [], []) for it in range(1, STREAMS + 1)]
        kept = sorted((it for it in facts if it[4] is None or it[4] > from_), key=lambda it: it[:3])
        return "fragment", {"log": self.log, "base": 0, "horizon": from_, "streams": streams, "facts": kept}


class Node(Running):
    """A node of four streams that follows others, once it listens: ports, or words for `--follow`."""

    def __init__(self, *options, follows=(), port=0, log=7, streams=STREAMS, links=16, workers=1, address="127.0.0.1", before=()):
        self.port, self.followed = port or free_port(), []
        words = ["node", "--log", str(log), "--streams", str(streams), "--port", str(self.port), "--links", str(links), "--workers", str(workers)]
        words += ["--follow", ",".join(map(str, follows))] if follows else []
        words += ["--address", address] if address != "127.0.0.1" else []
        super().__init__([*words, *map(str, options)], address, before)
        self.opened = self.line()
        if not (self.opened or "").startswith(f"listening on {address}:{self.port} "):
            self._failed(self.opened)

    def _hear(self):
        for line in said(self.child.stderr):
            self.words.append(line)
            if found := FOLLOWED.fullmatch(line):
                self.followed.append(found.groups())

    def ask(self, it):
        with self.link() as link:
            return link.ask(it)

    def front(self):
        return self.ask(say.front())[1:]

    def reaches(self, time_, limit=LIMIT):
        """Whether a time is readable within so many seconds."""
        until = time.monotonic() + limit
        with self.link() as link:
            while time.monotonic() < until:
                if link.ask(say.wait(time_, TURN))[2] >= time_:
                    return True
        return False

    def whole(self):
        return self.ask(say.full())

    def rows(self, time_):
        return self.ask(say.ask(time_, say.scan(TABLE, 0, 1 << 40)))

    def streams(self):
        return self.ask(say.status())[1]

    def prune(self, time_):
        return self.ask(say.prune(time_))[0]

    def told(self, place, level, start, limit=LIMIT):
        """Whether a line of this grade on the node of a place comes that begins with these words."""
        return heard(lambda: any(it[0] == level and it[1] == name_of(place) and it[2].startswith(start) for it in list(self.followed)), limit)

    def standings(self, place):
        """The lines on the node of a place, each cut behind its first words, which say how it stands with it."""
        return [f"{level} {re.match('up|away|kept out|another log: refused [0-9]+|refused [0-9]+|.*', words)[0]}"
                for level, source, words in list(self.followed) if source == name_of(place)]

    def has_ended(self):
        self.child.kill()
        self.child.wait()


class SocketLink(say.Link):
    """A link over a Unix domain socket, which a namespace of the network doesn't hide."""

    def __init__(self, path):  # pylint: disable=super-init-not-called
        self.socket = socket.socket(socket.AF_UNIX)
        self.socket.settimeout(LIMIT)
        self.socket.connect(str(path))


def name_of(place):
    """What lines call a place."""
    return f"127.0.0.1:{place}" if str(place).isdigit() else str(place)


def heard(test, limit=LIMIT):
    """Whether something comes true within so many seconds."""
    until = time.monotonic() + limit
    while not (found := test()) and time.monotonic() < until:
        time.sleep(0.02)
    return found


class Peer:
    """What a node that is followed sees of one that follows it: its requests."""

    def __init__(self, it, fake):
        self.link, self.fake = it, fake

    def request(self):
        """The next request, as the package has it."""
        length = self.link.recv(4, socket.MSG_WAITALL)
        if len(length) < 4:
            raise EOFError("the link ended")
        request = vadungsil.later.decode_request(length + self.link.recv(int.from_bytes(length, "big"), socket.MSG_WAITALL))
        self.fake.requests.append(type(request).__name__)
        return request

    def send(self, data, pause=0):
        """Sends at once, or a byte each so many seconds."""
        if not pause:
            self.link.sendall(data)
            return
        for byte in data:
            self.link.sendall(bytes([byte]))
            time.sleep(pause)

    def reply(self, it):
        self.send(vadungsil.later.encode_reply(it))


class Fake:
    """Listens in place of a node, and does over each connection what a function of its peer says; without one it never answers."""

    def __init__(self, serve=None):
        self.serve, self.door, self.links, self.requests = serve, socket.create_server(("127.0.0.1", 0)), [], []
        self.port = self.door.getsockname()[1]
        threading.Thread(target=self._accept, daemon=True).start()

    def _accept(self):
        with contextlib.suppress(OSError):
            while True:
                link, _ = self.door.accept()
                self.links.append(link)
                if self.serve:
                    threading.Thread(target=self._meet, args=(link,), daemon=True).start()

    def _meet(self, link):
        with contextlib.suppress(OSError, EOFError, vadungsil.Fault), link:
            self.serve(Peer(link, self))

    def __enter__(self):
        return self

    def __exit__(self, *_):
        with contextlib.suppress(OSError):
            self.door.shutdown(socket.SHUT_RDWR)
        self.door.close()
        for link in self.links:
            link.close()


def since(facts, base):
    """What of these a node tells that is asked for what it has above a time."""
    for table, key, born, row, died in facts:
        if born > base or died is not None and died > base:
            yield table, key, born, row if born > base else None, died if died is not None and died > base else None


class Pretended:
    """Answers as a node that has a log up to the change `last`, but where a lie, which is given the peer and a request, says that it answered."""

    def __init__(self, story, last, lie=None):
        self.story, self.last, self.lie = story, last, lie

    def fragment(self, base=0):
        whole = self.story.whole(self.last)[1]
        return say.made_fragment(**{**whole, "base": base, "facts": list(since(whole["facts"], base)) if base else whole["facts"]})

    def answer(self, request):
        later, readable = vadungsil.later, self.story.time(self.last)
        if isinstance(request, later.Await):
            if request.time > readable:
                time.sleep(request.milliseconds / 1000)
            return later.Ready(0, readable)
        if isinstance(request, later.AskStreams):
            told = tuple(later.StreamTold(self.story.count(it, self.last), readable, 0, 0) for it in range(1, STREAMS + 1))
            return later.Streams(self.story.log, 0, readable, False, 1, None, told)
        if isinstance(request, vadungsil.Delta):
            return self.fragment(request.base)
        return self.fragment() if isinstance(request, vadungsil.Full) else vadungsil.Front(0, readable)

    def __call__(self, peer):
        while True:
            request = peer.request()
            if not (self.lie and self.lie(peer, request)):
                peer.reply(self.answer(request))


# ---------------------------------------------------------------- lies, each of which says whether it answered

def hangs(_, request):
    """A wait is never answered."""
    return isinstance(request, vadungsil.later.Await)


def answers_in_version_1(peer, request):
    """A wait is answered by what a question for the front is."""
    if isinstance(request, vadungsil.later.Await):
        peer.reply(vadungsil.Front(0, request.time))
    return isinstance(request, vadungsil.later.Await)


def never_brings(peer, request):
    """A wait is answered at once by a front that no delta then brings."""
    if isinstance(request, vadungsil.later.Await):
        peer.reply(vadungsil.later.Ready(0, request.time))
    return isinstance(request, vadungsil.later.Await)


def is_for_all(request):
    return isinstance(request, (vadungsil.Delta, vadungsil.Full))


def closes_in_a_chunk(peer, request):
    """There is room for chunks alone, and within the first the connection ends."""
    if is_for_all(request):
        peer.send(say.refused(90))
    if isinstance(request, vadungsil.later.Whole):
        whole = vadungsil.later.encode_reply(vadungsil.later.Part(made_fact(200), 1))
        peer.send(whole[:len(whole) - 100])
        raise EOFError("it closes")
    return is_for_all(request)


def made_fact(length):
    return say.made_fragment(facts=[(TABLE, 1, 1, (TAG, bytes(length)), None)]).facts


def never_ends(peer, request):
    """A frame is longer than any may be."""
    if is_for_all(request):
        peer.send(say.TOO_LONG)
    return is_for_all(request)


def means_nothing(peer, request):
    """A fragment has bytes that mean nothing."""
    if is_for_all(request):
        peer.send(say.framed(b"\1\x22" + bytes(range(256))))
    return is_for_all(request)


def trickles(peer, request):
    """A wait is answered a byte a second."""
    if isinstance(request, vadungsil.later.Await):
        peer.send(vadungsil.later.encode_reply(vadungsil.later.Ready(0, request.time)), 1)
    return isinstance(request, vadungsil.later.Await)


def in_chunks(story, last):
    """There is room for chunks alone: a lie that is none."""
    def answer(peer, request):
        whole = Pretended(story, last).fragment()
        if is_for_all(request):
            peer.send(say.refused(90))
        if isinstance(request, vadungsil.later.Whole):
            peer.reply(vadungsil.later.Part(whole.facts[:60], len(whole.facts) - 60))
        if isinstance(request, vadungsil.later.More):
            peer.reply(vadungsil.later.LastPart(whole.facts[60:], vadungsil.later.Head.of(whole)))
        return is_for_all(request) or isinstance(request, (vadungsil.later.Whole, vadungsil.later.More))
    return answer


def says_more(story, last):
    """Its streams are closed up to a change whose row, and those before it from half on, it doesn't have."""
    def answer(peer, request):
        whole = Pretended(story, last).fragment(request.base) if is_for_all(request) else None
        if whole:
            peer.reply(vadungsil.Fragment(whole.log, whole.base, whole.horizon, whole.streams, tuple(it for it in whole.facts if it.version.born <= story.time(last // 2))))
        return bool(whole)
    return answer


# ---------------------------------------------------------------- a tree, any of whose nodes is killed or stopped

class Tree:
    """A node that follows three, which follow it and each other, and nine that follow these: a log is fed to the first, with any of them killed,
    so that it comes back with nothing, or stopped for a while. A tick makes so many changes, and all goes by ticks, not by a clock."""

    TICK, EACH = 0.01, 2

    def __init__(self, stack, seed):
        self.stack, self.source, self.story = stack, random.Random(seed), Story(keys=300)
        self.root, *others = self.ports = [free_port() for _ in range(13)]
        middle, leaves = others[:3], others[3:]
        self.ups = {self.root: middle} | {it: [self.root, *(of for of in middle if of != it)] for it in middle}
        self.ups |= {it: [middle[at // 3], *(of for of in middle if of != middle[at // 3]), self.root] for at, it in enumerate(leaves)}
        self.nodes, self.down, self.stopped = {}, {}, {}
        self.made, self.sent, self.link, self.next = 0, 0, None, 50
        self.kills = self.stops = 0
        for port in self.ports:
            self.begin(port)

    def begin(self, port):
        self.nodes[port] = self.stack.enter_context(Node(port=port, follows=self.ups[port]))

    def back(self, now):
        """Those are there again whose time it is."""
        for port in [it for it, when in self.down.items() if when <= now]:
            del self.down[port]
            self.begin(port)
        for port in [it for it, when in self.stopped.items() if when <= now]:
            del self.stopped[port]
            self.nodes[port].child.send_signal(signal.SIGCONT)

    def lose(self):
        """Kills one for up to two seconds of ticks, or stops it for up to three, unless four are lost."""
        port, is_killed, ticks = self.source.choice(self.ports), self.source.random() < 0.6, self.source.random()
        if port in self.down or port in self.stopped or len(self.down) + len(self.stopped) >= 4:
            return
        if is_killed:
            self.nodes[port].has_ended()
            self.down[port] = self.made + int(ticks * 400)
            self.kills += 1
        else:
            self.nodes[port].child.send_signal(signal.SIGSTOP)
            self.stopped[port] = self.made + int(ticks * 600)
            self.stops += 1
        self.link = None if port == self.root else self.link

    def feed(self):
        """Sends what the first of them lacks, as far as it is there."""
        if self.root in self.down or self.root in self.stopped:
            return
        if self.link is None:
            self.link = self.nodes[self.root].link()
            self.sent = STREAMS * min(it.prefix for it in self.link.ask(say.status())[1].streams)
        if self.sent < self.made:
            self.story.feed(self.link, self.sent + 1, self.made)
            self.sent = self.made

    def go(self, seconds):
        while self.made < seconds / self.TICK * self.EACH:
            self.made += self.EACH
            self.back(self.made)
            if self.made >= self.next:
                self.next = self.made + self.source.randint(1, 200)
                self.lose()
            self.feed()
            time.sleep(self.TICK)
        self.back(1 << 62)
        self.feed()

    def wholes(self):
        """What each has in all, byte by byte."""
        for port in self.ports:
            with self.nodes[port].link() as link:
                link.send(say.full())
                yield link.rest()


def soaked(seconds, seed):
    """What is wrong with a tree after so many seconds, and how it went."""
    with contextlib.ExitStack() as stack:
        tree = Tree(stack, seed)
        tree.go(seconds)
        problems = [f"node {at} doesn't come to the last change" for at, port in enumerate(tree.ports) if not tree.nodes[port].reaches(tree.story.time(tree.made))]
        alone = stack.enter_context(Node())
        with alone.link() as link:
            for last in range(1_000, tree.made + 1_000, 1_000):
                tree.story.feed(link, last - 999, min(last, tree.made))
            link.send(say.full())
            wanted = link.rest()
        if say.read_reply(wanted) != tree.story.whole(tree.made):
            problems.append("one that was fed alone has something else than the log")
        problems += [f"node {at} has something else than one that was fed alone" for at, it in enumerate(tree.wholes()) if it != wanted]
    return problems, f"{tree.made:,} changes, {tree.kills} killed, {tree.stops} stopped"


# ---------------------------------------------------------------- links that are cut

def ip(*words):
    return subprocess.run(["ip", *words], capture_output=True, timeout=LIMIT, check=False).returncode == 0


class Wires:
    """Namespaces of the network, each with a wire to this one, which are gone when the block is left. A wire is cut by an address of the other end
    that nobody has, so that what is sent is lost."""

    NOBODY = ("lladdr", "02:00:00:00:00:99", "nud", "permanent")

    def __init__(self, count):
        self.names = [f"hkf{os.getpid()}{at}" for at in range(count)]
        # of those that no network has, but for measures
        self.net = f"198.18.{os.getpid() % 256}"

    def near(self, at):
        return f"{self.net}.{4 * at + 1}"

    def far(self, at):
        return f"{self.net}.{4 * at + 2}"

    def is_made(self):
        """Whether all could be made."""
        try:
            return os.geteuid() == 0 and all(self._make(at, name) for at, name in enumerate(self.names))
        except (OSError, subprocess.TimeoutExpired):
            return False

    def _make(self, at, name):
        near, far = f"{name}h", f"{name}p"
        return (ip("netns", "add", name) and ip("link", "add", near, "type", "veth", "peer", "name", far, "netns", name)
                and ip("addr", "add", f"{self.near(at)}/30", "dev", near) and ip("link", "set", near, "up")
                and ip("-n", name, "addr", "add", f"{self.far(at)}/30", "dev", far) and ip("-n", name, "link", "set", far, "up"))

    def cut(self, at):
        name = self.names[at]
        return (ip("neigh", "replace", self.far(at), "dev", f"{name}h", *self.NOBODY)
                and ip("-n", name, "neigh", "replace", self.near(at), "dev", f"{name}p", *self.NOBODY))

    def heal(self, at):
        name = self.names[at]
        return ip("neigh", "del", self.far(at), "dev", f"{name}h") and ip("-n", name, "neigh", "del", self.near(at), "dev", f"{name}p")

    def __enter__(self):
        return self

    def __exit__(self, *_):
        for name in self.names:
            with contextlib.suppress(OSError, subprocess.TimeoutExpired):
                ip("link", "del", f"{name}h")
                ip("netns", "del", name)
