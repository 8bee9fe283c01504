#!/usr/bin/env python3
"""Checks of the lines that `hkrep node` writes to standard error: how many there are in a second, what a conflict says, what
bytes of another protocol say, and the lines of JSON.

Prints a line for each check and ends with 'N passed, M failed'. Standard library only."""
import json
import pathlib
import re
import socket
import subprocess
import sys
import threading
import time

sys.path.append(str(pathlib.Path(__file__).resolve().parents[1] / "lib"))
import messages as say
from checks import differ, ended, free_port, guarded, is_built, report
from messages import E1, TOO_LONG
from staying import LIMIT, PROGRAM, OwnNode, Staying

PUSHED = say.items(E1, say.mark(1, 1, 1))
# an entry that says something else of the row that E1 put in
OTHER = say.items(say.entry(1, 1, [(1, 5, 9, b"B")]))
# how many lines of one kind and one port there are in a second at most, and how many bytes of them; so many letters has a conflict's
MOST_LINES, MOST_BYTES, MOST_LETTERS = 10, 8_192, 200
STORM_SECONDS = 2.5
TIME = r"\d{4}-\d\d-\d\dT\d\d:\d\d:\d\d\.\d{3}Z"
MORE = re.compile(r"([\d,]+) more: (.*)\n")


def wait_until(is_so, seconds=10):
    """Whether that is so, within the time."""
    until = time.monotonic() + seconds
    while not is_so() and time.monotonic() < until:
        time.sleep(0.02)
    return is_so()


def plain(line):
    """A line without its time, level and peer, if it has them."""
    return re.sub(rf"^{TIME} (info|warn|error) (-|[\d.]+:\d+) ", "", line)


def counts(lines, kind):
    """How many lines of a kind there are, which begins so behind its connection, and how many more are told."""
    printed = [line for line in lines if re.match(rf"link \d+: {kind}\b", plain(line))]
    more = [int(found[1].replace(",", "")) for found in map(MORE.fullmatch, map(plain, lines)) if found and found[2] == kind]
    return len(printed), sum(more), len(more)


def storm(link, seconds):
    """Sends conflicts for so long; says how many were refused, and whether each was refused 23."""
    count, told, until = 0, set(), time.monotonic() + seconds
    while time.monotonic() < until:
        link.send(OTHER * 100)
        told |= {link.reply()[:2] for _ in range(100)}
        count += 100
    return count, told


def refused_changes():
    """Of conflicts that come as fast as they are refused ten a second are told, and once a second how many more there were, also with -q and after the last; of another
    port's each is told. A line has at most 200 letters, and says where the change begins."""
    problems = []
    for options in ((), ("-q",)):
        feeding = free_port()
        with OwnNode(*options, "--feed-port", feeding, "--feed-links", 2) as node, node.link() as first, node.link(feeding) as link:
            pairs = [("a push", first.ask(PUSHED), ("done", 2))]
            start = time.monotonic()
            count, told = storm(link, STORM_SECONDS)
            pairs += [("each is refused", told, {("refused", 23)}), ("many were", count > 20 * MOST_LINES, True), ("one of the other port", first.ask(OTHER)[:2], ("refused", 23))]
            pairs.append(("all are told", wait_until(lambda: sum(counts(list(node.words), "refused 23")[:2]) == count + 1), True))
            seconds = time.monotonic() - start
        lines = list(node.words)
        printed, more, mores = counts(lines, "refused 23")
        size = sum(len(line) for line in lines)
        pairs += [("lines of it", printed <= MOST_LINES * (seconds + 1) + 1, True), ("lines of how many more", 1 <= mores <= seconds + 1, True), ("printed and counted", printed + more, count + 1),
                  ("bytes", size < MOST_BYTES * seconds, True), ("letters of a line", max(map(len, lines)) <= MOST_LETTERS, True)]
        where = [line for line in lines if "refused 23: a conflict in the items from table 1 key 5 time 1 on; " in line]
        pairs.append(("where it begins", len(where), printed))
        problems += [f"{' '.join(options)}: {problem}" for problem in differ(pairs)]
    report("changes that are refused as fast as they come", problems)


def many_connections():
    """Of 300 connections that come and go at once ten are told as opened and as ended, and how many more; those that end badly by their number."""
    with OwnNode("--links", 100) as node:
        for at in range(300):
            with node.link() as link:
                if at % 3 == 0:
                    link.send(TOO_LONG)
                    link.read_all()
                else:
                    link.ask(say.front())
        whole = {"opened": 300, "ended 0": 200, "ended 2": 100}
        told = wait_until(lambda: all(sum(counts(list(node.words), kind)[:2]) == number for kind, number in whole.items()))
    lines = list(node.words)
    pairs = [("all are told", told, True)] + [(f"lines of {kind}", MOST_LINES <= counts(lines, kind)[0] < number, True) for kind, number in whole.items()]
    levels = {MORE.fullmatch(plain(line))[2]: line.split()[1] for line in lines if MORE.fullmatch(plain(line))}
    pairs.append(("their levels", levels, {"opened": "info", "ended 0": "info", "ended 2": "warn"}))
    report("connections that come and go at once", differ(pairs))


def other_protocols():
    """Bytes of HTTP and of TLS are told as such, in one line; what is answered is the refusal of a length."""
    reads, wanted = free_port(), []
    sent = [("HTTP", b"GET / HTTP/1.1\r\nHost: node\r\n\r\n"), ("HTTP", b"POST / HTTP/1.0\r\n\r\n"), ("HTTP", b"PRI * HTTP/2.0\r\n\r\n"), ("TLS", bytes.fromhex("16030100a5010000a10303") + bytes(40)), (None, b"\xff\xff\xff\xff")]
    with OwnNode("-q", "--read-port", reads, "--read-links", 2) as node:
        pairs = []
        for port in (node.port, reads):
            for name, data in sent:
                with node.link(port) as link:
                    link.send(data[:2])
                    time.sleep(0.02)
                    link.send(data[2:])
                    pairs.append((f"the answer to {name}", link.reply()[:2], ("refused", 2)))
                wanted.append(f"the peer speaks {name}, and this port the messages of docs/PROTOCOL.md" if name else "the length field")
        wait_until(lambda: len(node.words) == len(wanted))
        lines = [plain(line) for line in node.words]
    pairs += [("lines", len(lines), len(wanted))] + [(line, bool(re.match(rf"link \d+: ended 2: {re.escape(part)}", line)), True) for line, part in zip(lines, wanted)]
    report("bytes of other protocols", differ(pairs))


def objects(lines):
    """What lines of JSON have, but for one of a program that was built without proofs; a line that is none is an error."""
    return [it for it in map(json.loads, lines) if it["event"] != "unproved"]


def json_lines():
    """With --log-format json each line is an object with the time, the level, the peer, the event and its values."""
    with OwnNode("-v", "--log-format", "json", "--load", "/nonexistent/file") as node:
        with node.link() as link:
            peer = "127.0.0.1:%d" % link.socket.getsockname()[1]
            pairs = [("a push", link.ask(PUSHED), ("done", 2)), ("a conflict", link.ask(OTHER)[:2], ("refused", 23)), ("a prune", link.ask(say.prune(9))[:2], ("refused", 24))]
        wait_until(lambda: any('"ended"' in line for line in list(node.words)))
        with node.link() as link:
            other = "127.0.0.1:%d" % link.socket.getsockname()[1]
            link.send(TOO_LONG)
            link.read_all()
        wait_until(lambda: any('"number":2,' in line for line in list(node.words)))
        lines = objects(list(node.words))
    wanted = [{"level": "warn", "peer": None, "event": "load", "source": "/nonexistent/file"}, {"level": "info", "peer": peer, "event": "opened", "link": "1"},
              {"level": "info", "peer": peer, "event": "done", "link": "1", "operations": "2"},
              {"level": "warn", "peer": peer, "event": "refused", "link": "1", "number": 23, "table": 1, "key": "5", "at": "1"},
              {"level": "warn", "peer": peer, "event": "refused", "link": "1", "number": 24, "table": None, "key": None, "at": None},
              {"level": "info", "peer": peer, "event": "ended", "link": "1", "number": 0}, {"level": "info", "peer": other, "event": "opened", "link": "2"},
              {"level": "warn", "peer": other, "event": "ended", "link": "2", "number": 2, "speaks": None}]
    pairs += [("how many", len(lines), len(wanted))]
    for it, values in zip(lines, wanted):
        told, words = it.pop("time"), it.pop("message")
        pairs += [("a time", bool(re.fullmatch(TIME, told)), True), ("words", bool(words) and "\n" not in words, True), ("an object", it, values)]
    report("lines of JSON", differ(pairs))


def json_limits_and_ends():
    """In JSON how many more there were is an object too, and so is why a node ended or didn't begin."""
    with OwnNode("--log-format", "json", "-q") as node, node.link() as link:
        pairs = [("a push", link.ask(PUSHED), ("done", 2))]
        count, _ = storm(link, 0.5)
        wait_until(lambda: any('"event":"more"' in line for line in list(node.words)))
        lines = objects(list(node.words))
    more = [it for it in lines if it["event"] == "more"]
    pairs += [("how many more", [(it["of"], it["number"], it["door"], it["level"], it["peer"]) for it in more], [("refused", 23, 0, "warn", None)]),
              ("with those that are printed", int(more[0]["more"]) + len(lines) - 1 if more else None, count)]
    with socket.create_server(("127.0.0.1", 0)) as taken:
        words = ["node", "--log", "7", "--streams", "1", "--port", str(taken.getsockname()[1]), "--log-format", "json"]
        done = subprocess.run([str(PROGRAM), *words], capture_output=True, text=True, timeout=LIMIT, check=False)
        lines = objects(done.stderr.splitlines())
        pairs += [("a port in use", (done.returncode, done.stdout), (1, "")), ("is told", [(it["event"], it["level"], it["message"][:13]) for it in lines], [("stopped", "error", "refused 93: c")])]
    for word in ("xml", "", "JSON"):
        done = subprocess.run([str(PROGRAM), "node", "--log", "7", "--streams", "1", "--log-format", word], capture_output=True, text=True, timeout=LIMIT, check=False)
        pairs.append((f"the form {word!r}", (done.returncode, done.stdout, f"invalid value '{word}' for '--log-format <FORMAT>': text or json" in done.stderr), (2, "", True)))
    report("what is limited, and why a node ends, in JSON", differ(pairs))


def side_by_side(checks):
    """Makes the checks at once, since most of them wait for seconds to pass."""
    threads = [threading.Thread(target=guarded, args=(check,)) for check in checks]
    for thread in threads:
        thread.start()
    for thread in threads:
        thread.join()


def main():
    if not is_built(PROGRAM):
        return ended()
    start = time.monotonic()
    checks = [check for check in (refused_changes, many_connections, other_protocols, json_lines, json_limits_and_ends) if not sys.argv[1:] or check.__name__ in sys.argv[1:]]
    side_by_side(checks)
    print(f"lines of a node: {time.monotonic() - start:.1f} s")
    return ended()


if __name__ == "__main__":
    sys.exit(main())
