#!/usr/bin/env python3
"""A node behind stunnel, by the commands of docs/OPERATING.md and the files of deploy/stunnel, on other ports and in a folder of the
test's own: the commands are typed one after the other, and clients that may not come are each refused and told, and not seen by the
node. Needs bin/hkrep, stunnel and openssl; where one of the last two isn't installed, that is said as skipped. Ends with
'N passed, M failed'."""
import asyncio
import os
import pathlib
import re
import shutil
import subprocess
import sys
import tempfile
import time

sys.dont_write_bytecode = True
ROOT = pathlib.Path(__file__).resolve().parents[2]
sys.path.append(str(ROOT / "connectors" / "common"))
sys.path.append(str(pathlib.Path(__file__).resolve().parents[1] / "lib"))
import messages as say
from checks import differ, ended, free_port, guarded, is_built, report, skip
from feeding import Certificates, Feed
from packaged import va
from shown import of
from staying import PROGRAM, Staying
from vadungsil.blocks import walked

STUNNEL = shutil.which("stunnel") or shutil.which("stunnel4")
AUTHORITY = ROOT / "deploy" / "stunnel" / "authority"
LIMIT = 30
# the ports of the page and of deploy/stunnel
PORTS = ("7420", "7421", "7422", "7424", "7425", "7428", "7429")
ENTRY = va.Entry.of(7, 1, 1, 1, rows=[(1, 5, 9, b"A")])
ROW = va.Row(9, b"A")
# what each client that may not come is told; the words are those of TLS
ALERTS = {"none": "certificate required", "other": "unknown ca", "late": "certificate expired"}


def run(*words, **more):
    """What a command printed, standard error behind it, and its status."""
    done = subprocess.run([str(word) for word in words], stdin=subprocess.DEVNULL, stdout=subprocess.PIPE, stderr=subprocess.STDOUT,
                          text=True, timeout=LIMIT, check=False, **more)
    return done.stdout, done.returncode


class Started:
    """Programs that are ended when the block is left."""

    def __init__(self, folder):
        self.folder, self.children = folder, []

    def start(self, words, **more):
        self.children.append(subprocess.Popen(words, stdin=subprocess.DEVNULL, stdout=subprocess.DEVNULL, stderr=subprocess.DEVNULL, **more))

    def stunnel(self, name, changed):
        """stunnel with one of our files, in which some words are others."""
        text = (ROOT / "deploy" / "stunnel" / name).read_text(encoding="utf-8")
        for old, new in {"/etc/vadungsil": str(self.folder), "NODE": "localhost", **changed}.items():
            text = text.replace(old, new)
        (self.folder / name).write_text(text, encoding="utf-8")
        self.start([STUNNEL, str(self.folder / name)])

    def __enter__(self):
        return self

    def __exit__(self, *_):
        for child in self.children:
            child.kill()
            child.wait()


def certified(folder, *people):
    """An authority with the certificate of this machine and of each (kind, name, days)."""
    for words in (("node", "localhost"), *people):
        said, status = run(AUTHORITY, folder, *words)
        if status:
            raise RuntimeError(f"authority {words}: {said}")


# ---------------------------------------------------------------- the page

def typed():
    """The commands of the page, one after the other: an authority, a node with stunnel before it, a feeder, a reader, the page."""
    with tempfile.TemporaryDirectory() as name, Started(pathlib.Path(name)) as started:
        folder = pathlib.Path(name)
        ports = {word: str(free_port()) for word in (*PORTS, "page", "nothing")}
        problems = []
        for it in of("tunnel.py typed"):
            problems += typed_one(started, folder, it, ports)
    report(f"docs/OPERATING.md: the commands that let others reach a node ({len(of('tunnel.py typed'))})", problems)


def typed_one(started, folder, shown, ports):
    line = shown.text.replace("/etc/vadungsil", str(folder)).replace("NODE", "localhost")
    line = re.sub(r"(?<=[ =])(\w+\.pem)", rf"{folder}/\1", line)
    line = re.sub(r"(?<=[ :])(742[0124589])\b", lambda found: ports[found[1]], line)
    env = {**os.environ, "PATH": f"{PROGRAM.parent}:{os.environ['PATH']}", "PYTHONPATH": str(ROOT / "clients" / "python"),
           "NATS_URL": f"127.0.0.1:{ports['nothing']}"}
    if line.startswith("stunnel "):
        file = re.search(r"deploy/stunnel/(\S+)", line)[1]
        started.stunnel(file, {"NAME.pem": "primary.pem", **{before + word: before + ports[word] for before in " :" for word in PORTS}})
        return []
    if line.endswith(" &"):
        started.start(["bash", "-c", f"exec {line.removesuffix(' &')}"], cwd=ROOT, env=env)
        return []
    if ".web " in line:
        return web_of(started, f"{line} --http 127.0.0.1:{ports['page']}", env, ports["page"])
    if "/follow " in line:
        # over its link to the node, and no further, for there is no server of NATS
        said, status = run("bash", "-c", f"{line} --once", cwd=ROOT, env=env)
        return differ([(line, (status, "Connection refused" in said and ports["nothing"] in said), (1, True))])
    said, status = run("bash", "-c", f"{{ {line}; }} 2> '{folder}/said'", cwd=ROOT, env=env)
    beside = (folder / "said").read_text(encoding="utf-8")[-300:] if status else ""
    return differ([(f"{line}: {beside}", (said.strip(), status), (shown.printed, 0))])


def web_of(started, line, env, port):
    """The page of a node at tls://, which shows it as up."""
    import urllib.request
    started.start(["bash", "-c", f"exec {line}"], cwd=ROOT, env=env)
    until, said = time.monotonic() + LIMIT, ""
    while '"up": true' not in said and '"up":true' not in said and time.monotonic() < until:
        try:
            with urllib.request.urlopen(f"http://127.0.0.1:{port}/api/nodes", timeout=5) as reply:
                said = reply.read().decode()
        except OSError as error:
            said = str(error)
        time.sleep(0.05)
    return [] if "true" in said else [f"the page says {said[:200]}"]


# ---------------------------------------------------------------- who may come

def opened(node):
    """How many links the node saw."""
    return sum("opened" in line for line in node.words)


def refused(call):
    """What a client is told that may not come."""
    try:
        return f"answered {call()}"
    except va.LinkBroken as broken:
        return str(broken).replace("alert", "").lower()


async def asked_beside(port, **files):
    async with va.AsyncNode(f"tls://localhost:{port}", **files) as node:
        return await node.get(1, 5, at=1)


def strangers():
    """A reader and a feeder come through. A client without a certificate, with one of another authority, and one past its days are told so,
    also by asyncio; a reader can't feed; a feeder sends no fragment and prunes nothing; a node's side of another name, or of an authority that isn't ours, is left. The node sees
    those alone that may come, and what they do over TLS is what they do without."""
    with tempfile.TemporaryDirectory() as name, Staying(2, reading=20, feeding=20) as node:
        folder, other = pathlib.Path(name) / "ours", pathlib.Path(name) / "theirs"
        certified(folder, ("reader", "reader"), ("feeder", "feeder"), ("reader", "late", "-1"))
        certified(other, ("reader", "other"))
        with Started(folder) as started:
            readers, feeders = str(free_port()), str(free_port())
            started.stunnel("node.conf", {"7429": readers, "7428": feeders, "7422": str(node.feed_port), "7421": str(node.read_port)})
            report("who may come over TLS, and what the others are told",
                   come(folder, node, readers, feeders) + stay_out(folder, other, node, readers, feeders))


def come(folder, node, readers, feeders):
    """A feeder and a reader, with requests and replies of many records."""
    ca, mine = str(folder / "ca.pem"), {who: str(folder / f"{who}.pem") for who in ("reader", "feeder")}
    bulk = va.Entry.of(7, 1, 2, 2, rows=[(2, key, 0, bytes(4_000)) for key in range(500)])
    with va.Node(f"tls://localhost:{feeders}", ca=ca, cert=mine["feeder"], messages=2) as feeder:
        fed = [(it, it.new) for it in (feeder.items([ENTRY, bulk, va.Mark(7, 1, 2, 2)]), feeder.items([ENTRY]))]
        others = [refused_number(call) for call in (lambda: feeder.prune(1), lambda: feeder.merge(feeder.whole()), lambda: feeder.hold(1))]
    with va.Node(f"tls://localhost:{readers}", ca=ca, cert=mine["reader"]) as reader:
        rows = reader.range(2, at=2)
        with reader.pipeline() as pipe:
            many = [pipe.get(1, 5, at=1) for _ in range(2_000)]
        changed = refused_number(lambda: reader.prune(1))
        pairs = [("a reader asks", reader.get(1, 5, at=1), ROW), ("many rows", len(rows), 500), ("a pipeline", {it.result() for it in many}, {ROW})]
    one = va.Nodes([f"tls://localhost:{readers}", node.port], ca=ca, cert=mine["reader"])
    feed = Feed(f"tls://localhost:{feeders}", LIMIT, 8, Certificates(ca, mine["feeder"]))
    entries = [va.Entry.of(7, 1, at, at, rows=[(3, key, 0, bytes(4_000)) for key in range(20)]) for at in range(3, 33)]
    feed.send_blocks([walked(va.encode(it), it.number, 7, 1, "a block") for it in entries])
    pairs.append(("a connector's link", (feed.streams(7)[0].prefix, feed.front().readable), (32, 2)))
    feed.close()
    pairs += [("a feeder feeds", fed, [(2, 3), (3, 0)]), ("and does nothing else", others, [4] * 3), ("a reader can't change", changed, 4), ("many nodes", [one.at(1).get(1, 5) for _ in range(2)], [ROW] * 2),
              ("asyncio", asyncio.run(asked_beside(readers, ca=ca, cert=mine["reader"])), ROW)]
    one.close()
    return differ(pairs)


def refused_number(call):
    try:
        return call()
    except va.Refused as error:
        return error.number


def stay_out(folder, other, node, readers, feeders):
    before, ca = opened(node), str(folder / "ca.pem")
    files = {"none": {}, "other": {"cert": str(other / "other.pem")}, "late": {"cert": str(folder / "late.pem")}}
    pairs = []
    for who, mine in files.items():
        told = [refused(lambda: va.Node(f"tls://localhost:{port}", ca=ca, **mine).front()) for port in (readers, feeders)]
        beside = refused(lambda: asyncio.run(asked_beside(readers, ca=ca, **mine)))
        told.append(ALERTS[who] if "our certificate may not be taken there" in beside else beside)
        pairs += [(f"{who}: {number}", ALERTS[who] in text, True) if ALERTS[who] in text else (f"{who}: {number}", text, ALERTS[who])
                  for number, text in enumerate(told)]
    mine = {"cert": str(folder / "reader.pem")}
    feeding = refused(lambda: va.Node(f"tls://localhost:{feeders}", ca=ca, **mine).items([ENTRY]))
    pairs.append(("a reader at the feeders' port", "answered" in feeding, False))
    wrong = [("another name", f"tls://127.0.0.1:{readers}", ca, "certificate verify failed"),
             ("another authority", f"tls://localhost:{readers}", str(other / "ca.pem"), "certificate verify failed")]
    for name, address, trusted, words in wrong:
        told = refused(lambda: va.Node(address, ca=trusted, **mine).front())
        pairs.append((name, words in told or told, True))
    plain = refused(lambda: va.Node(int(readers), wait=0).front())
    pairs += [("without TLS", "answered" in plain, False), ("the node saw none of them", opened(node), before),
              ("and answers beside", say.Link(node.port, LIMIT).ask(say.ask(1, say.get(1, 5))), ("row", (9, b"A")))]
    return differ(pairs)


def wrong_words():
    """Certificates that nobody uses, or that aren't there, are told before anything is sent."""
    def told(call):
        try:
            return f"made {call()}"
        except ValueError as error:
            return str(error)
    pairs = [("for a plain address", told(lambda: va.Node(7420, ca="x")), "certificates are for addresses that begin with tls://"),
             ("for many", told(lambda: va.Nodes([7420, "a:1"], cert="x")), "certificates are for addresses that begin with tls://"),
             ("no file", told(lambda: va.Node("tls://a:1", ca="/nowhere/ca.pem"))[:41], "certificates of /nowhere/ca.pem: [Errno 2"),
             ("no address", told(lambda: va.Node("tls://a"))[:21], "no address: 'tls://a'")]
    said, status = run(sys.executable, "-m", "vadungsil", "--port", "7420", "--cacert", "x", "front", cwd=ROOT / "clients" / "python")
    pairs.append(("the command", (said, status), ("vadungsil: certificates are for addresses that begin with tls://\n", 2)))
    report("certificates that can't be used", differ(pairs))


def main():
    if not is_built(PROGRAM):
        return ended()
    guarded(wrong_words)
    if not STUNNEL or not shutil.which("openssl"):
        skip("stunnel or openssl is not installed: no node is asked through a tunnel")
        return ended()
    for check in (typed, strangers):
        guarded(check)
    return ended()


if __name__ == "__main__":
    sys.exit(main())
