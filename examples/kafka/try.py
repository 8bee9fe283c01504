#!/usr/bin/python3
"""EXAMPLE, tried on librdkafka's mock broker alone, in memory: untested on a broker. examples/kafka/try.py [ENTRIES]

The recipe of docs/CONNECTORS.md for a log over a topic `hekaton.7`: stream S is partition S - 1, a message is a block, its header Hk-Last
the number of its last entry. The publisher reads the end of its partition back and compares before it writes; the follower asks the node,
finds its place by halving over offsets, and commits nothing. It ends three times in the middle, and a publisher gives the whole log
again. Needs bin/hkrep and python3-confluent-kafka."""
import argparse
import pathlib
import socket
import subprocess
import sys

sys.dont_write_bytecode = True
ROOT = pathlib.Path(__file__).resolve().parent.parent.parent
sys.path[:0] = [str(ROOT / "connectors" / "common")]
from confluent_kafka import Consumer, KafkaException, Producer, TopicPartition

from engine_log import EngineLog, Moved, Reading
from following import Follower
from publishing import Publisher
from vadungsil import LogWriter, encode
from vadungsil.blocks import Cutter, walked

TOPIC, STREAMS, LIMIT = "hekaton.7", 2, 30


class LogInKafka(EngineLog):
    """Places are offsets. A second publisher has to be fenced by a `transactional.id` for each stream, which the mock doesn't do."""

    engine, errors = "Kafka", (KafkaException,)

    def __init__(self, brokers, log, streams):
        super().__init__(log, streams)
        self.producer = Producer({"bootstrap.servers": brokers, "enable.idempotence": True, "acks": "all", "linger.ms": 0})
        self.settings = {"bootstrap.servers": brokers, "group.id": "none", "enable.auto.commit": False, "auto.offset.reset": "error",
                         "isolation.level": "read_committed", "fetch.wait.max.ms": 10}
        self.consumer = Consumer(self.settings)

    def is_passing(self, error):
        return error.args[0].retriable()

    def drop(self):
        pass

    def key(self, stream):
        return f"{TOPIC}/{stream - 1}"

    def ends(self, stream):
        """The first offset that is there, and the one that comes next."""
        return self.consumer.get_watermark_offsets(TopicPartition(TOPIC, stream - 1), LIMIT)

    # ------------------------------------------------------------ how far it is

    def end(self, stream):
        low, high = self.ends(stream)
        blocks = (self.at(stream, offset) for offset in range(high - 1, max(low, high - 64) - 1, -1))
        return high - 1, self.at(stream, high - 1).last if high > low else 0, blocks

    def last(self, stream):
        return self.end(stream)[1]

    def first(self, stream):
        low, high = self.ends(stream)
        return self.at(stream, low).first if high > low else 1

    def gone(self, stream):
        return self.ends(stream)[0]

    def find(self, stream, number):
        """The offset of the first block whose last entry is `number` or more."""
        low, high = self.ends(stream)
        while low < high:
            middle = (low + high) // 2
            low, high = (low, middle) if self.at(stream, middle).last >= number else (middle + 1, high)
        return low

    def holding(self, stream, number):
        offset = self.find(stream, number)
        return self.at(stream, offset) if offset < self.ends(stream)[1] else None

    def at(self, stream, place):
        self.consumer.assign([TopicPartition(TOPIC, stream - 1, place)])
        message = self.consumer.poll(LIMIT)
        return self.block(stream, message)

    def block(self, stream, message):
        last = int(dict(message.headers())["Hk-Last"])
        return walked(message.value(), last, self.log, stream, f"stream {stream}: message {message.offset()} of {self.key(stream)}")

    # ------------------------------------------------------------ going on

    def append(self, stream, behind, blocks, kept):
        told = []
        for block in blocks:
            self.producer.produce(TOPIC, block.data, partition=stream - 1, headers={"Hk-Last": str(block.last)},
                                  on_delivery=lambda error, message: told.append((error, message.offset())))
        left = self.producer.flush(LIMIT)
        if left or any(error for error, _ in told):
            raise SystemExit(f"not published: {left}, {told[:1]}")
        if [offset for _, offset in told] != list(range(behind + 1, behind + 1 + len(blocks))):
            raise Moved
        for block in blocks:
            kept(block.last)
        return behind + len(blocks)

    def reading(self, prefixes, batch):
        return ReadingKafka(self, {stream: self.find(stream, prefix) for stream, prefix in prefixes.items()})


class ReadingKafka(Reading):
    def __init__(self, store, offsets):
        self.store, self.is_over = store, False
        self.consumer = Consumer(store.settings)
        self.consumer.assign([TopicPartition(TOPIC, stream - 1, offset) for stream, offset in offsets.items()])

    def read(self, seconds):
        found = [it for it in self.consumer.consume(20, seconds) if not it.error()]
        self.is_over = not found
        return [(it.partition() + 1, it.offset(), self.store.block(it.partition() + 1, it)) for it in found]

    def has_all(self):
        return self.is_over


def log_of(entries):
    writer, frames = LogWriter(7, STREAMS), []
    for at in range(entries):
        frames.append(encode(writer.commit([(1, at % 20, at, b"row")], stream=at % STREAMS + 1)))
        if at % 10 == 9 or at == entries - 1:
            frames += [encode(mark) for mark in writer.marks()]
    return frames


def publish(brokers, frames):
    """What a publisher says at its end."""
    publisher = Publisher(LogInKafka(brokers, 7, STREAMS), argparse.Namespace(heads=False, block=500, patience=5, confirm=False))
    publisher.put(Cutter().cut(b"".join(frames)))
    publisher.end()
    return publisher.told()


def follow(brokers, port, entries):
    """Four lives of a follower, of which three end in the middle."""
    said = argparse.Namespace(only=None, node=[str(port)], ahead=4, source=None, until=entries, once=False, batch=20, block=200, patience=5)
    for _ in range(3):
        follower = Follower(LogInKafka(brokers, 7, STREAMS), said, str(port))
        while not follower.step():
            pass
        follower.node.unlink()
    follower = Follower(LogInKafka(brokers, 7, STREAMS), said, str(port))
    follower.run()
    return follower.node.link().front()


def main(entries):
    mock = Producer({"test.mock.num.brokers": 1})
    brokers = ",".join(f"{it.host}:{it.port}" for it in mock.list_topics(timeout=LIMIT).brokers.values())
    with socket.socket() as probe:
        probe.bind(("127.0.0.1", 0))
        port = probe.getsockname()[1]
    node = subprocess.Popen([ROOT / "bin" / "hkrep", "serve", "--log", "7", "--streams", str(STREAMS), "--port", str(port), "--links", "8"],
                            stdout=subprocess.PIPE, stderr=subprocess.DEVNULL)
    try:
        node.stdout.readline()
        frames = log_of(entries)
        print(f"a mock on {brokers}: {publish(brokers, frames[:len(frames) // 2])}; {publish(brokers, frames)}")
        print(follow(brokers, port, entries).line())
    finally:
        node.kill()
        node.wait()


if __name__ == "__main__":
    main(int(sys.argv[1]) if len(sys.argv) > 1 else 200)
