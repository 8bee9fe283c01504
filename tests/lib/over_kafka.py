#!/usr/bin/env python3
"""publish and follow of the example for Kafka, as programs: over_kafka.py publish|follow BROKERS TOPIC WORDS ..; for tests/lib/records_tried.py.
Needs python3-confluent-kafka."""
import argparse
import importlib.util
import pathlib
import sys

ROOT = pathlib.Path(__file__).resolve().parents[2]
sys.path.insert(0, str(ROOT / "connectors" / "common"))

from engine_log import add_log_words
from following import add_follow_words, follow
from publishing import add_publish_words, publish


def example():
    """The module of the example, whose name is a word of Python."""
    spec = importlib.util.spec_from_file_location("over_kafka_example", ROOT / "examples" / "kafka" / "try.py")
    module = importlib.util.module_from_spec(spec)
    spec.loader.exec_module(module)
    return module


def to_the_end(kafka):
    """The example's reading, which is over once all is read that is there, however long the broker takes."""
    class Reading(kafka.ReadingKafka):
        def __init__(self, store, offsets):
            super().__init__(store, offsets)
            self.places = dict(offsets)

        def read(self, seconds):
            found = super().read(seconds)
            self.places.update({stream: offset + 1 for stream, offset, _ in found})
            return found

        def has_all(self):
            return all(place >= self.store.ends(stream)[1] for stream, place in self.places.items())

    return Reading


def main(side, brokers, topic, *more):
    kafka = example()
    kafka.TOPIC, kafka.ReadingKafka = topic, to_the_end(kafka)
    words = argparse.ArgumentParser(prog=side)
    add_log_words(words)
    if side == "publish":
        add_publish_words(words, kafka.LogInKafka)
    else:
        add_follow_words(words, "Kafka")
    said = words.parse_args(more)
    opened = lambda: kafka.LogInKafka(brokers, said.log, said.streams)
    return publish(opened(), said, words) if side == "publish" else follow(opened, said)


if __name__ == "__main__":
    sys.exit(main(*sys.argv[1:]))
