#!/usr/bin/env python3
"""Publishes to a log in a file, which no program of connectors does by itself (`capture --file` writes one): for tests/lib/records_tried.py."""
import argparse
import pathlib
import sys

ROOT = pathlib.Path(__file__).resolve().parents[2]
sys.path.insert(0, str(ROOT / "connectors" / "file"))

from log_in_file import LogInFile, add_words, opened
from publishing import add_publish_words, publish


def main():
    words = argparse.ArgumentParser(prog="publish")
    add_words(words)
    add_publish_words(words, LogInFile)
    words.add_argument("--trust", action="store_true")
    said = words.parse_args()
    store = opened(said, words)
    store.trust = said.trust
    try:
        return publish(store, said, words)
    finally:
        store.drop()


if __name__ == "__main__":
    sys.exit(main())
