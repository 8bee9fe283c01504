#!/usr/bin/python3
"""A report of the shop, from one moment of all nodes that are named: what each branch has, and the sum, which no
transfer changes.

    report.py --node 7420 --node 7421                     at the last moment that all of them have
    report.py --node 7420 --clock 2026-11-26T20:00:00Z     as it was by that time of the clock
    report.py --node 7420 --lsn 0/16B3748                  with all up to this place of the write-ahead log"""
from __future__ import annotations

import argparse
import datetime
import sys
from typing import Dict, List, Tuple

import servers      # noqa: F401: it finds the package
from vadungsil import Node
from vadungsil.address import FORMS
from vadungsil.postgres import Database, moment

Branches = Dict[int, Tuple[int, int]]


def branches(base: Database, at: int) -> Branches:
    """Accounts and the sum of their balances, by branch."""
    found: Branches = {}
    for row in base.rows("accounts", at=at):
        count, total = found.get(row["branch"], (0, 0))
        found[row["branch"]] = (count + 1, total + row["balance"])
    return found


def moment_for(nodes: List[Node], said: argparse.Namespace) -> int:
    if said.clock:
        return Database(nodes[0]).moment_of(datetime.datetime.fromisoformat(said.clock.replace("Z", "+00:00")))
    if said.lsn:
        return Database(nodes[0]).moment_of(said.lsn)
    return moment(min(node.front().readable for node in nodes))


def main() -> int:
    words = argparse.ArgumentParser(description=__doc__, formatter_class=argparse.RawDescriptionHelpFormatter)
    words.add_argument("--node", action="append", required=True, help=f"a node, as often as wanted: {FORMS}")
    words.add_argument("--clock", help="a time of the clock with its zone")
    words.add_argument("--lsn", help="a place in the write-ahead log")
    said = words.parse_args()
    nodes = [Node(it) for it in said.node]
    at = moment_for(nodes, said)
    found = [branches(Database(node), at) for node in nodes]
    print(f"moment {at}, commit {Database(nodes[0]).commit(at).clock.isoformat()}", " branch  accounts     balance",
          sep="\n")
    for branch, (count, total) in sorted(found[0].items()):
        print(f"{branch:>7}{count:>10}{total:>12}")
    print(f"    all{sum(it[0] for it in found[0].values()):>10}{sum(it[1] for it in found[0].values()):>12}")
    is_same = all(it == found[0] for it in found)
    print(f"the same in {len(nodes)} nodes" if is_same else "OTHERS in another node!")
    return 0 if is_same else 1


if __name__ == "__main__":
    sys.exit(main())
