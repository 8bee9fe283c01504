"""A replica in a Python process: first.py FILE feeds a file of item frames, and asks for the row of table 1 at key 5."""
import sys

from vadungsil.embedded import Replica

with Replica(7, 1) as replica:
    with open(sys.argv[1], "rb") as file:
        replica.absorb(file.read())
    row = replica.get(1, 5)
    if row is not None:
        print(f"tag {row.tag} body {row.body.hex()}")
