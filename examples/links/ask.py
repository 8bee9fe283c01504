#!/usr/bin/env python3
"""Feeds a node of log 7 with one stream over a socket and asks it: examples/links/ask.py PORT"""
import socket
import struct
import sys

ENTRY = bytes.fromhex("00000031 01 01 0000000000000007 0001 0000000000000001 0000000000000001"
                      "0000 0001 0001 0000000000000005 00000009 0001 41")
MARK = bytes.fromhex("0000001c 01 02 0000000000000007 0001 0000000000000001 0000000000000001")


def told(link, kind, body):
    """Sends a request, and gives the body of the reply."""
    link.sendall(struct.pack(">IBB", len(body) + 2, 1, kind) + body)
    reply = link.makefile("rb")
    length = int.from_bytes(reply.read(4), "big")
    return reply.read(length)


with socket.create_connection(("127.0.0.1", int(sys.argv[1]))) as link:
    told(link, 16, struct.pack(">I", 2) + ENTRY + MARK)              # these two items
    print("front", told(link, 17, b"").hex(" "))                     # horizon and readable mark
    row = told(link, 20, struct.pack(">QBHQ", 1, 1, 1, 5))           # at time 1: get table 1, key 5
    print("tag", int.from_bytes(row[4:8], "big"), "body", row[10:].hex())
