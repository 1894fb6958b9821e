#!/usr/bin/env python3
"""Writes the sample sheets and inputs of this folder: python3 examples/make.py

NAME.sheet is a sheet alone, for `inspect`; NAME.input has questions behind it, for `mark`.
The layout is that of docs/FORMAT.md.
"""
import os
import struct

HERE = os.path.dirname(os.path.abspath(__file__))


def sheet(kind, size, head, records):
    body = b"".join(
        struct.pack(">HI", 4 + len(what) + len(name), price) + what + name
        for price, what, name in records
    )
    total = 9 + len(head) + len(body)
    return struct.pack(">BIBBH", 1, total, kind, size, len(records)) + head + body


def facts(count, start, goal, actions):
    """Actions are (preconditions, adds, deletes, price, name)."""
    records = [(price, struct.pack(">III", *masks), name) for *masks, price, name in actions]
    return sheet(1, count, struct.pack(">II", start, goal), records)


def dials(values, start, goal, actions):
    """Actions are (preconditions, effects, price, name), with lists of (dial, value)."""

    def pairs(some):
        return bytes([len(some)]) + b"".join(bytes(pair) for pair in some)

    records = [(price, pairs(needs) + pairs(sets), name) for needs, sets, price, name in actions]
    return sheet(2, len(values), bytes(values) + bytes(start) + bytes(goal), records)


def asking(some, questions):
    return some + struct.pack(">H", len(questions)) + b"".join(struct.pack(">IH", *q) for q in questions)


def write(name, data):
    with open(os.path.join(HERE, name), "wb") as out:
        out.write(data)


# Facts: 0 the key is there, 1 the map is there, 2 the treasure is found. Two ways cost 2.
KEY = facts(3, 0, 4, [
    (0, 1, 0, 1, b"take the key"),
    (0, 2, 0, 1, b"take the map"),
    (1, 4, 0, 1, b"open with the key"),
    (2, 4, 0, 1, b"find by the map"),
    (0, 4, 0, 3, b"break the door"),
    (0, 0, 0, 0, b"wait\xe2\x80\xa6"),
    (0, 1, 1, 1, b"put back and take the key"),
])

# Dial 0 is a switch, dial 1 a lamp that is off, dim or bright. Both ways to bright light cost 3.
LAMP = dials([2, 3], [0, 0], [255, 2], [
    ([(0, 0)], [(0, 1)], 1, b"switch on"),
    ([(0, 1), (1, 0)], [(1, 1)], 1, b"dim light"),
    ([(0, 1), (1, 1)], [(1, 2)], 1, b"bright light"),
    ([(0, 1)], [(1, 2)], 2, b"bright at once"),
    ([], [(1, 2)], 9, b"a new lamp"),
])

write("key.sheet", KEY)
write("key.input", asking(KEY, [(0, 0), (0, 1), (0, 4), (1, 2), (1, 0), (0, 2), (4, 0)]))
write("lamp.sheet", LAMP)
write("lamp.input", asking(LAMP, [(0, 0), (0, 4), (1, 1), (1, 3), (1, 0), (6, 0)]))
# The price of the fourth action is above the limit.
write("damaged.sheet", KEY[:114] + b"\x7f" + KEY[115:])
write("damaged.input", asking(KEY[:114] + b"\x7f" + KEY[115:], [(0, 0)]))
