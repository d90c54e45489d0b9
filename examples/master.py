#!/usr/bin/env python3
"""Makes examples/master.blk: two archives contradict each other over their MASTER labels."""
import os
import struct

# Standpoints: 0 all, 1 the northern archive, 2 the southern archive, 3 the shelf they share.
NORTH, SOUTH, SHELF = 1, 2, 3
# Concepts: 0 top, 1 bottom, 2 the can on the shelf (an individual), then the label words.
TOP, BOTTOM, CAN, MASTER, NEGATIVE, PRINT = range(6)
SIZES = (4, 6, 0, 1)

# Shape, five numbers, tally: how many doubts come with the statement.
STATEMENTS = [
    ((1, SHELF, NORTH, 0, 0, 0), 1),              # the shelf is labelled as the north reads labels
    ((1, SHELF, SOUTH, 0, 0, 0), 2),              # and as the south reads them
    ((3, 0, CAN, 0, TOP, MASTER), 0),             # the can is labelled MASTER
    ((3, 0, TOP, NORTH, MASTER, NEGATIVE), 0),    # north: a master is an original negative
    ((3, 0, TOP, SOUTH, MASTER, PRINT), 0),       # south: a master is the best print
    ((7, 0, NEGATIVE, PRINT, BOTTOM, 0), 0),      # nothing is both
]


def block(number, count, body):
    head = b"SPLV" + b"T" + bytes([count]) + struct.pack(">H", number)
    data = (head + body).ljust(508, b"\0")
    return data + struct.pack(">I", sum(place * byte for place, byte in enumerate(data, 1)))


def record(statement, code):
    return bytes(statement) + struct.pack(">I", code) + b"\0\0"


def main():
    records = b"".join(record(*entry) for entry in STATEMENTS)
    data = block(0, 0, bytes(SIZES)) + block(1, len(STATEMENTS), records)
    path = os.path.join(os.path.dirname(os.path.abspath(__file__)), "master.blk")
    with open(path, "wb") as out:
        out.write(data)


main()
