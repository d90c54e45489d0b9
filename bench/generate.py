#!/usr/bin/env python3
"""Makes block files of many mixes of statements, with as many records as a number of rows holds.

Usage: generate.py TWIN FOLDER [--rows N ...] [--mixes NAME ...] [--kinds TLO] [--seed N]

For each mix, kind and number of rows: MIX-KIND-ROWS-ended.blk, which ends just below the rows, and MIX-KIND-ROWS-full.blk,
which has one record more and runs full. TWIN is the built twin, which tells when the records are too many. The same seed
gives the same files.
"""
import argparse
import itertools
import math
import os
import random
import struct
import subprocess
from dataclasses import dataclass

TOP, BOTTOM = 0, 1
SORTS = {  # of the numbers of each shape: standpoint, concept, role
    1: "SS", 2: "SSS", 3: "SCSCC", 4: "SCSC", 5: "SCRC", 6: "SRCC", 7: "SCCC", 8: "SRR", 9: "SRRR",
}
GRADES = {"T": range(20), "L": range(5), "O": range(200, 256)}
MOST_RECORDS = 127 * 41
TRIES = 40


@dataclass
class Mix:
    """How often each shape comes; "plain" is 3(0,0,s,c,d), "fact" is 3(0,a,0,0,d) with an individual a."""
    weights: dict
    standpoints: int
    roles: int = 0
    individuals: int = 0
    share: float = 0.3  # of the rows that the consequences of the tautologies may take
    tallies: range = GRADES["T"]

    def sizes(self, rows):
        """Standpoints, concepts, roles, individuals: the tautologies alone settle about 2 (standpoints x concepts)^2."""
        room = math.sqrt(self.share * rows / 2)
        least = 4 + self.individuals
        standpoints = max(1, min(self.standpoints, int(room / least)))
        concepts = max(least, min(64, int(room / standpoints)))
        return standpoints, concepts, self.roles, self.individuals


MIXES = {
    "leaves": Mix({6: 1, 7: 1, 9: 8}, 2, roles=16, share=0.05),
    "sharpenings": Mix({1: 6, 2: 6, "plain": 4, 3: 2, 5: 2, 6: 2, 8: 2, 9: 6}, 12, roles=6, share=0.5),
    "nested": Mix({1: 1, "plain": 4, 3: 16, 4: 1, "fact": 2}, 2, individuals=2),
    "possible": Mix({1: 1, "plain": 5, 3: 2, 4: 14}, 2),
    "roles": Mix({1: 1, "plain": 4, 5: 20, 6: 4, 8: 4, 9: 4}, 2, roles=10),
    "conjunctions": Mix({1: 1, "plain": 8, 3: 2, 7: 16, "fact": 2}, 2, individuals=2),
    "paths": Mix({"plain": 1}, 1, share=0.15, tallies=range(1000)),
    "everything": Mix({1: 1, 2: 1, "plain": 6, 3: 5, 4: 4, 5: 6, 6: 3, 7: 4, 8: 1, 9: 1, "fact": 2}, 3, roles=4, individuals=2),
}


def statement(mix, sizes, rng):
    standpoints, concepts, roles, individuals = sizes
    named = 2 + individuals  # the first concept that is neither top, bottom nor an individual
    ranges = {"S": (0, standpoints), "C": (named, concepts), "R": (0, roles)}
    shape, = rng.choices(list(mix.weights), list(mix.weights.values()))
    if shape == "fact":
        return 3, 0, rng.randrange(2, named), 0, TOP, rng.randrange(named, concepts)
    numbers = [rng.randrange(*ranges[sort]) for sort in SORTS[3 if shape == "plain" else shape]]
    if shape == "plain":
        shape, numbers[:2] = 3, (0, TOP)
    if shape == 7 and rng.random() < 0.1:
        numbers[3] = BOTTOM
    return (shape, *numbers, 0, 0, 0)[:6]


def records(mix, sizes, kind, rng):
    """Different statements, each with a grade, as records."""
    grades = mix.tallies if kind == "T" else GRADES[kind]
    drawn = (statement(mix, sizes, rng) for _ in range(4 * MOST_RECORDS))
    return [bytes(numbers) + struct.pack(">Ixx", rng.choice(grades)) for numbers in dict.fromkeys(drawn)]


def block(kind, number, count, body):
    data = (b"SPLV" + kind.encode() + bytes([count]) + struct.pack(">H", number) + body).ljust(508, b"\0")
    return data + struct.pack(">I", sum(place * byte for place, byte in enumerate(data, 1)))


def block_file(kind, sizes, kept):
    groups = [kept[at:at + 41] for at in range(0, len(kept), 41)]
    return block(kind, 0, 0, bytes(sizes)) + b"".join(
        block(kind, number, len(group), b"".join(group)) for number, group in enumerate(groups, 1))


def settled_to_the_end(twin, data, rows):
    """How many statements are settled; None if the run is full or a record finds no row."""
    line = subprocess.run([twin, str(rows), "counts"], input=data, capture_output=True).stdout.split()
    return int(line[1]) if line[0] == b"ended" else None


def fill(source, is_too_much):
    """The records that fit, as many as some tries find, and one that is too much after them, or None."""
    kept, too_much, step = [], None, 512
    for _ in range(TRIES):
        more = source[:min(step, MOST_RECORDS - 1 - len(kept))]
        if not more:
            break
        if not is_too_much(kept + more):
            kept, source = kept + more, source[len(more):]
        elif step > 1:
            step //= 2
        else:
            too_much, source = source[0], source[1:]
    return kept, too_much


def make(twin, folder, name, kind, rows, seed):
    mix = MIXES[name]
    sizes = mix.sizes(rows)
    source = records(mix, sizes, kind, random.Random(f"{seed} {name} {kind} {rows}"))

    def is_too_much(kept):
        return settled_to_the_end(twin, block_file(kind, sizes, kept), rows) is None

    kept, too_much = fill(source, is_too_much)
    files = {"ended": kept}
    if too_much:
        files["full"] = kept + [too_much]
    for stand, chosen in files.items():
        with open(os.path.join(folder, f"{name}-{kind}-{rows}-{stand}.blk"), "wb") as out:
            out.write(block_file(kind, sizes, chosen))


def main():
    parser = argparse.ArgumentParser(description=__doc__, formatter_class=argparse.RawDescriptionHelpFormatter)
    parser.add_argument("twin")
    parser.add_argument("folder")
    parser.add_argument("--rows", type=int, nargs="+", default=[256, 1024, 4096])
    parser.add_argument("--mixes", nargs="+", default=list(MIXES), choices=list(MIXES))
    parser.add_argument("--kinds", default="TLO")
    parser.add_argument("--seed", type=int, default=1)
    options = parser.parse_args()
    os.makedirs(options.folder, exist_ok=True)
    for name, kind, rows in itertools.product(options.mixes, options.kinds, options.rows):
        make(options.twin, options.folder, name, kind, rows, options.seed)


if __name__ == "__main__":
    main()
