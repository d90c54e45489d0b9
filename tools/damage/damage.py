#!/usr/bin/env python3
"""Runs `settled` on thousands of damaged files, and on inputs and outputs that fail.

Usage: tools/damage/damage.py [--each N] [--seed N] [--ours PROGRAM]

The files are damaged copies of those in crates/cases/data. Each run must end in time and in little memory, write nothing to
standard error, and print exactly what the plain Rust twin in bench/twin prints, with the same status. The same seed makes the
same files. Prints how many runs of each sort there were and what came out, then `all clear`; or the first run that is not as
promised, with status 1 (the file is then kept as damaged.blk).
"""
import argparse
import collections
import glob
import os
import random
import subprocess
import sys

from files import DAMAGES
from running import Wrong, run, told
from streams import STREAMS

ROOT = os.path.dirname(os.path.dirname(os.path.dirname(os.path.abspath(__file__))))
sys.path.insert(0, os.path.join(ROOT, "bench"))
from measuring import build_ours, build_twin  # noqa: E402

DATA = os.path.join(ROOT, "crates", "cases", "data")
MOST_PRINT = 20_000  # bytes, of a file that is damaged, so that runs are short


def run_damaged(ours, twin, data):
    mine, its = run(ours, input=data), subprocess.run([twin], input=data, capture_output=True)
    word = told(*mine)
    if mine != (its.returncode, its.stdout):
        raise Wrong(f"printed {mine[1][-200:]} with status {mine[0]}; the twin {its.stdout[-200:]} with {its.returncode}")
    return word


def sound_files():
    for path in sorted(glob.glob(os.path.join(DATA, "*.out"))):
        with open(path, "rb") as file:
            printed = file.read()
        if not printed.startswith(b"refused") and len(printed) <= MOST_PRINT:
            yield path[:-3] + "blk"


def damaged_runs(ours, twin, each, seed):
    bases = list(sound_files())
    for sort, damage in DAMAGES.items():
        rng = random.Random(f"{seed} {sort}")
        came = collections.Counter()
        for _ in range(each):
            with open(rng.choice(bases), "rb") as file:
                data = damage(file.read(), rng)
            try:
                came[run_damaged(ours, twin, data)] += 1
            except Wrong:
                with open("damaged.blk", "wb") as kept:
                    kept.write(data)
                print(f"{sort}: run {came.total() + 1}", end=" ")
                raise
        yield sort, came


def stream_runs(ours):
    with open(os.path.join(DATA, "015.blk"), "rb") as file:
        example = file.read()
    for sort, stream in STREAMS.items():
        try:
            yield sort, collections.Counter([stream(ours, example)])
        except Wrong:
            print(sort, end=": ")
            raise


def main():
    parser = argparse.ArgumentParser(description=__doc__, formatter_class=argparse.RawDescriptionHelpFormatter)
    parser.add_argument("--each", type=int, default=300, help="how many runs of each sort of damage")
    parser.add_argument("--seed", type=int, default=1)
    parser.add_argument("--ours", help="the built program, if it is not to be built")
    options = parser.parse_args()
    ours = os.path.abspath(options.ours) if options.ours else build_ours("settled")
    total = collections.Counter()
    try:
        for runs in (stream_runs(ours), damaged_runs(ours, build_twin(), options.each, options.seed)):
            for sort, came in runs:
                total += came
                words = ", ".join(f"{word}: {count}" for word, count in sorted(came.items()))
                print(f"{sort:28} {came.total():6}  {words}", flush=True)
    except Wrong as wrong:
        print(wrong)
        sys.exit(1)
    print(f"{total.total()} runs, all clear")


main()
