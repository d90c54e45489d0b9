#!/usr/bin/env python3
"""Measures `settled` beside the plain Rust twin on generated files, and compares what they print byte by byte.

Usage: run.py [--rows N ...] [--mixes NAME ...] [--kinds TLO] [--runs N] [--seed N] [--ours PROGRAM]

Prints a row for each file, then the worst ratio and the largest memory. Ends with status 1 at the first file on which the two
prints differ.
"""
import argparse
import glob
import os
import subprocess
import sys

from generate import MIXES
from measuring import BENCH, OUT, build_ours, build_twin, fail, medians, output, peak_kilobytes

HEAD = f"{'file':30} {'stand':>6} {'settled':>8} {'ours ms':>10} {'twin ms':>8} {'ratio':>7} {'ours kB':>8}"


def options():
    parser = argparse.ArgumentParser(description=__doc__, formatter_class=argparse.RawDescriptionHelpFormatter)
    parser.add_argument("--rows", type=int, nargs="+", default=[256, 1024, 4096])
    parser.add_argument("--mixes", nargs="+", default=list(MIXES), choices=list(MIXES))
    parser.add_argument("--kinds", default="TLO")
    parser.add_argument("--runs", type=int, default=5)
    parser.add_argument("--seed", type=int, default=1)
    parser.add_argument("--ours", help="the built program, if it is not to be built")
    return parser.parse_args()


def generated(twin, chosen):
    folder = os.path.join(OUT, "files")
    rows = [str(n) for n in chosen.rows]
    subprocess.run([sys.executable, os.path.join(BENCH, "generate.py"), twin, folder, "--rows", *rows, "--mixes",
                    *chosen.mixes, "--kinds", chosen.kinds, "--seed", str(chosen.seed)], check=True)
    # A file that is full at fewer rows is not at the 4,096 of `settled`.
    stands = {n: "*" if n == "4096" else "ended" for n in rows}
    return [path for mix in chosen.mixes for kind in chosen.kinds for n in rows
            for path in sorted(glob.glob(os.path.join(folder, f"{mix}-{kind}-{n}-{stands[n]}.blk")))]


def main():
    chosen = options()
    twin = build_twin()
    ours = os.path.abspath(chosen.ours) if chosen.ours else build_ours("settled")
    ratios, peaks = [], []
    print(HEAD)
    for path in generated(twin, chosen):
        name = os.path.basename(path)
        printed = output([ours], path)
        if printed != output([twin], path):
            fail(f"{name}: the prints differ")
        stand, settled = printed.split()[-2:]
        mine, its = medians([[ours], [twin]], path, chosen.runs)
        ratios.append((mine / its, name))
        peaks.append((peak_kilobytes([ours], path), name))
        print(f"{name:30} {stand.decode():>6} {settled.decode():>8} {mine:10.1f} {its:8.1f} {mine / its:7.2f} {peaks[-1][0]:8}",
              flush=True)
    print("worst ratio {:.2f} on {}".format(*max(ratios)))
    print("largest memory {} kB on {}".format(*max(peaks)))


main()
