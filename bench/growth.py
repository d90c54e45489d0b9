#!/usr/bin/env python3
"""Measures how time grows with the rows, beside the plain Rust twin with as many rows.

Usage: growth.py [--rows N ...] [--mixes NAME ...] [--kind T] [--runs N] [--seed N] [--limit SECONDS] [--explained TIMES]
                 [--ours PROGRAM]

Prints a row for each mix and number of rows. With --explained the twin is not measured: the last settled statement is explained so
often, and beside its number of steps stand the processor's time for the file and for one explanation. A mix whose run takes longer
than the limit is not tried with more rows. Ends with status 1 where the two programs differ in how the run stands or in the number of
settled statements.
"""
import argparse
import os

from generate import MIXES, make
from measuring import OUT, build_ours, build_twin, fail, medians, milliseconds, output, peak_kilobytes, processor_milliseconds

HEAD = f"{'mix':14} {'rows':>6} {'stand':>6} {'settled':>8} {'ours ms':>10} {'twin ms':>8} {'ratio':>7} {'ours kB':>8}"
EXPLAINED = f"{'mix':14} {'rows':>6} {'settled':>8} {'settling ms':>12} {'steps':>6} {'explaining ms':>14}"


def options():
    parser = argparse.ArgumentParser(description=__doc__, formatter_class=argparse.RawDescriptionHelpFormatter)
    parser.add_argument("--rows", type=int, nargs="+", default=[256, 1024, 4096, 16384, 65536])
    parser.add_argument("--mixes", nargs="+", default=["nested", "roles", "everything"], choices=list(MIXES))
    parser.add_argument("--kind", default="T", choices="TLO")
    parser.add_argument("--runs", type=int, default=3)
    parser.add_argument("--seed", type=int, default=1)
    parser.add_argument("--limit", type=float, default=60, help="seconds")
    parser.add_argument("--explained", type=int, default=0, help="times")
    parser.add_argument("--ours", help="the built program, if it is not to be built")
    return parser.parse_args()


def explain(ours, path, mix, rows, chosen):
    """Prints the row of an explanation: its time is what the process takes longer with it."""
    commands = [[ours, str(rows)], [ours, str(rows), str(chosen.explained)]]
    settled, steps = (line.split()[1] for line in output(commands[1], path).decode().splitlines())
    alone, both = medians(commands, path, chosen.runs, processor_milliseconds)
    print(f"{mix:14} {rows:6} {settled:>8} {alone:12.1f} {steps:>6} {(both - alone) / chosen.explained:14.3f}", flush=True)


def grow(ours, twin, path, mix, rows, chosen):
    """Prints the row beside the twin; whether more rows are to be tried."""
    commands = [[ours, str(rows)], [twin, str(rows), "counts"]]
    once = milliseconds(commands[0], path)
    printed, expected = (output(command, path) for command in commands)
    if printed != expected:
        fail(f"{os.path.basename(path)}: {printed} and {expected}")
    stand, settled = printed.decode().split()
    mine, its = medians(commands, path, chosen.runs)
    peak = peak_kilobytes(commands[0], path)
    print(f"{mix:14} {rows:6} {stand:>6} {settled:>8} {mine:10.1f} {its:8.1f} {mine / its:7.2f} {peak:8}", flush=True)
    return once < 1000 * chosen.limit


def main():
    chosen = options()
    twin = build_twin()
    ours = os.path.abspath(chosen.ours) if chosen.ours else build_ours("growth")
    print(EXPLAINED if chosen.explained else HEAD)
    for mix in chosen.mixes:
        for rows in chosen.rows:
            make(twin, OUT, mix, chosen.kind, rows, chosen.seed)
            path = os.path.join(OUT, f"{mix}-{chosen.kind}-{rows}-ended.blk")
            if chosen.explained:
                explain(ours, path, mix, rows, chosen)
            elif not grow(ours, twin, path, mix, rows, chosen):
                break


main()
