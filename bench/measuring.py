"""Builds the programs, and measures what they take."""
import glob
import os
import resource
import statistics
import subprocess
import sys
import tempfile
import time

BENCH = os.path.dirname(os.path.abspath(__file__))
ROOT = os.path.dirname(BENCH)
OUT = os.path.join(BENCH, "out")


def build_twin():
    """Builds the twin, and tries it on all recorded files."""
    os.makedirs(OUT, exist_ok=True)
    built = os.path.join(OUT, "twin")
    source = os.path.join(BENCH, "twin", "main.rs")
    subprocess.run(["rustc", "--edition", "2024", "-O", source, "-o", built], check=True)
    for recorded in glob.glob(os.path.join(ROOT, "crates", "cases", "data", "*.out")):
        with open(recorded, "rb") as expected:
            if output([built], recorded[:-3] + "blk") != expected.read():
                fail(f"the twin does not print {recorded}")
    return built


def build_ours(crate):
    """Proves and builds a program of this repository, by running it on its own example."""
    folder = os.path.join(ROOT, "crates", crate)
    with open(os.path.join(folder, "stdin"), "rb") as example:
        arguments = ["--", "4096"] if crate == "growth" else []
        subprocess.run(["rt", "run", *arguments], cwd=folder, stdin=example, stdout=subprocess.DEVNULL, check=True)
    return os.path.join(folder, "out", crate)


def output(command, path):
    with open(path, "rb") as file:
        return subprocess.run(command, stdin=file, capture_output=True).stdout


def milliseconds(command, path):
    start = time.perf_counter()
    output(command, path)
    return 1000 * (time.perf_counter() - start)


def processor_milliseconds(command, path):
    """What the process took of a processor, whatever else runs beside it."""
    before = resource.getrusage(resource.RUSAGE_CHILDREN)
    output(command, path)
    after = resource.getrusage(resource.RUSAGE_CHILDREN)
    return 1000 * (after.ru_utime + after.ru_stime - before.ru_utime - before.ru_stime)


def medians(commands, path, runs, took=milliseconds):
    """The median of each command's times; the commands take turns, so that a busy machine slows all of them."""
    times = [[took(command, path) for command in commands] for _ in range(runs)]
    return [statistics.median(column) for column in zip(*times)]


def peak_kilobytes(command, path):
    """The largest resident memory, as GNU time tells it: a child of Python would be given Python's own."""
    with tempfile.NamedTemporaryFile("r") as told:
        output(["/usr/bin/time", "-q", "-f", "%M", "-o", told.name, *command], path)
        return int(told.read())


def fail(message):
    print(message)
    sys.exit(1)
