"""Runs of the program, and what each must come to."""
import re
import resource
import subprocess

SECONDS, MEMORY = 120, 64 << 20
REFUSED = re.compile(rb"refused (\d+) block \d+ record \d+\n")
SETTLED = re.compile(rb"((?:\d+ ){6}\d+\n)*(ended|full) (\d+)\n")


class Wrong(Exception):
    """A run that is not as promised."""


def limited():
    resource.setrlimit(resource.RLIMIT_AS, (MEMORY, MEMORY))
    resource.setrlimit(resource.RLIMIT_CORE, (0, 0))


def run(program, **streams):
    streams = {"stdout": subprocess.PIPE, "stderr": subprocess.PIPE, **streams}
    try:
        done = subprocess.run([program], timeout=SECONDS, preexec_fn=limited, **streams)
    except subprocess.TimeoutExpired:
        raise Wrong(f"has not ended after {SECONDS} seconds")
    if done.stderr:
        raise Wrong(f"wrote to standard error: {done.stderr[:200]}")
    if done.returncode not in (0, 1):
        raise Wrong(f"ended with status {done.returncode}")
    return done.returncode, done.stdout


def told(status, printed):
    """What came out, in a word; only a print that the formats promise has one."""
    refused, settled = REFUSED.fullmatch(printed), SETTLED.fullmatch(printed)
    if refused and status == 1:
        return f"refused {refused[1].decode()}"
    if settled and status == 0 and int(settled[3]) == printed.count(b"\n") - 1:
        return settled[2].decode()
    raise Wrong(f"ended with status {status} and printed {printed[-200:]}")


def nothing_printed(status, printed):
    if (status, printed) != (1, b""):
        raise Wrong(f"ended with status {status} and printed {printed[-200:]}")
    return "status 1"
