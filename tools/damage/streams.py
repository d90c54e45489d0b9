"""Inputs and outputs that fail, never end, or come in pieces. Each answers what came out."""
import os
import resource
import subprocess
import tempfile
import threading

from files import LONGEST
from running import SECONDS, Wrong, nothing_printed, run, told


def empty_input(ours, example):
    return told(*run(ours, stdin=subprocess.DEVNULL))


def endless_device(ours, example):
    with open("/dev/zero", "rb") as zeros:
        return told(*run(ours, stdin=zeros))


def long_file(ours, example):
    """One byte more than the longest sound file is read, and no more."""
    with tempfile.TemporaryFile() as file:
        file.truncate(1 << 30)
        word = told(*run(ours, stdin=file))
        read = os.lseek(file.fileno(), 0, os.SEEK_CUR)
    if read > LONGEST + 1:
        raise Wrong(f"reads {read} bytes")
    return word


def fed(ours, pieces):
    """What comes of input that a pipe brings piece by piece."""
    read, write = os.pipe()

    def feed():
        try:
            for piece in pieces:
                os.write(write, piece)
        except BrokenPipeError:
            pass
        os.close(write)

    feeder = threading.Thread(target=feed)
    feeder.start()
    try:
        return run(ours, stdin=read)
    finally:
        os.close(read)
        feeder.join()


def endless_pipe(ours, example):
    def forever():
        while True:
            yield example[:100]
    return told(*fed(ours, forever()))


def byte_by_byte(ours, example):
    whole = run(ours, input=example)
    if fed(ours, (example[at:at + 1] for at in range(len(example)))) != whole:
        raise Wrong("prints otherwise than for the whole file at once")
    return told(*whole)


def input_is_folder(ours, example):
    folder = os.open("/", os.O_RDONLY)
    try:
        return nothing_printed(*run(ours, stdin=folder))
    finally:
        os.close(folder)


def shell(ours, line, example):
    """The status of the program, which is $0 in a line of shell, and what was printed."""
    line = f"{line}; echo ${{PIPESTATUS[0]}}"
    done = subprocess.run(["bash", "-c", line, ours], input=example, capture_output=True, timeout=SECONDS)
    if done.stderr:
        raise Wrong(f"wrote to standard error: {done.stderr[:200]}")
    *printed, status = done.stdout.split()
    return int(status), b" ".join(printed)


def failing(redirection):
    """A sound file and a refused one, where the input or the output fails."""
    def stream(ours, example):
        nothing_printed(*shell(ours, f'"$0" {redirection}', example[:-1]))
        return nothing_printed(*shell(ours, f'"$0" {redirection}', example))
    return stream


def little_memory(ours, example):
    """Where memory fails nothing is printed; where it suffices, the same as ever."""
    whole = run(ours, input=example)
    for kilobytes in range(150, 1000, 50):
        def limit():
            resource.setrlimit(resource.RLIMIT_DATA, (kilobytes << 10, kilobytes << 10))
        done = subprocess.run([ours], input=example, capture_output=True, timeout=SECONDS, preexec_fn=limit)
        if (done.returncode, done.stdout) != whole:
            nothing_printed(done.returncode, done.stdout)
    return "status 0 or 1"


def reader_gone(ours, example):
    read, write = os.pipe()
    os.close(read)
    try:
        status, _ = run(ours, input=example, stdout=write)
    finally:
        os.close(write)
    return nothing_printed(status, b"")


def reader_of_one_line(ours, example):
    """The reader may take all that is written before it leaves: both statuses are right, a signal is not."""
    status, _ = shell(ours, '"$0" | head -n 1 >/dev/null', example)
    if status not in (0, 1):
        raise Wrong(f"ended with status {status}")
    return "status 0 or 1"


STREAMS = {
    "empty input": empty_input,
    "endless device": endless_device,
    "endless pipe": endless_pipe,
    "long file": long_file,
    "byte by byte": byte_by_byte,
    "input is a folder": input_is_folder,
    "closed input": failing("<&-"),
    "closed output": failing(">&-"),
    "full device": failing(">/dev/full"),
    "reader gone": reader_gone,
    "reader of one line": reader_of_one_line,
    "little memory": little_memory,
}
