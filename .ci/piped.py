"""Runs whose capture comes through a pipe that stands still in the middle; run by none."""
import os
import subprocess
import sys
import threading
import time

import folders  # noqa: F401
from program import built

# How long lines, and the end of a run, are waited for, in seconds.
PATIENCE = 10


def collect(pipe, got):
    while True:
        part = os.read(pipe.fileno(), 65536)
        if not part:
            return
        got += part


def has_come(want, got):
    """Whether this comes, before it is waited for too long."""
    end = time.monotonic() + PATIENCE
    while time.monotonic() < end:
        if bytes(got[: len(want)]) == want:
            return True
        time.sleep(0.005)
    return False


def check(what, words, capture, cut, want, size):
    """The first `cut` bytes of a capture are written in pieces, and these lines have to come."""
    command = [built(), *words]
    whole = subprocess.run(command, input=capture, capture_output=True, check=True).stdout
    run = subprocess.Popen(command, stdin=subprocess.PIPE, stdout=subprocess.PIPE)
    got = bytearray()
    reader = threading.Thread(target=collect, args=(run.stdout, got))
    reader.start()
    for start in range(0, cut, size):
        os.write(run.stdin.fileno(), capture[start : min(start + size, cut)])
    came = has_come(want, got)
    shown = len(got)
    run.stdin.write(capture[cut:])
    run.stdin.close()
    reader.join()
    if run.wait() != 0 or bytes(got) != whole:
        sys.exit(f"{what}: other output than without a pause")
    if not came:
        sys.exit(f"{what}: {shown} bytes came before the pause, and {len(want)} were settled")
    return want.count(b"\n")


def lines_of(words, capture):
    return subprocess.run([built(), *words], input=capture, capture_output=True, check=True).stdout


def ends_with(what, run, status):
    try:
        if run.wait(timeout=PATIENCE) != status:
            sys.exit(f"{what}: status {run.returncode}")
    except subprocess.TimeoutExpired:
        run.kill()
        sys.exit(f"{what}: it runs on")
