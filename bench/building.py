"""Builds the program of the benchmarks, and times commands."""
import os
import subprocess
import time

ROOT = os.path.dirname(os.path.dirname(os.path.abspath(__file__)))


def build():
    """The path of the program of `crates/cops_vectors`, which is first proved and built if a source is newer."""
    crate = os.path.join(ROOT, "crates", "cops_vectors")
    subprocess.run(["rt", "run"], cwd=crate, check=True, stdout=subprocess.DEVNULL, stdin=subprocess.DEVNULL)
    return os.path.join(crate, "out", "cops_vectors")


def seconds(*command, runs=5):
    """The wall time of the fastest run, in seconds."""
    best = None
    for _ in range(runs):
        begun = time.monotonic()
        subprocess.run(command, check=True, stdout=subprocess.DEVNULL)
        took = time.monotonic() - begun
        best = took if best is None else min(best, took)
    return best
