#!/usr/bin/env python3
"""Compares `cops audit -` of a trace that arrives by a pipe in pieces of 100 bytes with `cops audit FILE` of the same trace, and prints the ratio.

usage: pipe.py [--quick]     --quick uses 100,000 operations instead of 1,000,000

Times are wall times, the median of seven runs, in which the two alternate.
"""
import os
import statistics
import subprocess
import sys
import tempfile
import time

from building import ROOT

COPS = os.path.join(ROOT, "cops")
GENERATOR = os.path.join(ROOT, "bench", "generate.py")
PIECE = 100


def by_file(path):
    begun = time.monotonic()
    subprocess.run([COPS, "audit", path], stdout=subprocess.DEVNULL, check=True)
    return time.monotonic() - begun


def by_pipe(path):
    begun = time.monotonic()
    with subprocess.Popen(["dd", f"if={path}", f"bs={PIECE}", "status=none"], stdout=subprocess.PIPE) as writer:
        subprocess.run([COPS, "audit", "-"], stdin=writer.stdout, stdout=subprocess.DEVNULL, check=True)
    return time.monotonic() - begun


def main():
    subprocess.run([COPS, "--help"], stdout=subprocess.DEVNULL, check=True)
    operations = 100_000 if "--quick" in sys.argv else 1_000_000
    print("| operations | clients | by file, seconds | by a pipe / by file |")
    print("|---|---|---|---|")
    for clients in (4, 64, 1000):
        with tempfile.NamedTemporaryFile(suffix=".trace") as file:
            subprocess.run([sys.executable, GENERATOR, str(operations), str(clients), "1000", "8"], stdout=file, check=True)
            times = [(by_file(file.name), by_pipe(file.name)) for _ in range(7)]
        file_time, pipe_time = (statistics.median(each) for each in zip(*times))
        print(f"| {operations:,} | {clients:,} | {file_time:.2f} | {pipe_time / file_time:.2f} |", flush=True)


if __name__ == "__main__":
    main()
