#!/usr/bin/env python3
"""Times `cops audit` with one, two and four workers: on accepted traces with values of 8 and of 1,024 bytes, on one with a stale get, and on one whose
data centres lag far behind. Prints the time of one worker, and the ratios of the other times to it.

usage: workers.py [--quick]     --quick uses 100,000 operations instead of 1,000,000

Times are wall times, the median of five runs, in which the numbers of workers alternate.
"""
import os
import statistics
import subprocess
import sys
import tempfile
import time

from building import ROOT

COPS = os.path.join(ROOT, "cops")
GENERATOR = os.path.join(ROOT, "bench", "generate.py")
WORKERS = (1, 2, 4)


def took(path, workers):
    begun = time.monotonic()
    subprocess.run([COPS, "audit", path, "--workers", str(workers)], stdout=subprocess.DEVNULL)
    return time.monotonic() - begun


def medians(path):
    """The median time for each number of workers."""
    times = {workers: [] for workers in WORKERS}
    for _ in range(5):
        for workers in WORKERS:
            times[workers].append(took(path, workers))
    return [statistics.median(times[workers]) for workers in WORKERS]


def row(operations, size, violation=None):
    with tempfile.NamedTemporaryFile(suffix=".trace") as file:
        words = [sys.executable, GENERATOR, str(operations), "64", "1000", str(size)]
        subprocess.run(words + ([violation] if violation else []), stdout=file, check=True)
        one, two, four = medians(file.name)
    print(f"| {operations:,} | {size:,} | {violation or 'none'} | {one:.2f} | {two / one:.2f} | {four / one:.2f} |", flush=True)


def main():
    subprocess.run([COPS, "--help"], stdout=subprocess.DEVNULL, check=True)
    operations = 100_000 if "--quick" in sys.argv else 1_000_000
    print("| operations | value bytes | violation | 1 worker, seconds | 2 workers / 1 | 4 workers / 1 |")
    print("|---|---|---|---|---|---|")
    row(operations, 8)
    row(operations, 1024)
    row(operations, 8, "stale")
    row(operations, 8, "lagging")


if __name__ == "__main__":
    main()
