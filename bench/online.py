#!/usr/bin/env python3
"""Compares the online auditor with the judge: the auditor is fed traces of 1,000,000 operations and asked once for the verdict so far.

usage: online.py [--quick]     --quick uses traces of 100,000 operations

Times are processor seconds, the median of five runs, without the time to read the trace. The operations are fed in turns, one of each client, or one client
after the other, so that many reads arrive long before their writes. The ratio is the time to feed and ask, divided by the time of the judge.
"""
import os
import resource
import statistics
import subprocess
import sys
import tempfile

from building import build
from generate import generate

KEYS, VALUE_BYTES, RUNS = 1000, 8, 5


def processor_seconds(*command):
    before = resource.getrusage(resource.RUSAGE_CHILDREN)
    subprocess.run(command, check=True, stdout=subprocess.DEVNULL)
    after = resource.getrusage(resource.RUSAGE_CHILDREN)
    return after.ru_utime + after.ru_stime - before.ru_utime - before.ru_stime


def took(program, path, mode):
    return statistics.median(processor_seconds(program, "online", path, mode) for _ in range(RUNS))


def row(program, operations, clients):
    with tempfile.TemporaryDirectory() as folder:
        path = os.path.join(folder, "trace")
        with open(path, "wb") as file:
            generate(file, operations, clients, KEYS, VALUE_BYTES)
        read = took(program, path, "read")
        times = {mode: took(program, path, mode) - read for mode in ("judge", "feed", "turns", "sessions", "twice")}
    judge = max(1e-9, times["judge"])
    print(
        f"| {operations:,} | {clients:,} | {judge:.2f} | {times['feed']:.2f} | {times['twice'] - times['turns']:.2f} "
        f"| {times['turns'] / judge:.2f} | {times['sessions'] / judge:.2f} |",
        flush=True,
    )


def main():
    operations = 100_000 if "--quick" in sys.argv else 1_000_000
    program = build()
    print("| operations | clients | judge | feed | ask | ratio, in turns | ratio, by sessions |")
    print("|---|---|---|---|---|---|---|")
    for clients in (4, 64, 1000):
        row(program, operations, clients)


if __name__ == "__main__":
    main()
