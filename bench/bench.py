#!/usr/bin/env python3
"""Times the audit of large traces, in turn with `cat` and `sha256sum` of the same file, and prints a table.

usage: bench.py [--quick]     --quick uses traces of at most 100,000 operations

Ratios compare medians of seven runs. Memory is the peak resident size of the process, divided by the number of operations; for few operations it is that of
the interpreter that starts the program.
"""
import os
import statistics
import subprocess
import sys
import tempfile
import time

ROOT = os.path.dirname(os.path.dirname(os.path.abspath(__file__)))
COMMAND = os.path.join(ROOT, "cops")
PROGRAMS = os.path.join(ROOT, "crates", "cops", "out", "cops"), os.path.join(ROOT, "release", "cops")
GENERATOR = os.path.join(os.path.dirname(os.path.abspath(__file__)), "generate.py")
RUNS = 7
HEADINGS = "operations", "clients", "keys", "value bytes", "violation", "status", "operations/s", "MB/s", "time / sha256sum", "time / cat", "bytes an operation"


def run(*words):
    """The wall time in seconds, the peak resident size in bytes, and the exit status."""
    begun = time.monotonic()
    child = subprocess.Popen(words, stdout=subprocess.DEVNULL)
    _, status, usage = os.wait4(child.pid, 0)
    return time.monotonic() - begun, usage.ru_maxrss * 1024, os.waitstatus_to_exitcode(status)


def program():
    """The program itself. The command `./cops` first checks whether the program is up to date, which takes longer than the audit of a short trace."""
    subprocess.run([COMMAND, "--help"], stdout=subprocess.DEVNULL, check=True)
    return max(filter(os.path.exists, PROGRAMS), key=os.path.getmtime)


def row(audits, operations, clients, keys, size, violation=None):
    with tempfile.NamedTemporaryFile(suffix=".trace") as file:
        words = [sys.executable, GENERATOR, str(operations), str(clients), str(keys), str(size)]
        subprocess.run(words + ([violation] if violation else []), stdout=file, check=True)
        length = os.path.getsize(file.name)
        commands = ("cat", file.name), ("sha256sum", file.name), (audits, "audit", file.name)
        rounds = [[run(*words) for words in commands] for _ in range(RUNS)]
    cat, digest, audit = (statistics.median(one[n][0] for one in rounds) for n in range(3))
    peak, status = max(one[2][1] for one in rounds), rounds[0][2][2]
    print(
        f"| {operations:,} | {clients:,} | {keys:,} | {size:,} | {violation or 'none'} | {status} "
        f"| {operations / audit:,.0f} | {length / audit / 1e6:,.1f} | {audit / digest:.1f} | {audit / cat:.0f} "
        f"| {peak / operations:,.0f} |",
        flush=True,
    )


def main():
    audits = program()
    print(f"| {' | '.join(HEADINGS)} |")
    print("|---" * len(HEADINGS) + "|")
    most = 100_000 if "--quick" in sys.argv else 1_000_000
    for keys in (1_000, 100_000):
        for clients in (4, 64, 1_000):
            row(audits, most, clients, keys, 8)
    for clients in (4, 64, 1_000):
        row(audits, most // 10 * 3, clients, 1_000, 1_024)
    for violation in ("doubled", "no_source", "not_above", "stale"):
        row(audits, most, 64, 1_000, 8, violation)
    for operations in (100_000, 10_000):
        row(audits, operations, 64, 1_000, 8)


if __name__ == "__main__":
    main()
