#!/usr/bin/env python3
"""Times a world that applies 100,000 and 1,000,000 events, without scenario files and reports, and prints the rates.

usage: world.py [--quick]     --quick uses 10,000 and 100,000 events

Times are wall times, the fastest of five runs, without the time to read the events.
"""
import os
import sys
import tempfile

from building import build, seconds
from events import lines

DATA_CENTRES, CLIENTS = 3, 6


def rate(program, count, folder):
    path = os.path.join(folder, "events.txt")
    with open(path, "w") as file:
        file.write(lines(count, DATA_CENTRES, CLIENTS))
    took = [seconds(program, "world", path, mode, str(DATA_CENTRES), str(CLIENTS)) for mode in ("run", "read")]
    return count / max(1e-9, took[0] - took[1])


def main():
    counts = (10_000, 100_000) if "--quick" in sys.argv else (100_000, 1_000_000)
    print("| events | events/s | ratio of the rates |")
    print("|---|---|---|")
    with tempfile.TemporaryDirectory() as folder:
        program, first = build(), None
        for count in counts:
            found = rate(program, count, folder)
            first = first or found
            print(f"| {count:,} | {found:,.0f} | {found / first:.2f} |", flush=True)


if __name__ == "__main__":
    main()
