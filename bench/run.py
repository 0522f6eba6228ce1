#!/usr/bin/env python3
"""Times `cops run` with lists of 10,000 and 100,000 events in three data centres, and prints the ratio of the times.

Times are wall times, the fastest of five runs. Each is also compared with the time of an audit of the recorded trace.
"""
import os
import tempfile

from building import ROOT, seconds
from events import scenario

COPS = os.path.join(ROOT, "cops")


def main():
    print("| events | seconds | events/s | time / audit of the trace | ratio of the times |")
    print("|---|---|---|---|---|")
    first = None
    with tempfile.TemporaryDirectory() as folder:
        for count in (10_000, 100_000):
            path, trace = os.path.join(folder, "events.json"), os.path.join(folder, "events.trace")
            with open(path, "w") as file:
                file.write(scenario(count))
            ran, audited = seconds(COPS, "run", path, trace), seconds(COPS, "audit", trace)
            first = first or ran
            print(f"| {count:,} | {ran:.3f} | {count / ran:,.0f} | {ran / audited:.1f} | {ran / first:.1f} |")


if __name__ == "__main__":
    main()
