#!/usr/bin/env python3
"""Times `cops import` of a million lines, in turn with `sha256sum` of the same file. Prints the ratio of the medians, and the memory for each client beyond
that of an import of no lines, also with a tenth of the lines.
"""
import os
import random
import statistics
import subprocess
import sys
import tempfile
import time

ROOT = os.path.dirname(os.path.dirname(os.path.abspath(__file__)))
COPS = os.path.join(ROOT, "crates", "cops", "out", "cops")
LINES, KEYS, RUNS = 1_000_000, 1_000, 7


def write_lines(path, lines, clients):
    """Writes what the clients of a store saw. Each client occurs, and a get returns the last value that was put."""
    pick, last, clock = random.Random(1), {}, 0
    with open(path, "w") as file:
        for n in range(lines):
            client = n if n < clients else pick.randrange(clients)
            key = pick.randrange(KEYS)
            if key not in last or pick.random() < 0.5:
                clock += 1
                last[key] = clock
            kind = "put" if last[key] == clock else "get"
            file.write(f'{{"client":"client-{client}","{kind}":"key-{key}","value":"{last[key]:08}","version":"{last[key]}.0"}}\n')


def measured(*command):
    """The wall time of a run in seconds, and its peak memory in bytes."""
    begun = time.monotonic()
    process = subprocess.Popen(command, stdout=subprocess.DEVNULL)
    _, status, usage = os.wait4(process.pid, 0)
    if status:
        sys.exit(f"{command} ended with {status}")
    return time.monotonic() - begun, usage.ru_maxrss * 1024


def main():
    print("| lines | clients | time / `sha256sum` | bytes a client | the same with a tenth of the lines |")
    print("|---|---|---|---|---|")
    with tempfile.TemporaryDirectory() as folder:
        path, none, trace = (os.path.join(folder, name) for name in ("lines", "none", "trace"))
        open(none, "w").close()
        _, least = measured(COPS, "import", none, trace)
        for clients in (4, 1_000, 65_535):
            write_lines(path, LINES // 10, clients)
            _, small = measured(COPS, "import", path, trace)
            write_lines(path, LINES, clients)
            times = [(measured(COPS, "import", path, trace), measured("sha256sum", path)) for _ in range(RUNS)]
            imported, summed = (statistics.median(time for time, _ in one) for one in zip(*times))
            memory = max(memory for (_, memory), _ in times)
            print(f"| {LINES:,} | {clients:,} | {imported / summed:.1f} | {(memory - least) / clients:,.0f} | {(small - least) / clients:,.0f} |")


if __name__ == "__main__":
    main()
