#!/usr/bin/env python3
"""Times `cops run` of scripted clients on threads, until each put is settled everywhere and the run is tied to its trace. Compares it with a world on one
thread that applies the events of such clients, and with a plain program in Rust that does what the run does for the same scripts (`plain_run.rs`).

usage: scripts.py [--quick]     --quick uses scripts of 1,000 operations

Each client has a script of 10,000 puts and gets of 100 keys. Times are wall times without two parts: reading the scenario, which is measured with a text that
lacks its last byte, and the audit of the trace, which the run makes at its end. Each column is the median of seven rounds. An operation causes several events:
a put is delivered to each other data centre, and asked about, marked and settled there. The last columns are the rate of the run divided by that of the world,
both in operations, the time of the run divided by that of the plain program, and the number of cores that the run kept busy. Without `rustc` the plain program
is left out.
"""
import json
import os
import random
import resource
import shutil
import statistics
import subprocess
import sys
import tempfile
import time

from building import ROOT, build
from events import lines

COPS = os.path.join(ROOT, "cops")
ROUNDS, KEYS, PUTS, EVENTS = 7, 100, 0.5, 100_000


def scripts(clients, data_centres, operations):
    """A scenario, and the same scripts as lines for the plain program."""
    pick = random.Random(clients * 100 + data_centres)

    def operation(n):
        key = f"k{pick.randrange(KEYS)}"
        return {"put": [key, str(n)]} if pick.random() < PUTS else {"get": key}

    members = [{"at": n % data_centres, "script": [operation(n) for n in range(operations)]} for n in range(clients)]
    plain = [f"{n} {it['at']} {' '.join(one.get('put') or [one['get']])}\n" for n, it in enumerate(members) for one in it["script"]]
    return json.dumps({"data_centres": data_centres, "clients": members}), "".join(plain)


def plain_program(folder):
    """Builds the plain program in a directory and returns its path, or None if there is no `rustc`."""
    if not shutil.which("rustc"):
        return None
    program, source = os.path.join(folder, "plain_run"), os.path.join(ROOT, "bench", "plain_run.rs")
    subprocess.run(["rustc", "-O", "--edition", "2021", "-o", program, source], check=True)
    return program


def took(status, *command):
    """The wall seconds, the processor seconds and the output of a command, which must end with this status."""
    before, begun = resource.getrusage(resource.RUSAGE_CHILDREN), time.monotonic()
    ran = subprocess.run(command, stdout=subprocess.PIPE, stderr=subprocess.DEVNULL)
    wall, after = time.monotonic() - begun, resource.getrusage(resource.RUSAGE_CHILDREN)
    if ran.returncode != status:
        sys.exit(f"{' '.join(command)}: status {ran.returncode}, not {status}")
    return wall, after.ru_utime + after.ru_stime - before.ru_utime - before.ru_stime, ran.stdout


def run_round(scenario, cut, trace, operations):
    """The operations per second of a run, and the number of cores that it keeps busy."""
    whole, read, audited = took(0, COPS, "run", scenario, trace), took(2, COPS, "run", cut, os.devnull), took(0, COPS, "audit", trace)
    wall, busy = (whole[at] - read[at] - audited[at] for at in (0, 1))
    return operations / max(1e-9, wall), busy / max(1e-9, wall)


def plain_round(plain, *of):
    """The operations per second of the plain program."""
    if not plain:
        return float("nan")
    _, _, output = took(0, plain, *of)
    return int(output.split()[0]) / float(output.split()[3])


def world_round(program, events, *of):
    """The operations per second of a world, and the events per second."""
    wall, _, output = took(0, program, "world", events, "run", *of)
    read, _, _ = took(0, program, "world", events, "read", *of)
    operations, applied = (int(output.split()[at]) for at in (0, 3))
    return operations / max(1e-9, wall - read), applied / max(1e-9, wall - read)


def row(programs, folder, clients, data_centres, operations):
    paths = scenario, cut, trace, events, lines_of = [os.path.join(folder, it) for it in ("s.json", "cut.json", "s.trace", "events", "lines")]
    (text, plain), of = scripts(clients, data_centres, operations), (str(data_centres), str(clients))
    for path, content in zip(paths, (text, text[:-1], "", lines(EVENTS, data_centres, clients, KEYS, 1, PUTS), plain)):
        with open(path, "w") as file:
            file.write(content)
    rounds = [
        (
            *run_round(scenario, cut, trace, clients * operations),
            plain_round(programs[1], lines_of, of[0]),
            *world_round(programs[0], events, *of),
        )
        for _ in range(ROUNDS)
    ]
    rate, cores, plain, world, its_events = map(statistics.median, zip(*rounds))
    by_world, by_plain = (statistics.median(it) for it in zip(*((one[0] / one[3], one[2] / one[0]) for one in rounds)))
    rates = f"{rate:,.0f} | {plain:,.0f} | {world:,.0f} | {its_events:,.0f}"
    print(f"| {clients} | {data_centres} | {rates} | {by_world:.2f} | {by_plain:.2f} | {cores:.1f} |", flush=True)


def main():
    operations = 1_000 if "--quick" in sys.argv else 10_000
    program = build()
    print("| clients | data centres | operations/s | the plain program's | the world's | its events/s | run / world | time / plain | cores |")
    print("|---|---|---|---|---|---|---|---|---|")
    with tempfile.TemporaryDirectory() as folder:
        programs = program, plain_program(folder)
        for clients in (1, 2, 6, 12):
            for data_centres in (1, 2, 3):
                row(programs, folder, clients, data_centres, operations)


if __name__ == "__main__":
    main()
