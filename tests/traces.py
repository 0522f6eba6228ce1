"""Helpers that the tests of the running program share: running it, comparing results, and making traces and scenarios."""
import json
import os
import re
import resource
import struct
import subprocess
import sys
import tempfile
import threading
import time
from collections import namedtuple

ROOT = os.path.dirname(os.path.dirname(os.path.abspath(__file__)))
sys.dont_write_bytecode = True
sys.path[:0] = [os.path.join(ROOT, "examples"), os.path.join(ROOT, "bench")]
from write_trace import frame, key, trace, value, version  # noqa: E402, F401

counts = {"passed": 0, "failed": 0, "skipped": 0}

# The program itself, without the script that checks whether it is up to date.
BUILT = os.path.join(ROOT, "crates", "cops", "out", "cops")

# The version of the program, whose one place is the text that it prints.
with open(os.path.join(ROOT, "crates", "cops_command_line", "src", "texts.rt"), encoding="utf-8") as texts:
    VERSION = re.search(r'VERSION: &str = "(\S+) ', texts.read())[1]

# How long a pipe stalls, in seconds.
STALL = 0.001

# The limits of each format: the maximum number of bytes of a value, of pairs of dependencies and of a context, and of bytes of a frame's body.
Limits = namedtuple("Limits", "value pairs body")
LIMITS = {1: Limits(4_096, 256, 32_768), 2: Limits(16_384, 1_024, 131_072)}

# The kinds of the messages that replicate a put and a deletion to another data centre.
PUT_AFTER, DEL_AFTER = 9, 25


def cops(*words, stdin=b"", stdout=subprocess.PIPE, limit=None):
    """Status, output and errors of a run, with at most `limit` bytes of memory if a limit is given. A trace from standard input is given once more by a pipe
    that stalls: if the two answers differ, both are returned, which no test expects."""

    def limited():
        resource.setrlimit(resource.RLIMIT_AS, (limit, limit))

    before = limited if limit else None
    ran = subprocess.run([BUILT, *words], input=stdin, stdout=stdout, stderr=subprocess.PIPE, preexec_fn=before)
    answer = ran.returncode, ran.stdout, ran.stderr
    if limit or stdout != subprocess.PIPE or not stdin or words[:1] not in ((), ("audit",), ("show",)):
        return answer
    stalled = by_stalling_pipe(words, four_pieces(stdin))
    return answer if stalled == answer else (answer, "by a pipe that stalls", stalled)


def four_pieces(data):
    """The data in four pieces, of which the first is one byte and most end inside a record."""
    return data[:1], data[1:8], data[8 : len(data) // 2], data[max(8, len(data) // 2) :]


def by_stalling_pipe(words, pieces):
    """Status, output and errors of a run whose input arrives in pieces, with a pause before each."""
    process = subprocess.Popen([BUILT, *words], stdin=subprocess.PIPE, stdout=subprocess.PIPE, stderr=subprocess.PIPE)

    def feed():
        try:
            with process.stdin as pipe:
                for piece in pieces:
                    time.sleep(STALL)
                    pipe.write(piece)
                    pipe.flush()
        except BrokenPipeError:
            # The program has already answered.
            pass

    feeding = threading.Thread(target=feed)
    feeding.start()
    out = process.stdout.read()
    errors = process.stderr.read()
    feeding.join()
    return process.wait(), out, errors


def ran(text):
    """The answer of `cops run` for the scenario, and the trace that it writes."""
    with tempfile.NamedTemporaryFile(suffix=".trace") as file:
        answer = cops("run", "-", file.name, stdin=text)
        return answer, file.read()


def events(*given, data_centres=1, clients=({"at": 0},), **more):
    """A scenario with these events."""
    return json.dumps({"data_centres": data_centres, "clients": list(clients), "events": list(given), **more}).encode()


def outcomes_of(*given, **more):
    """The outcomes of a scenario's events, without the report."""
    (status, out, err), _ = ran(events(*given, **more))
    lines = out.decode().split("\n")[: len(given)]
    return status, [line.split(" ", 1)[1] for line in lines], err


def scripted(*scripts, data_centres=1, **more):
    """A scenario whose clients have these scripts, each in the next data centre."""
    clients = [{"at": n % data_centres, "script": script} for n, script in enumerate(scripts)]
    return json.dumps({"data_centres": data_centres, "clients": clients, **more}).encode()


def pairs_of(count):
    """A list of `count` different pairs of dependencies."""
    return [(str(n), "1.0") for n in range(count)]


def deps(pairs):
    return struct.pack(">H", len(pairs)) + b"".join(key(named) + version(at) for named, at in pairs)


def put_after(pairs, on="x", text=""):
    """The message that replicates a put with these dependencies to another data centre."""
    return frame(PUT_AFTER, key(on) + value(text) + version("9.0") + deps(pairs))


def del_after(pairs):
    """The message that replicates a deletion with these dependencies to another data centre."""
    return frame(DEL_AFTER, key("x") + version("9.0") + deps(pairs))


def check(name, got, wanted):
    if got == wanted:
        counts["passed"] += 1
    else:
        counts["failed"] += 1
        print(f"FAILED {name}\n  got    {str(got)[:500]}\n  wanted {str(wanted)[:500]}")


def audited(name, data, text, status):
    """The audit of the trace is the same without words, with `-` and with a file."""
    wanted = (status, text.encode(), b"")
    check(f"{name}, no words", cops(stdin=data), wanted)
    check(f"{name}, audit -", cops("audit", "-", stdin=data), wanted)
    with tempfile.NamedTemporaryFile(suffix=".trace") as file:
        file.write(data)
        file.flush()
        check(f"{name}, by file", cops("audit", file.name), wanted)


def skip(name, why):
    """Counts a test that cannot run on this machine."""
    counts["skipped"] += 1
    print(f"SKIPPED {name}: {why}")


def ended():
    """Prints how many tests passed, failed and, if there are any, were skipped, and returns the exit status."""
    skipped = f", {counts['skipped']} skipped" if counts["skipped"] else ""
    print(f"{counts['passed']} passed, {counts['failed']} failed{skipped}")
    return 1 if counts["failed"] else 0


def example(name):
    with open(os.path.join(ROOT, "examples", name), "rb") as file:
        return file.read()


def row(path):
    """The lines of the operations of a test case, and the text of their audit, which follows the line `says`."""
    with open(path, encoding="utf-8") as file:
        operations, text = file.read().split("\nsays\n")
    return operations.split("\n"), text


def status_of(text):
    """The status of an audit with this text."""
    return 0 if text.startswith("accepted: ") else 1
