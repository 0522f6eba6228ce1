"""Tests of `cops convert`: a trace of either format becomes one of format 2, whose audit and explanation are those of the given trace."""
import glob
import os
import random
import resource
import signal
import subprocess
import tempfile
from concurrent.futures import ThreadPoolExecutor

import plain
from traces import BUILT, LIMITS, ROOT, check, cops, example, trace

TRACES = 500
FORMAT = 6

# A text is written in pieces of at least this many bytes.
PIECE = 262_144


def in_format_2(data):
    """The bytes of a whole trace, with the number of format 2 in its head."""
    return data[:FORMAT] + b"\2" + data[FORMAT + 1 :]


def converted(data):
    """The answer of `cops convert` for these bytes, and the new trace."""
    with tempfile.NamedTemporaryFile(suffix=".trace") as file:
        answer = cops("convert", "-", file.name, stdin=data)
        return answer, file.read()


def count_of(data):
    """The number of operations that the end of a whole trace states."""
    return int.from_bytes(data[-4:], "big")


def examples():
    """Converts each example from a file, from standard input and to standard output."""
    for path in sorted(glob.glob(os.path.join(ROOT, "examples", "*.trace"))):
        name = os.path.basename(path)
        data = example(name)
        line = f"converted: {count_of(data)} operations\n".encode()
        check(f"convert {name}", converted(data), ((0, line, b""), in_format_2(data)))
        with tempfile.NamedTemporaryFile(suffix=".trace") as file:
            check(f"convert {name} by file", cops("convert", path, file.name), (0, line, b""))
            check(f"the new trace of {name}", file.read(), in_format_2(data))
        check(f"convert {name} to standard output", cops("convert", path, "-"), (0, in_format_2(data), line))
        for command in ("audit", "explain"):
            check(f"{command} of {name} and of what it becomes", cops(command, "-", stdin=in_format_2(data)), cops(command, "-", stdin=data))
    two, line = example("put_and_get.trace"), b"converted: 2 operations\n"
    check("a put and a get in format 2", converted(two), ((0, line, b""), bytes.fromhex("000000051100020002") + two[9:]))


def some_trace(seed):
    """The trace of a small random history. Some have long values: in format 2, values that are longer than format 1 allows."""
    number, pick = plain.format_of(seed), random.Random(seed)
    lines = plain.some_lines(seed, number)
    least = LIMITS[1].value + 1 if number == 2 else 2
    return trace(plain.with_long_values(lines, pick.randint(least, LIMITS[number].value)) if pick.random() < 0.2 else lines)


def random_traces():
    """Random traces of both formats: the audits before and after give the same answer."""
    made = [some_trace(seed) for seed in range(TRACES)]
    check("traces with longer values than format 1 allows", sum(len(data) > LIMITS[1].value and data[FORMAT] == 2 for data in made) > 20, True)
    with ThreadPoolExecutor(os.cpu_count() or 2) as pool:
        answers = list(pool.map(converted, made))
    for seed, (data, (answer, new)) in enumerate(zip(made, answers)):
        line = f"converted: {count_of(data)} operations\n".encode()
        check(f"convert a small history, {seed}", (answer, new), ((0, line, b""), in_format_2(data)))
        check(f"the audit of it before and after, {seed}", cops("audit", "-", stdin=new), cops("audit", "-", stdin=data))


def faulty():
    """Bytes that are not a trace get the line of an audit. An existing file for the new trace stays unchanged, and a file that does not exist is not
    created."""
    two, old = example("put_and_get.trace"), b"what was there\n"
    faults = [("no bytes", b""), ("a byte more", two + b"\0"), ("no head", two[9:]), ("format 3", two[:FORMAT] + b"\3" + two[FORMAT + 1 :])]
    for name, data in [*faults, *((f"the first {count} bytes", two[:count]) for count in range(len(two)))]:
        status, line, _ = cops("audit", "-", stdin=data)
        with tempfile.TemporaryDirectory() as folder:
            path = os.path.join(folder, "new")
            check(f"convert of {name}", cops("convert", "-", path, stdin=data), (status, line, b""))
            check(f"no file for {name}", (status, os.listdir(folder)), (2, []))
            with open(path, "wb") as file:
                file.write(old)
            check(f"convert of {name} over a file", cops("convert", "-", path, stdin=data), (2, line, b""))
            with open(path, "rb") as file:
                check(f"the file after {name}", file.read(), old)


def devices():
    """Files that do not exist, or cannot be read or written, and too little memory."""
    path = os.path.join(ROOT, "examples", "stale.trace")
    check("convert of no file", cops("convert", "/nothing/there", "/dev/null"), (4, b"", b"failed: open\n"))
    check("convert to no folder", cops("convert", path, "/nothing/there"), (4, b"", b"failed: open\n"))
    check("convert of a folder", cops("convert", ROOT, "/dev/null"), (4, b"", b"failed: read\n"))
    check("convert to a full device", cops("convert", path, "/dev/full"), (4, b"", b"failed: write\n"))
    with open("/dev/full", "wb") as full:
        check("convert whose answer cannot be printed", cops("convert", path, "/dev/null", stdout=full), (4, None, b"failed: write\n"))
        check("convert to standard output that is full", cops("convert", path, "-", stdout=full), (4, None, b"failed: write\n"))
    value = "v" * 4000
    large = trace(["clients 1"] + [f"0 put k{i} {value} {i + 1}.0" for i in range(5000)])
    for megabytes in (8, 16, 20):
        with tempfile.TemporaryDirectory() as folder:
            new = os.path.join(folder, "new")
            check(f"convert in {megabytes} MB", cops("convert", "-", new, stdin=large, limit=megabytes << 20), (3, b"", b"failed: memory\n"))
            check(f"no file of {megabytes} MB", os.listdir(folder), [])
    with tempfile.NamedTemporaryFile() as file:
        check("convert of a large trace", cops("convert", "-", file.name, stdin=large, limit=256 << 20), (0, b"converted: 5000 operations\n", b""))
        check("the large trace", file.read() == in_format_2(large), True)
    cut_short(large)


def cut_short(data):
    """A file that cannot grow beyond a number of bytes has exactly these first bytes of the new trace, in whichever piece of the text the write failed."""
    wanted = in_format_2(data)
    for most in (0, 1, PIECE - 1, PIECE, PIECE + 1, 3 * PIECE, len(wanted) - 10, len(wanted) - 1):

        def limited():
            signal.signal(signal.SIGXFSZ, signal.SIG_IGN)
            resource.setrlimit(resource.RLIMIT_FSIZE, (most, most))

        with tempfile.NamedTemporaryFile() as file:
            ran = subprocess.run([BUILT, "convert", "-", file.name], input=data, stdout=subprocess.PIPE, stderr=subprocess.PIPE, preexec_fn=limited)
            answer = ran.returncode, ran.stdout, ran.stderr, file.read() == wanted[:most]
        check(f"convert to a file of at most {most} bytes", answer, (4, b"", b"failed: write\n", True))


def words():
    """Both names are required, and no more are allowed. Input that looks like JSON Lines is reported as such."""
    path = os.path.join(ROOT, "examples", "empty.trace")
    for given in (["convert"], ["convert", path], ["convert", path, "-", "more"], ["convert", "--format", "2", path, "-"]):
        status, out, err = cops(*given)
        check(f"usage of {given}", (status, out, err != b""), (2, b"", True))
    ended = subprocess.run([BUILT, "convert", "-", "-"], input=b'{"client":1}\n', stdout=subprocess.PIPE, stderr=subprocess.PIPE)
    expected = b"faulty: bad length at 0\n" + b"this looks like JSON Lines, which `cops import` reads\n"
    check("convert of JSON Lines", (ended.returncode, ended.stdout, ended.stderr), (2, b"", expected))


def conversions():
    examples()
    random_traces()
    faulty()
    devices()
    words()
