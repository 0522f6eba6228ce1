"""Tests of `cops audit --so-far`, which gives the verdict so far on a trace that may be cut."""
import os
import sys
import tempfile

sys.dont_write_bytecode = True
from traces import ROOT, check, cops, example, trace  # noqa: E402

CONFLICT = b"""error: the argument '--so-far' cannot be used with '--workers <N>'

Usage: cops audit --so-far <TRACE>

For more information, try '--help'.
"""


def asked(name, data, text, status):
    """The audit of the trace is the same from standard input and from a file, wherever the option is."""
    wanted = (status, text.encode(), b"")
    check(f"{name}, by standard input", cops("audit", "-", "--so-far", stdin=data), wanted)
    with tempfile.NamedTemporaryFile(suffix=".trace") as file:
        file.write(data)
        file.flush()
        check(f"{name}, by file", cops("audit", file.name, "--so-far"), wanted)
        check(f"{name}, the option first", cops("audit", "--so-far", file.name), wanted)


def cut():
    """Where a trace is cut, and the verdict so far on the whole records before that."""
    two, first, stale = (example(f"{name}.trace") for name in ("put_and_get", "get_recorded_first", "stale"))
    asked("no bytes", b"", "cut at 0\nso far: clean\n", 0)
    asked("all bytes but the last", two[:-1], "cut at 57\nso far: clean\n", 0)
    asked("a get before its put", first[:33], "cut at 33\nso far: waiting 1\n", 0)
    asked("a stale get without the end", stale[:-9], "cut at 129\nso far: refused\n", 1)
    for count in range(len(first)):
        at = 0 if count < 9 else 9 if count < 33 else 33 if count < 57 else 57
        said = "waiting 1" if at == 33 else "clean"
        wanted = (0, f"cut at {at}\nso far: {said}\n".encode(), b"")
        check(f"what is said of the first {count} bytes", cops("audit", "-", "--so-far", stdin=first[:count]), wanted)


def whole():
    """A whole trace, and one with a fault other than a cut, get the same answer as without the option."""
    for name in ("empty", "put_and_get", "no_source", "doubled", "not_above", "stale"):
        data = example(f"{name}.trace")
        status, text, _ = cops("audit", "-", stdin=data)
        check(f"{name} is not cut", (status, text.startswith((b"accepted: ", b"refused: "))), (status, True))
        asked(name, data, text.decode(), status)
    asked("a byte after the end", example("empty.trace") + b"\0", "faulty: bytes after end at 18\n", 2)
    asked("no head", bytes.fromhex("000000051500000000"), "faulty: no head at 0\n", 2)


def words():
    """The option cannot be combined with a number of workers."""
    path = os.path.join(ROOT, "examples", "put_and_get.trace")
    for given in (["--so-far", "--workers", "2", path], ["--workers", "1", path, "--so-far"], [path, "--so-far", "--workers=64"]):
        check(f"usage of audit {given}", cops("audit", *given), (2, b"", CONFLICT))
    for given in (["audit", "--so-far"], ["audit", "--so-far=no", path], ["show", "--so-far", path], ["audit", "--so-far", "--workers", "0", path]):
        status, out, err = cops(*given)
        check(f"usage of {given}", (status, out, err != b"", err == CONFLICT), (2, b"", True, False))
    check("help of --so-far", b"--so-far" in cops("audit", "--help")[1], True)


def devices():
    check("no such file, so far", cops("audit", "/nothing/there", "--so-far"), (4, b"", b"failed: open\n"))
    check("a folder, so far", cops("audit", ROOT, "--so-far"), (4, b"", b"failed: read\n"))
    with open("/dev/full", "wb") as full:
        check("a cut trace to a full device", cops("audit", "-", "--so-far", stdout=full), (4, None, b"failed: write\n"))


def little_memory():
    """When the program is out of memory it reports that, and writes nothing else; with enough memory it answers."""
    value = "v" * 4000
    data = trace(["clients 2"] + [f"0 put k{i} {value} {i + 1}.0" for i in range(5000)] + ["1 got k9 " + value + " 10.0"])[:-9]
    enough = (0, f"cut at {len(data)}\nso far: clean\n".encode(), b"")
    refused = (3, b"", b"failed: memory\n")
    answers = [cops("audit", "-", "--so-far", stdin=data, limit=megabytes << 20) for megabytes in (16, 32, 48, 64, 256)]
    for answer in answers:
        check("a cut trace with little memory", answer in (enough, refused), True)
    check("the least memory is too little for it", answers[0], refused)
    check("the most memory is enough for it", answers[-1], enough)


def cut_traces():
    cut()
    whole()
    words()
    devices()
    little_memory()
