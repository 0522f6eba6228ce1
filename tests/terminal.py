"""Tests of the progress lines that a command prints on a terminal while it reads."""
import os
import pty
import subprocess
import sys
import time

sys.dont_write_bytecode = True
from traces import BUILT, check, example  # noqa: E402

# An audit reads for a second before it reports its progress. After this many seconds it has started and read for a second on any machine.
PAUSE_SECONDS = 3


def all_of(terminal):
    """Everything that is written to a terminal, which is then closed."""
    written = b""
    while True:
        try:
            piece = os.read(terminal, 4096)
        except OSError:
            # The other end is closed.
            piece = b""
        if not piece:
            os.close(terminal)
            return written
        written += piece


def slowly(words, data):
    """The status and the output of a command whose input pauses after its first half, and what it wrote to the terminal."""
    terminal, errors = pty.openpty()
    process = subprocess.Popen([BUILT, *words], stdin=subprocess.PIPE, stdout=subprocess.PIPE, stderr=errors)
    os.close(errors)
    with process.stdin as pipe:
        pipe.write(data[: len(data) // 2])
        pipe.flush()
        time.sleep(PAUSE_SECONDS)
        pipe.write(data[len(data) // 2 :])
    out = process.stdout.read()
    written = all_of(terminal)
    return process.wait(), out, written


def last_line(ended):
    """The result of a command, with only the last line that it wrote to the terminal."""
    status, out, written = ended
    return status, out, written[written.rfind(b"\r", 0, written.rfind(b"\r")) :]


def no_words():
    """The terminal output, the status and the output of the program without arguments, whose standard input is that terminal."""
    terminal, other = pty.openpty()
    process = subprocess.Popen([BUILT], stdin=other, stdout=subprocess.PIPE, stderr=other)
    os.close(other)
    written = os.read(terminal, 4096)
    # The end of the input.
    os.write(terminal, b"\x04")
    out = process.stdout.read()
    ended = process.wait()
    os.close(terminal)
    return written, ended, out


def on_a_terminal():
    """A line reports how much was read, and is erased before the answer."""
    whole = example("put_and_get.trace")
    line = b"\r2 operations, 66 bytes\r\x1b[K"
    check("a slow audit", last_line(slowly(["audit", "-"], whole)), (0, b"accepted: 2 operations, 1 puts\n", line))
    so_far = last_line(slowly(["audit", "-", "--so-far"], whole[:57]))
    check("a slow audit so far", so_far, (0, b"cut at 57\nso far: clean\n", b"\r2 operations, 57 bytes\r\x1b[K"))
    bad = whole[:-1] + b"\3"
    check("a slow audit of a faulty trace", last_line(slowly(["audit", "-"], bad)), (2, b"faulty: bad count at 57\n", line))
    check("a slow explanation", last_line(slowly(["explain", "-"], whole)), (0, b"accepted: 2 operations, 1 puts\n", line))
    lines = b'{"client":1,"get":"k","value":null}\n{"client":2,"get":"k","value":null}\n'
    status, out, written = slowly(["import", "-", os.devnull], lines)
    check("a slow import", (status, out), (0, b"client 0 1\nclient 1 2\nimported: 2 operations, 2 clients\n"))
    check("the lines of a slow import", (b"\r\x1b[Kcopying: 2 lines, 72 bytes" in written, written.endswith(b"\r\x1b[K")), (True, True))
    waits = b"waiting for a trace on standard input\r\n"
    check("no words on a terminal", no_words(), (waits, 2, b"faulty: cut at 0\n"))
    check("no words by a pipe", last_line(slowly([], whole)), (0, b"accepted: 2 operations, 1 puts\n", line))
