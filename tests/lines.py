#!/usr/bin/env python3
"""Tests of gets that found nothing in the lines of an import: such a line has to say so.

Prints a line for each test that fails, and at the end `N passed, M failed`.
"""
import os
import sys
import tempfile

sys.dont_write_bytecode = True
from traces import check, cops, ended, trace  # noqa: E402

FOUND_NOTHING = [
    b'{"client":1,"get":"k","value":null}',
    b'{"client":1,"get":"k","value":null,"version":null}',
    b'{"version":null,"value":null,"get":"k","client":"1","at":0}',
    b'{"client":1,"get":"k","value":"x","value":null}',
    b'{"client":1,"get":"k","val\\u0075e":null}\r',
]

WRONG = [
    (b'{"client":1,"get":"k"}', "bad value"),
    (b'{"client":1,"get":"k","version":null}', "bad value"),
    (b'{"client":1,"get":"k","version":1}', "bad value"),
    (b'{"client":1,"get":"k","vaule":"x","version":1}', "bad value"),
    (b'{"client":1,"get":"k","vaule":null}', "bad value"),
    (b'{"client":1,"get":"k","Value":null}', "bad value"),
    (b'{"client":1,"get":"k","value":null,"version":1}', "needs format 2"),
    (b'{"client":1,"get":"k","value":null,"version":false}', "bad version"),
    (b'{"client":1,"get":"k","value":false}', "bad value"),
    (b'{"client":1,"get":"k","value":[]}', "bad value"),
    (b'{"client":1,"get":"k","value":null,"value":"x"}', "bad version"),
    (b'{"client":1,"get":"k","value":"x"}', "bad version"),
    (b'{"client":1,"get":"k","value":"","verison":1}', "bad version"),
    (b'{"client":1,"put":"k","value":null,"version":1}', "bad value"),
    (b'{"client":1,"put":"k","value":null}', "bad value"),
    (b'{"client":1,"get":"","value":null}', "bad key"),
    (b'{"get":"k","value":null}', "no client"),
]


def imported(data):
    """The answer of an import, and the trace that it leaves, or None."""
    with tempfile.TemporaryDirectory() as folder:
        path = os.path.join(folder, "trace")
        answer = cops("import", "-", path, stdin=data)
        if not os.path.exists(path):
            return answer, None
        with open(path, "rb") as file:
            return answer, file.read()


if __name__ == "__main__":
    expected, missed = b"client 0 1\nimported: 1 operations, 1 clients\n", trace(["clients 1", "0 missed k"])
    for line in FOUND_NOTHING:
        check(f"a get that found nothing: {line}", imported(line + b"\n"), ((0, expected, b""), missed))
    for line, words in WRONG:
        for before, number in ((b"", 1), (FOUND_NOTHING[0] + b"\n\n", 3)):
            wanted = (2, f"faulty: line {number}: {words}\n".encode(), b""), None
            check(f"line {number}, {words}: {line}", imported(before + line + b"\n"), wanted)
    sys.exit(ended())
