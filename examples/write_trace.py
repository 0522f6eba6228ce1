#!/usr/bin/env python3
"""Writes a trace file from lines of text, one operation per line, in order of arrival.

usage: write_trace.py < OPERATIONS > TRACE

The first line is `clients N`, or `clients N format 2` for a trace of format 2. Then each line is one of
    CLIENT put KEY VALUE VERSION
    CLIENT del KEY VERSION
    CLIENT got KEY VALUE VERSION
    CLIENT gone KEY VERSION
    CLIENT missed KEY
where VERSION is CLOCK.NODE. Only format 2 has deletions, `del`, and gets that found one, `gone`. Lines that begin with # are skipped.
docs/FORMATS.md describes the bytes.
"""
import struct
import sys

TRACE_HEAD, TRACE_PUT, TRACE_GOT, TRACE_MISSED, TRACE_END = 17, 18, 19, 20, 21
TRACE_DEL, TRACE_GONE = 26, 27
KINDS = {"put": TRACE_PUT, "got": TRACE_GOT, "missed": TRACE_MISSED, "del": TRACE_DEL, "gone": TRACE_GONE}
DELETIONS = ("del", "gone")


def frame(kind, fields):
    """A frame: the length of the body in four bytes, then the body, which is the byte of the kind and the fields."""
    body = bytes([kind]) + fields
    return struct.pack(">I", len(body)) + body


def key(text):
    data = text.encode()
    return struct.pack(">B", len(data)) + data


def value(text):
    data = text.encode()
    return struct.pack(">H", len(data)) + data


def version(text):
    clock, node = text.split(".")
    return struct.pack(">Q", int(clock) * 65536 + int(node))


def head_of(words):
    """The number of clients and the format, from the words of the first line."""
    assert words[:1] == ["clients"] and words[2:] in ([], ["format", "1"], ["format", "2"]), "the first line is 'clients N' or 'clients N format 2'"
    return int(words[1]), int(words[3]) if words[2:] else 1


def record(kind, rest):
    """The fields of a record after its name: the key, then the value and the version, if its kind has them."""
    if kind == "missed":
        return key(rest[0])
    if kind in DELETIONS:
        return key(rest[0]) + version(rest[1])
    return key(rest[0]) + value(rest[1]) + version(rest[2])


def trace(lines):
    """The bytes of a trace: its head, a frame for each operation, and its end."""
    words = [line.split() for line in lines if line.strip() and not line.startswith("#")]
    clients, number = head_of(words[0] if words else [])
    text = [frame(TRACE_HEAD, struct.pack(">HH", number, clients))]
    # The index of an operation is the number of earlier operations of its client.
    index = [0] * clients
    for client, kind, *rest in words[1:]:
        assert number == 2 or kind not in DELETIONS, f"'{kind}' is of format 2"
        name = struct.pack(">HI", int(client), index[int(client)])
        index[int(client)] += 1
        text.append(frame(KINDS[kind], name + record(kind, rest)))
    text.append(frame(TRACE_END, struct.pack(">I", len(words) - 1)))
    return b"".join(text)


if __name__ == "__main__":
    sys.stdout.buffer.write(trace(sys.stdin.read().split("\n")))
