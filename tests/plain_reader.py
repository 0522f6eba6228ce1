"""A plain reader of traces: a reference implementation of the tables of docs/FORMATS.md, with which the program is compared on changed traces.

It reads the fields of a frame one after the other, according to a table of kinds. The operations that it reads go to the plain auditor.
"""
import os
import random
import struct
from collections import Counter, namedtuple
from concurrent.futures import ThreadPoolExecutor

import plain
from traces import LIMITS, check, cops, pairs_of, put_after, status_of, trace

CHANGES, LEAST_OF_A_KIND = 2000, 10
LONGEST_KEY, LAST_CLOCK, NODES = 64, (1 << 48) - 1, 1024
HEAD, END = 17, 21
RECORDS = {18: "put", 19: "got", 20: "missed", 26: "del", 27: "gone"}
KINDS_OF_FORMAT_2 = range(22, 28)


class Fault(Exception):
    """What is wrong with the bytes of a trace, and at which byte."""

    def __init__(self, words, at):
        super().__init__(f"{words} at {at}")


# The bytes, where the next field of a frame begins, where the frame ends, and the limits of the format that it is read in.
Place = namedtuple("Place", "data at end limits")


def number(width, least=0, most=None):
    """A field that is a number of `width` bytes, within these limits."""

    def read(place):
        until = place.at + width
        given = int.from_bytes(place.data[place.at : until], "big")
        if until > place.end or given < least or (most is not None and given > most):
            raise Fault("bad field", place.at)
        return given, place._replace(at=until)

    return read


def text(width, least, most):
    """A field that is a length of `width` bytes, followed by that number of bytes."""

    def read(place):
        length, behind = number(width, least, most)(place)
        until = behind.at + length
        if until > place.end:
            raise Fault("bad field", place.at)
        return place.data[behind.at : until], place._replace(at=until)

    return read


def version(place):
    raw, behind = number(8)(place)
    clock, node = divmod(raw, 65_536)
    if clock == 0 or node >= NODES:
        raise Fault("bad field", place.at)
    return (clock, node), behind


def value(place):
    return text(2, 0, place.limits.value)(place)


def deps(place):
    """A number of pairs, each a key and a version, without duplicates. A fault in one of them is a fault of the whole field."""
    try:
        count, behind = number(2, most=place.limits.pairs)(place)
        pairs = []
        for _ in range(count):
            named, behind = key(behind)
            at, behind = version(behind)
            pairs.append((named, at))
    except Fault as fault:
        raise Fault("bad field", place.at) from fault
    if len(set(pairs)) < len(pairs):
        raise Fault("bad field", place.at)
    return pairs, behind


u16, u32, key = number(2), number(4), text(1, 1, LONGEST_KEY)
FIELDS = {
    1: [u16, u16], 2: [number(1, most=15), number(1, 1, 64)], 3: [u32, key, value], 4: [u32, key], 5: [u32, version], 6: [u32, value, version],
    7: [u32], 8: [u32, number(1, 1)], 9: [key, value, version, deps], 10: [u32, key, version], 11: [u32], 12: [u32], 13: [u32, number(1, most=63)],
    14: [u32, number(8, most=LAST_CLOCK), u32, u32, u32], 15: [], 16: [], 17: [u16, u16], 18: [u16, u32, key, value, version],
    19: [u16, u32, key, value, version], 20: [u16, u32, key], 21: [u32], 22: [u32, key], 23: [u32, version], 24: [u32, version],
    25: [key, version, deps], 26: [u16, u32, key, version], 27: [u16, u32, key, version],
}  # fmt: skip


def frame(data, at, format_number):
    """The kind and the fields of the frame that begins at a byte, and where it ends."""
    length, limits = int.from_bytes(data[at : at + 4], "big"), LIMITS[format_number]
    if len(data) >= at + 4 and not 1 <= length <= limits.body:
        raise Fault("bad length", at)
    if len(data) < at + 4 + length or len(data) < at + 4:
        raise Fault("cut", at)
    kind, fields, place = data[at + 4], [], Place(data, at + 5, at + 4 + length, limits)
    if kind not in FIELDS or (kind in KINDS_OF_FORMAT_2 and format_number == 1):
        raise Fault("unknown kind", at)
    for read in FIELDS[kind]:
        given, place = read(place)
        fields.append(given)
    if place.at < place.end:
        raise Fault("trailing bytes", at)
    return kind, fields, place.end


def operation(kind, of):
    """The operation of a record, from its key, and from its value and version if its kind has them."""
    named, rest = of[0], of[1:]
    held = rest.pop(0) if kind in ("put", "got") else None
    return plain.Operation(kind, named, held, rest[0] if rest else None)


def history_of(data):
    """The operations by name of the trace that the bytes encode."""
    kind, fields, at = frame(data, 0, 1)
    if kind != HEAD:
        raise Fault("no head", 0)
    format_number, clients = fields
    if format_number not in (1, 2):
        raise Fault("bad format", 0)
    history, lengths, ended = {}, Counter(), False
    while not ended:
        begins = at
        kind, fields, at = frame(data, begins, format_number)
        ended = kind == END
        if ended:
            if fields[0] != len(history):
                raise Fault("bad count", begins)
        elif kind not in RECORDS:
            raise Fault("not a record", begins)
        else:
            client, index, *of = fields
            if client >= clients:
                raise Fault("client out of range", begins)
            if index != lengths[client]:
                raise Fault("index out of turn", begins)
            history[client, index] = operation(RECORDS[kind], of)
            lengths[client] += 1
    if at < len(data):
        raise Fault("bytes after end", at)
    return history


def answer_of(data):
    """The status and the text of the audit of these bytes."""
    try:
        report = plain.report(history_of(data))
    except Fault as fault:
        return 2, f"faulty: {fault}\n"
    return status_of(report), report


# Frames that are not records: a get, a goodbye, a deletion that a client requests, a head and an end, and puts with as many dependencies as a format allows
# and with one more.
OTHERS = [bytes.fromhex(of) for of in ("0000000704000000010178", "000000010f", "0000000716000000010178", "000000051100020002", "000000051500000000")]
OTHERS += [put_after(pairs_of(limits.pairs + more)) for limits in LIMITS.values() for more in (0, 1)]


def begins_of(data):
    """Where each frame of a trace begins."""
    begins, at = [], 0
    while at < len(data):
        begins.append(at)
        at += 4 + int.from_bytes(data[at : at + 4], "big")
    return begins


def lengths_of(data):
    """The positions of the bytes of all lengths in a trace: those of frames, of keys and of values."""
    places = []
    for at in begins_of(data):
        places += range(at, at + 4)
        kind, key_at = data[at + 4], at + 11
        if kind in RECORDS:
            places.append(key_at)
        if RECORDS.get(kind) in ("put", "got"):
            value_at = key_at + 1 + data[key_at]
            places += [value_at, value_at + 1]
    return places


def with_another(data, pick):
    """The bytes with an added frame that is not a record, between two frames or after the last."""
    at = pick.choice([*begins_of(data)[1:], len(data)])
    return data[:at] + pick.choice(OTHERS) + data[at:]


def with_another_length(data, pick):
    """The bytes with the length of a frame set to the maximum of a format, or to one more."""
    at, length = pick.choice(begins_of(data)), pick.choice([limits.body for limits in LIMITS.values()]) + pick.randrange(2)
    return data[:at] + struct.pack(">I", length) + data[at + 4 :]


def changed(data, lengths, pick):
    """The bytes with one of them, sometimes one of a length, changed, mostly by little, removed or added."""
    at, dice = pick.choice(lengths) if pick.random() < 0.2 else pick.randrange(len(data)), pick.random()
    byte = (data[at] + pick.choice((1, -1, 2, 7))) % 256 if dice < 0.5 else pick.randrange(256)
    if dice < 0.8:
        return data[:at] + bytes([byte]) + data[at + 1 :]
    return data[:at] + data[at + 1 :] if dice < 0.9 else data[:at] + bytes([byte]) + data[at:]


def long_length(pick):
    """The length of a long value: the maximum of a format, one more, or any length that only format 2 allows."""
    limits = [of.value for of in LIMITS.values()]
    return pick.choice([*limits, *(limit + 1 for limit in limits), pick.randint(limits[0] + 1, limits[1])])


def changed_trace(seed):
    """The trace of a small history, rarely with long values, in which one or two bytes or the length of a frame were changed, or to which another frame was
    added."""
    pick, lines = random.Random(seed), plain.some_lines(seed, plain.format_of(seed))
    data = trace(plain.with_long_values(lines, long_length(pick)) if pick.random() < 0.1 else lines)
    dice = pick.random()
    if dice < 0.15:
        return with_another(data, pick) if dice < 0.1 else with_another_length(data, pick)
    lengths = lengths_of(data)
    data = changed(data, lengths, pick)
    return changed(data, lengths, pick) if pick.random() < 0.3 else data


def kind_of(report):
    """The kind of answer for the bytes of a trace: their fault, or the kind of their verdict."""
    return report.split(": ")[1].split(" at ")[0] if report.startswith("faulty: ") else plain.kind_of(report)


KINDS = ("accepted", "no source", "cut", "bad length", "unknown kind", "bad field", "trailing bytes", "not a record",
         "client out of range", "index out of turn", "bad count", "bytes after end")  # fmt: skip


def changed_bytes():
    """The program agrees with the plain reader and the plain auditor on many traces with changed bytes, and each answer occurs often."""
    met, made = Counter(), [changed_trace(seed) for seed in range(CHANGES)]
    with ThreadPoolExecutor(os.cpu_count() or 2) as pool:
        answers = list(pool.map(lambda data: cops("audit", "-", stdin=data), made))
    for seed, (data, answer) in enumerate(zip(made, answers)):
        status, report = answer_of(data)
        met[plain.format_of(seed), kind_of(report)] += 1
        met[plain.format_of(seed), "long"] += status != 2 and len(data) > LIMITS[1].value
        check(f"changed bytes {seed}: {data[:400].hex()}", answer, (status, report.encode(), b""))
    for which in plain.FORMATS:
        for kind in KINDS:
            check(f"changed traces of format {which} that are {kind}: {met[which, kind]}", met[which, kind] >= LEAST_OF_A_KIND, True)
    check(f"changed traces of format 2 that are judged with long values: {met[2, 'long']}", met[2, "long"] >= LEAST_OF_A_KIND, True)
