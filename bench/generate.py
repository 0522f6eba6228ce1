#!/usr/bin/env python3
"""Writes a large trace of a store with four data centres, each of which sees the puts of the others with a delay.

usage: generate.py OPERATIONS CLIENTS KEYS VALUE_BYTES [VIOLATION | lagging] > TRACE

Every put is appended to one log, and the clock of its version is its position in the log. A data centre sees its own puts at once, and those of the others
up to some position of the log. A get returns the newest put on its key that its client's data centre sees, so that the trace is causally convergent.
VIOLATION is one of doubled, no_source, not_above and stale: one violation of that class is added near the end. With `lagging` there is no fault, but each
data centre is 100,000 puts behind the others, so that most gets might be stale and have to be examined.
"""
import random
import struct
import sys

DATA_CENTRES = 4
LAG = 64

FAR_BEHIND = 100_000


def frame(kind, fields):
    return struct.pack(">IB", len(fields) + 1, kind) + fields


def version(clock, node):
    return clock * 65536 + node


class Store:
    """The log of puts, and how much of it each data centre has seen."""

    def __init__(self, keys):
        self.log = []
        self.seen = [0] * DATA_CENTRES
        self.view = [{} for _ in range(DATA_CENTRES)]
        self.keys = keys

    def put(self, centre, client, key):
        raw = version(len(self.log) + 1, centre * 64 + client % 64)
        self.log.append((key, raw))
        self.view[centre][key] = raw
        return raw

    def catch_up(self, centre, place):
        view = self.view[centre]
        for key, raw in self.log[self.seen[centre] : place]:
            if view.get(key, 0) < raw:
                view[key] = raw
        self.seen[centre] = max(self.seen[centre], place)


def value_of(raw, size):
    """The value of a put, which no other put has if the size allows."""
    return (raw.to_bytes(8, "big") * (size // 8 + 1))[:size]


class Writer:
    def __init__(self, out, clients, size):
        self.out, self.size, self.records = out, size, 0
        self.turn = [0] * clients
        out.write(frame(17, struct.pack(">HH", 1, clients)))

    def record(self, kind, client, key, raw):
        name = b"k%d" % key
        fields = struct.pack(">HIB", client, self.turn[client], len(name)) + name
        if raw is not None:
            fields += struct.pack(">H", self.size) + value_of(raw, self.size) + struct.pack(">Q", raw)
        self.out.write(frame(kind, fields))
        self.turn[client] += 1
        self.records += 1

    def put(self, client, key, raw):
        self.record(18, client, key, raw)

    def get(self, client, key, raw):
        self.record(20 if raw is None else 19, client, key, raw)

    def end(self):
        self.out.write(frame(21, struct.pack(">I", self.records)))


def violate(kind, store, writer):
    """Adds one violation by client 0, in data centre 0, on a key that no other operation uses."""
    key = store.keys
    old, new = store.put(0, 0, key), store.put(0, 0, key)
    if kind == "doubled":
        writer.put(0, key, old)
        writer.put(0, key, old)
    elif kind == "no_source":
        writer.get(0, key, old)
    elif kind == "not_above":
        writer.put(0, key, new)
        writer.put(0, key, old)
    else:
        writer.put(0, key, old)
        writer.put(0, key, new)
        writer.get(0, key, old)


def generate(out, operations, clients, keys, size, violation=None, seed=1):
    choose = random.Random(seed)
    store, writer = Store(keys), Writer(out, clients, size)
    behind = FAR_BEHIND if violation == "lagging" else 0
    at = operations - max(1, operations // 100) if violation and not behind else None
    while writer.records < operations:
        if at is not None and writer.records >= at:
            violate(violation, store, writer)
            at = None
        client = choose.randrange(clients)
        centre = client % DATA_CENTRES
        key = choose.randrange(keys)
        if choose.random() < 0.5:
            writer.put(client, key, store.put(centre, client, key))
        else:
            store.catch_up(centre, max(0, len(store.log) - behind - choose.randrange(LAG)))
            writer.get(client, key, store.view[centre].get(key))
    writer.end()


if __name__ == "__main__":
    if len(sys.argv) not in (5, 6):
        sys.exit(__doc__)
    generate(sys.stdout.buffer, *(int(word) for word in sys.argv[1:5]), *sys.argv[5:6])
