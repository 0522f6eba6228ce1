#!/usr/bin/env python3
"""Finds one order of all versions for a store that orders versions only key by key, or has none, so that `cops check` can judge its lines.

usage: arbitrate.py [--values] LINES ORDERED

LINES are JSON Lines as docs/FORMATS.md describes them, but versions need to be ordered only among the writes of a key: whole numbers, texts, or lists of
these. With --values there are no versions, and no two puts of a key have the same value. ORDERED are the same lines with a whole number as the version of each
write. It is written only if there is such an order.

Status 0: ORDERED is written. 1: a violation, which is printed. 2: a wrong line or wrong words.
"""
import argparse
import bisect
import json
import os
import sys
from collections import defaultdict


class WrongLine(Exception):
    """A line that is not of the form."""


class Violation(Exception):
    """What no order of versions explains."""


class Operation:
    """An operation of a line. `source` is the write that a get returned, and `is_known` says whether the outcome of a write is. If it is not, nothing says when
    the write took effect, so it has a session of its own."""

    def __init__(self, number, line):
        try:
            self.line = json.loads(line)
            self.client = str(self.line["client"])
            words = [word for word in ("put", "get", "del") if word in self.line]
            self.kind, = words
        except (ValueError, KeyError, TypeError) as fault:
            raise WrongLine(f"line {number}: not one operation of a client") from fault
        self.number, self.key = number, self.line[self.kind]
        self.value, self.version = self.line.get("value"), self.line.get("version")
        self.is_known = "ok" not in self.line or self.line["ok"] is not None
        self.session = (self.client,) if self.is_known else (self.client, number)
        self.source, self.rank = None, None

    def __str__(self):
        return f"line {self.number}: {self.client} {self.kind} {self.key}" + ("" if self.value is None else f"={self.value}")

    @property
    def is_write(self):
        return self.kind != "get"

    @property
    def is_miss(self):
        return self.kind == "get" and self.value is None and self.version is None

    def text(self):
        """The line with its place in the order as its version, if it has one."""
        place = self.rank if self.is_write else self.source and self.source.rank
        version = {} if place is None or self.is_write and not self.is_known else {"version": place}
        return json.dumps({**{name: value for name, value in self.line.items() if name != "version"}, **version}) + "\n"


def read(lines):
    return [Operation(number, line) for number, line in enumerate(lines, 1) if line.strip()]


def known(operations):
    return (it for it in operations if it.is_write and it.is_known)


def find_sources(operations, name_of):
    """Finds the source of each get: the write of its key with its name, which is a version or a value. A write of unknown outcome takes a name that gets
    returned with its content and that no other write has."""
    writes, unknown = {}, defaultdict(list)
    for it in operations:
        if it.is_write and not it.is_known:
            unknown[it.key, it.value].append(it)
    for it in known(operations):
        earlier = writes.setdefault((it.key, name_of(it)), it)
        if earlier is not it:
            raise Violation(f"doubled: two writes are the same\n{earlier}\n{it}")
    for it in operations:
        if it.is_write or it.is_miss:
            continue
        place = it.key, name_of(it)
        if place not in writes and unknown[it.key, it.value]:
            writes[place] = unknown[it.key, it.value].pop(0)
            writes[place].version = it.version
        if place not in writes:
            raise Violation(f"no source: no write has what this get returned\n{it}")
        it.source = writes[place]


def basic_steps(operations):
    """The steps of causality: from an operation to the next one of its session, and from a write to the gets that returned it."""
    latest = {}
    for it in operations:
        if it.session in latest:
            yield latest[it.session], it, "the client's next operation"
        latest[it.session] = it
        if it.source:
            yield it.source, it, "returned that write"


def steps_by_version(operations):
    """From each write of a key to the next one in the order of the key's versions."""
    by_key = defaultdict(list)
    for it in operations:
        if it.is_write and it.version is not None:
            by_key[it.key].append(it)
    for writes in by_key.values():
        writes.sort(key=lambda it: it.version)
        yield from ((earlier, later, "the key's next version") for earlier, later in zip(writes, writes[1:]))


def conflicts(ordered):
    """The conflicts of POPL 2017: a put in the causal past of a get on its key stands before the put that the get returned. Of each client the last such put
    is enough. `ordered` is an order of causality."""
    numbers = {session: number for number, session in enumerate(dict.fromkeys(it.session for it in ordered))}
    # For each operation, how many operations of each session are in its past, itself included. For each key and session the puts, and which operations of the
    # session they are.
    past, latest, lengths = {}, {}, defaultdict(int)
    puts, places = defaultdict(lambda: defaultdict(list)), defaultdict(lambda: defaultdict(list))
    for it in ordered:
        seen = [0] * len(numbers)
        for before in (latest.get(it.session), it.source):
            if before is not None:
                seen = list(map(max, seen, past[before]))
        lengths[it.session] += 1
        seen[numbers[it.session]] = lengths[it.session]
        past[it], latest[it.session] = seen, it
        if it.is_write:
            puts[it.key][it.session].append(it)
            places[it.key][it.session].append(lengths[it.session])
        if it.source:
            counts = {session: seen[numbers[session]] for session in puts[it.key]}
            yield from before_source(it, puts[it.key], places[it.key], counts)


def before_source(get, puts, places, counts):
    """The steps from the last put of each session in the past of a get to the put that it returned. Of each session there are its puts on the key, which of its
    operations they are, and how many of its operations are in the past."""
    for session, of_session in puts.items():
        count = bisect.bisect_right(places[session], counts[session])
        if count and of_session[count - 1] is not get.source:
            yield of_session[count - 1], get.source, f"line {get.number} returned this, and knew of the one before"


def in_order(operations, steps):
    """An order of the operations that all steps agree with. Raises Violation with a cycle if there is none."""
    after, before = defaultdict(list), defaultdict(list)
    for earlier, later, why in steps:
        after[earlier].append(later)
        before[later].append((earlier, why))
    waiting = {it: len(before[it]) for it in operations}
    ordered = [it for it in operations if not waiting[it]]
    for it in ordered:
        for later in after[it]:
            waiting[later] -= 1
            if not waiting[later]:
                ordered.append(later)
    if len(ordered) < len(operations):
        raise Violation(cycle_of(before, {it for it in operations if waiting[it]}))
    return ordered


def cycle_of(before, left):
    """A cycle among operations of which each has one of these before it, in words."""
    it, places, walk = min(left, key=lambda it: it.number), {}, []
    while it not in places:
        places[it] = len(walk)
        earlier, why = next((earlier, why) for earlier, why in before[it] if earlier in left)
        walk.append((it, why))
        it = earlier
    cycle = walk[places[it]:][::-1]
    return "\n".join(["cycle: each of these stands before the next, and the last before the first", *(f"{it}: {why}" for it, why in cycle)])


def arbitrated(operations, by_values):
    """Gives each write its place in one order of all versions."""
    if by_values:
        wrong = next((it for it in operations if it.version is not None or it.kind == "del"), None)
        if wrong:
            raise WrongLine(f"line {wrong.number}: a version or a deletion, with --values")
        find_sources(operations, lambda it: it.value)
        ordered = in_order(operations, basic_steps(operations))
        steps = [*basic_steps(operations), *conflicts(ordered)]
    else:
        wrong = next((it for it in known(operations) if it.version is None), None)
        if wrong:
            raise WrongLine(f"line {wrong.number}: a write without a version")
        find_sources(operations, lambda it: json.dumps(it.version))
        steps = [*basic_steps(operations), *steps_by_version(operations)]
    ordered = in_order(operations, steps)
    for rank, it in enumerate((it for it in ordered if it.is_write), 1):
        it.rank = rank


def main(words):
    asked = argparse.ArgumentParser(description="Finds one order of all versions.")
    asked.add_argument("--values", action="store_true", help="there are no versions, and values are unique per key")
    asked.add_argument("lines")
    asked.add_argument("ordered")
    asked = asked.parse_args(words)
    try:
        if os.path.exists(asked.ordered) and os.path.samefile(asked.lines, asked.ordered):
            raise WrongLine("the two files are one")
        with open(asked.lines, encoding="utf-8") as file:
            operations = read(file)
        arbitrated(operations, asked.values)
    except Violation as fault:
        print(fault)
        return 1
    except (WrongLine, TypeError, UnicodeDecodeError, OSError) as fault:
        print(f"wrong: {fault}", file=sys.stderr)
        return 2
    with open(asked.ordered, "w", encoding="utf-8") as file:
        file.writelines(it.text() for it in operations)
    return 0


if __name__ == "__main__":
    sys.exit(main(sys.argv[1:]))
