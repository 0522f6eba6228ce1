#!/usr/bin/env python3
"""Tests of the running program: each runs `cops` and compares its output and its status.

Prints a line for each test that fails, and at the end `N passed, M failed`.
"""
import json
import os
import random
import resource
import subprocess
import sys
import tempfile

sys.dont_write_bytecode = True
import plain  # noqa: E402
import plain_cluster  # noqa: E402
import plain_reader  # noqa: E402
from arbitrate import arbitrate  # noqa: E402
from checks import checks  # noqa: E402
from conversions import conversions  # noqa: E402
from deletions import deletions  # noqa: E402
from cut_traces import cut_traces  # noqa: E402
from large_traces import each_kind, generated, little_memory, long_chain, long_traces, many_rounds, many_suspects  # noqa: E402
from pictures import pictures  # noqa: E402
from postgresql import postgresql  # noqa: E402
from ranks import ranks  # noqa: E402
from redis import redis  # noqa: E402
from traces import BUILT, LIMITS, ROOT, VERSION, audited, by_stalling_pipe, check, cops, ended, example, ran, skip, trace  # noqa: E402
from traces import events, outcomes_of, scripted  # noqa: E402
from events import scenario  # noqa: E402
from following import following  # noqa: E402
from imports import imports  # noqa: E402
from limits import limits  # noqa: E402
from named import definition_files, mutations  # noqa: E402
from outcomes import outcomes  # noqa: E402
from sessions import idle_clients, listens_here_alone, replies, sent_behind, served, served_deletions, strange_peers  # noqa: E402
from serving import serving  # noqa: E402
from terminal import on_a_terminal  # noqa: E402


# The error if both of these options of `explain` are given.
ALL_WITH_FAULT = b"""error: the argument '--all' cannot be used with '--fault <N>'

Usage: cops explain --all <TRACE>

For more information, try '--help'.
"""

TRACES = [
    ("empty", 0, "accepted: 0 operations, 0 puts\n"),
    ("put_and_get", 0, "accepted: 2 operations, 1 puts\n"),
    ("get_recorded_first", 0, "accepted: 2 operations, 1 puts\n"),
    ("no_source", 1, "refused: 1 operations, 0 puts, 1 faults\nno source (1,0) at 1.0\n"),
    ("doubled", 1, "refused: 5 operations, 3 puts, 2 faults\ndoubled (0,0) at 1.0\ndoubled (1,0) at 1.0\n"),
    ("not_above", 1, "refused: 4 operations, 2 puts, 1 faults\nnot above (0,1) at 1.0, earlier (0,0) at 1.64\n"),
    (
        "stale",
        1,
        "refused: 5 operations, 3 puts, 1 faults\n"
        "stale (1,1) returned 1.0, newer (0,1) at 2.0, chain (0,1) (0,2) (1,0) (1,1)\n",
    ),
    (
        "stale_missed",
        1,
        "refused: 5 operations, 3 puts, 1 faults\n"
        "stale (1,1) returned nothing, newer (0,1) at 2.0, chain (0,1) (0,2) (1,0) (1,1)\n",
    ),
    (
        "two_orders",
        1,
        "refused: 7 operations, 2 puts, 1 faults\n"
        "stale (3,1) returned 1.0, newer (1,0) at 1.64, chain (1,0) (3,0) (3,1)\n",
    ),
    ("one_order", 0, "accepted: 6 operations, 2 puts\n"),
    ("deleted", 0, "accepted: 5 operations, 3 puts\n"),
    (
        "stale_deleted",
        1,
        "refused: 5 operations, 3 puts, 1 faults\n"
        "stale (1,1) returned 1.0, newer (0,1) at 2.0, chain (0,1) (0,2) (1,0) (1,1)\n",
    ),
]


def examples():
    for name, status, text in TRACES:
        data = example(f"{name}.trace")
        lines = example(f"{name}.ops").decode().split("\n")
        check(f"{name}.trace is what the writer makes of {name}.ops", trace(lines), data)
        audited(name, data, text, status)
        by_script = subprocess.run([os.path.join(ROOT, "cops"), "audit", "-"], input=data, capture_output=True)
        check(f"{name} by ./cops", (by_script.returncode, by_script.stdout, by_script.stderr), (status, text.encode(), b""))
        check(f"{name}, a byte at a time", by_stalling_pipe(["audit", "-"], [bytes([byte]) for byte in data]), (status, text.encode(), b""))


def faults():
    whole = example("put_and_get.trace")
    head, put, got, end = whole[:9], whole[9:33], whole[33:57], whole[57:]

    def with_byte(at, byte):
        return whole[:at] + bytes([byte]) + whole[at + 1 :]

    changes = [
        ("bytes after the end of the empty trace", example("empty.trace") + b"\0", "bytes after end at 18"),
        ("a put of version 0", whole[:25] + bytes(8) + whole[33:], "bad field at 25"),
        ("format 22 in the head's kind", with_byte(4, 0x16), "unknown kind at 0"),
        ("no length", bytes(4) + whole[4:], "bad length at 0"),
        ("a longer head", bytes.fromhex("00000006110001000200") + whole[9:], "trailing bytes at 0"),
        ("an empty key", with_byte(20, 0), "bad field at 20"),
        ("another client", with_byte(39, 2), "client out of range at 33"),
        ("another index", with_byte(43, 1), "index out of turn at 33"),
        ("a goodbye", head + put + bytes.fromhex("000000010f") + end, "not a record at 33"),
        ("another count", with_byte(65, 3), "bad count at 57"),
        ("a second head", head + head + put + got + end, "not a record at 9"),
        ("another format", with_byte(6, 3), "bad format at 0"),
        ("no format", with_byte(6, 0), "bad format at 0"),
        ("the end first", end, "no head at 0"),
        ("one client alone", bytes.fromhex("000000051100010001") + got + end, "client out of range at 9"),
    ]
    for name, data, words in changes:
        check(name, cops(stdin=data), (2, f"faulty: {words}\n".encode(), b""))
    for count in range(len(whole)):
        at = 0 if count < 9 else 9 if count < 33 else 33 if count < 57 else 57
        check(f"the first {count} bytes", cops(stdin=whole[:count]), (2, f"faulty: cut at {at}\n".encode(), b""))
    check("a put alone", cops(stdin=head + put + bytes.fromhex("000000051500000001")), (0, b"accepted: 1 operations, 1 puts\n", b""))


def shown():
    whole = example("put_and_get.trace")
    lines = [
        b"TraceHead format=1 clients=2\n",
        b"TracePut client=0 index=0 key=x value=1 version=1.0\n",
        b"TraceGot client=1 index=0 key=x value=1 version=1.0\n",
        b"TraceEnd ops=2\n",
    ]
    path = os.path.join(ROOT, "examples", "put_and_get.trace")
    check("show, by file", cops("show", path), (0, b"".join(lines), b""))
    check("show, by standard input", cops("show", "-", stdin=whole), (0, b"".join(lines), b""))
    check("show, cut", cops("show", "-", stdin=whole[:60]), (2, b"".join(lines[:3]) + b"faulty: cut at 57\n", b""))
    check("show, more", cops("show", "-", stdin=whole + b"\0"), (2, b"".join(lines) + b"faulty: bytes after end at 66\n", b""))
    bad = whole[:25] + bytes(8) + whole[33:]
    check("show, bad field", cops("show", "-", stdin=bad), (2, lines[0] + b"faulty: bad field at 25\n", b""))
    check("show, nothing", cops("show", "-"), (2, b"faulty: cut at 0\n", b""))
    key = bytes.fromhex("000000051100010001" + "0000000c140000000000000400412f7a")
    text = b"TraceHead format=1 clients=1\nTraceMissed client=0 index=0 key=%00A%2fz\nfaulty: cut at 25\n"
    check("show, other bytes in a key", cops("show", "-", stdin=key), (2, text, b""))


SCENARIOS = [
    (
        "newer_put_elsewhere",
        "done 1.0, done 2.0, done 3.0, done 1.64, done 2.64, held, settled, held, yes, marked, settled, held, wait, missed, "
        "held, settled, held, yes, marked, settled, yes, marked, settled, got 3.0, got 2.64, got 1.0",
        "accepted: 9 operations, 5 puts\n",
    ),
    (
        "two_versions_of_a_key",
        "done 1.0, done 2.0, done 1.64, done 2.64, got 2.0, held, settled, held, yes, marked, settled, got 2.64, done 3.0, "
        "held, settled, held, yes, marked, settled, held, wait, yes, marked, refused 7, refused 8",
        "accepted: 7 operations, 5 puts\n",
    ),
    (
        "repeated_delivery",
        "done 1.0, done 2.0, done 3.0, done 1.64, done 2.64, held, settled, held, yes, marked, settled, held, repeat, repeat, "
        "wait, missed, held, settled, held, yes, marked, settled, yes, marked, settled, repeat, got 3.0, got 2.64, got 1.0",
        "accepted: 9 operations, 5 puts\n",
    ),
    (
        "deleted_elsewhere",
        "done 1.0, deleted 2.0, gone 2.0, held, refused 8, held, settled, yes, marked, settled, gone 2.0, missed",
        "accepted: 5 operations, 2 puts\n",
    ),
]


def scenarios():
    for name, outcomes, report in SCENARIOS:
        lines = "".join(f"{n} {outcome}\n" for n, outcome in enumerate(outcomes.split(", "))) + report
        answer, recorded = ran(example(f"{name}.json"))
        check(f"run of {name}", answer, (0, lines.encode(), b""))
        check(f"audit of {name}", cops("audit", "-", stdin=recorded), (0, report.encode(), b""))
        path = os.path.join(ROOT, "examples", f"{name}.json")
        with tempfile.NamedTemporaryFile(suffix=".trace") as file:
            check(f"run of {name}, by file", cops("run", path, file.name), (0, lines.encode(), b""))
            check(f"trace of {name}, by file", file.read(), recorded)


def mixed(seed, operations=40, data_centres=3, clients=6):
    """Scripts of puts and gets of a few keys, and in format 2 of deletions and of a few values that are longer than format 1 allows, with up to three nodes
    in each data centre, small links, and messages that are repeated and late. Returns the scenario and the number of puts and deletions."""
    pick, number = random.Random(seed), 1 + seed % 2

    def value(n):
        longer = number == 2 and pick.random() < 0.01
        return str(n).ljust(pick.randint(LIMITS[1].value + 1, LIMITS[2].value) if longer else 1, "v")

    def operation(n):
        key = f"k{pick.randrange(5)}"
        if pick.random() < 0.5:
            return {"del": key} if number == 2 and pick.random() < 0.4 else {"put": [key, value(n)]}
        return {"get": key}

    scripts = [[operation(n) for n in range(operations)] for _ in range(clients)]
    members = [{"at": n % data_centres, "script": script} for n, script in enumerate(scripts)]
    network = {"link": 1 + seed % 3, "retries": pick.randrange(4), "repeat": pick.randrange(4), "hold": pick.choice((0, 0, 1, 7, 50))}
    splits = pick.choice(([], ["k2"], ["k1", "k3"]))
    text = json.dumps({"format": number, "data_centres": data_centres, "splits": splits, "clients": members, **network})
    return text.encode(), sum("get" not in one for script in scripts for one in script)


def mixed_scripts():
    """Scripted clients on threads: what they saw is accepted, however the threads are scheduled."""
    report = b"accepted: 4 operations, 2 puts\n"
    answer, recorded = ran(example("two_clients.json"))
    check("run of two_clients", answer, (0, b"client 0 done\nclient 1 done\n" + report, b""))
    check("audit of two_clients", cops("audit", "-", stdin=recorded), (0, report, b""))
    lines = cops("show", "-", stdin=recorded)[1].decode().split("\n")
    for client, key in ((0, "a"), (1, "b")):
        own = [line.split(" version=")[1] for line in lines if f" client={client} index=" in line and f" key={key} value=1 version=" in line]
        check(f"client {client} got its own put", (len(own), len(set(own))), (2, 1))
    to_standard_output()
    late = {"data_centres": 2, "link": 1, "repeat": 2, "hold": 5, "clients": [{"at": 0, "script": [{"put": ["x", "1"]}, {"put": ["y", "2"]}]}]}
    check("messages that come late and three times", ran(json.dumps(late).encode())[0], (0, b"client 0 done\naccepted: 2 operations, 2 puts\n", b""))
    check("fewer turns than come late", ran(json.dumps({**late, "turns": 3}).encode())[0], (4, b"", b"failed: turn limit\n"))
    deleting = {**late, "format": 2, "clients": [{"at": 0, "script": [{"put": ["x", "1"]}, {"del": "y"}]}]}
    check("a deletion that comes late and three times", ran(json.dumps(deleting).encode())[0], (0, b"client 0 done\naccepted: 2 operations, 2 puts\n", b""))
    check("fewer turns than a deletion comes late", ran(json.dumps({**deleting, "turns": 3}).encode())[0], (4, b"", b"failed: turn limit\n"))
    for seed in range(490):
        run_of_mixed(seed)
    loads = [subprocess.Popen([sys.executable, "-c", "while True: pass"]) for _ in range(os.cpu_count() or 2)]
    for seed in range(490, 500):
        run_of_mixed(seed)
    for load in loads:
        load.kill()
        load.wait()
    empty = json.dumps({"data_centres": 2, "clients": [{"at": 1}]}).encode()
    check("a client without a script", ran(empty)[0], (0, b"client 0 done\naccepted: 0 operations, 0 puts\n", b""))


def to_standard_output():
    """A trace that is written to standard output, also to a pipe into an audit; everything else is printed to standard error."""
    lines, report = b"client 0 done\nclient 1 done\n", b"accepted: 4 operations, 2 puts\n"
    path = os.path.join(ROOT, "examples", "two_clients.json")
    status, recorded, printed = cops("run", path, "-")
    check("run to standard output", (status, printed), (0, lines + report))
    check("audit of what it wrote", cops("audit", "-", stdin=recorded), (0, report, b""))
    program = os.path.join(ROOT, "cops")
    running = subprocess.Popen([program, "run", path, "-"], stdout=subprocess.PIPE, stderr=subprocess.PIPE)
    audit = subprocess.run([program, "audit", "-"], stdin=running.stdout, stdout=subprocess.PIPE, check=False)
    running.stdout.close()
    printed = running.stderr.read()
    running.stderr.close()
    check("run into an audit", (running.wait(), printed, audit.returncode, audit.stdout), (0, lines + report, 0, report))
    events, listed = ran(example("newer_put_elsewhere.json")), os.path.join(ROOT, "examples", "newer_put_elsewhere.json")
    check("events to standard output", cops("run", listed, "-"), (0, events[1], events[0][1]))
    check("a faulty scenario to standard output", cops("run", "-", "-", stdin=b"{"), (2, b"", b"faulty: scenario is not JSON\n"))
    with open("/dev/full", "wb") as full:
        check("a run to standard output that is full", cops("run", path, "-", stdout=full), (4, None, b"failed: write\n"))


def run_of_mixed(seed):
    text, puts = mixed(seed)
    (status, out, err), recorded = ran(text)
    report = f"accepted: 240 operations, {puts} puts\n".encode()
    wanted = b"".join(f"client {n} done\n".encode() for n in range(6)) + report
    check(f"mixed scripts {seed}", (status, out, err), (0, wanted, b""))
    check(f"their trace {seed}", cops("audit", "-", stdin=recorded), (0, report, b""))


def refusals():
    put, get = {"put": [0, "x", "1"]}, {"get": [0, "x"]}
    two = {"data_centres": 2, "clients": ({"at": 0}, {"at": 1})}
    deliver = {"deliver": [1, "1.0"]}
    cases = [
        ("no such client", [{"put": [1, "x", "1"]}, {"get": [65535, "x"]}], {}, ["refused 3", "refused 3"]),
        ("no such client to delete", [{"del": [1, "x"]}, {"del": [65535, "x"]}, {"del": [0, "x"]}], {"format": 2}, ["refused 3", "refused 3", "deleted 1.0"]),
        ("no such data centre", [put, {"deliver": [1, "1.0"]}, {"ask": [255, "x", "1.0"]}], {}, ["done 1.0", "refused 10", "refused 10"]),
        ("nor there", [{"mark": [1, "1.0", 0]}, {"settle": [1, "1.0"]}], {}, ["refused 10", "refused 10"]),
        ("never sent", [put, {"deliver": [1, "2.0"]}], two, ["done 1.0", "refused 4"]),
        ("not held", [put, {"mark": [1, "1.0", 0]}, {"settle": [1, "1.0"]}], two, ["done 1.0", "refused 5", "refused 5"]),
        ("no such node", [put, {"mark": [1, "1.5", 0]}, {"settle": [1, "1.5"]}], two, ["done 1.0", "refused 5", "refused 5"]),
        ("no such dependency", [put, deliver, {"mark": [1, "1.0", 0]}], two, ["done 1.0", "held", "refused 6"]),
        (
            "no yes, and dependencies open",
            [put, {"put": [0, "y", "2"]}, {"deliver": [1, "2.0"]}, {"mark": [1, "2.0", 0]}, {"settle": [1, "2.0"]}],
            two,
            ["done 1.0", "done 2.0", "held", "refused 7", "refused 8"],
        ),
    ]
    for name, given, more, wanted in cases:
        check(f"refusal: {name}", outcomes_of(*given, **more), (0, wanted, b""))
    split = {"splits": ["g", "p"]}
    given = [{"put": [0, key, ""]} for key in ("a", "g", "o", "p", "z")]
    check("places of keys", outcomes_of(*given, **split), (0, ["done 1.0", "done 2.1", "done 3.1", "done 4.2", "done 5.2"], b""))
    most = {"splits": [f"k{n:02}" for n in range(63)]}
    check("the most split keys", outcomes_of({"put": [0, "k00", ""]}, {"put": [0, "z", ""]}, **most), (0, ["done 1.1", "done 2.63"], b""))
    check("a get of an empty value", outcomes_of({"put": [0, "x", ""]}, get), (0, ["done 1.0", "got 1.0"], b""))
    given = [get, {"del": [0, "x"]}, get, {"put": [0, "x", ""]}, get, {"del": [0, "x"]}, {"del": [0, "x"]}, get]
    wanted = ["missed", "deleted 1.0", "gone 1.0", "done 2.0", "got 2.0", "deleted 3.0", "deleted 4.0", "gone 4.0"]
    check("deletions, and an empty value between them", outcomes_of(*given, format=2), (0, wanted, b""))


def field(name, wanted, **changes):
    """A scenario with these members, in place of those of a correct one, is faulty in the field `wanted`. A member that is `missing` is left out."""
    members = {"data_centres": 2, "clients": [{"at": 0}], "events": [], **changes}
    text = json.dumps({key: value for key, value in members.items() if value != "missing"})
    check(f"scenario, {name}", ran(text.encode()), ((2, f"faulty: scenario field {wanted}\n".encode(), b""), b""))


def faulty_settings():
    for value in (0, 3, -1, 1.0, "2", None, [2]):
        field(f"format {value}", "format", format=value)
    for value in ("missing", 0, 17, -1, 1.5, "2", None, [2]):
        field(f"data centres {value}", "data_centres", data_centres=value)
    for value in (None, "g", [""], ["k" * 65], ["b", "a"], ["a", "a"], [1], [chr(256 + n) for n in range(64)]):
        field(f"splits {value}", "splits", splits=value)
    for value in (0, 1025, None, 2.0, "16"):
        field(f"link {value}", "link", link=value)
    for value in (0, 1_000_000_001, None):
        field(f"turns {value}", "turns", turns=value)
    field("the first of two", "splits", splits=0, link=0)
    field("the format before them", "format", format=0, data_centres=0, splits=0)


def faulty_clients():
    bad_clients = ("missing", None, {}, [1], [{}], [{"at": 2}], [{"at": -1}], [{"at": 0}] * 65, [{"at": 0, "script": None}])
    for value in bad_clients:
        field(f"clients {str(value)[:40]}", "clients", clients=value)
    for operation in ({"put": ["x"]}, {"put": ["x", "1", "2"]}, {"get": ["x"]}, {"get": ""}, {"del": "x"}, {"get": "x", "put": ["x", "1"]}, {}, 1):
        field(f"script with {operation}", "clients", clients=[{"at": 0, "script": [operation]}])
    for operation in ({"del": ["x"]}, {"del": ""}, {"del": "k" * 65}, {"del": "x", "get": "x"}, {"del": None}):
        field(f"script of format 2 with {operation}", "clients", format=2, clients=[{"at": 0, "script": [operation]}])
    long_script = [{"at": 0, "script": [{"get": "x"}] * 10_001}]
    field("a long script", "clients", clients=long_script)


def faulty_events():
    for event in ({"del": [0]}, {"del": "x"}, {"del": [0, "x", ""]}, {"del": [0, ""]}, {"del": [65536, "x"]}, {"del": [0, "x"], "get": [0, "x"]}):
        field(f"event of format 2, {event}", "events", format=2, events=[event])
    for value in ("missing", 1):
        field(f"a deletion in format {value}", "events", format=value, events=[{"del": [0, "x"]}])
    for event in (
        {"put": [0, "x"]}, {"put": [65536, "x", "1"]}, {"get": "x"}, {"get": [0, "x", 1]}, {"deliver": [256, "1.0"]}, {"deliver": [0, "0.0"]},
        {"deliver": [0, "1"]}, {"deliver": [0, "01.0"]}, {"deliver": [0, "1.00"]}, {"deliver": [0, "1.1024"]}, {"deliver": [0, "+1.0"]},
        {"deliver": [0, "281474976710656.0"]}, {"ask": [0, "", "1.0"]}, {"mark": [0, "1.0", 65536]}, {"settle": ["0", "1.0"]},
        {"stop": []}, {}, [], {"get": [0, "x"], "put": [0, "x", "1"]},
    ):
        field(f"event {str(event)[:40]}", "events", events=[event])
    for value in (None, {}, [{"get": [0, "x"]}] * 100_001):
        field(f"events {str(value)[:40]}", "events", events=value)
    field("a script together with events", "events", clients=[{"at": 0, "script": []}])


def faulty_texts():
    """Texts that are not JSON, or whose root is not an object, and texts with numbers, members and duplicates that JSON allows."""
    for text in (b"[]", b"1", b"null"):
        check(f"scenario {text}", ran(text), ((2, b"faulty: scenario field root\n", b""), b""))
    for name, text in (("no bytes", b""), ("not UTF-8", b'"\xff"'), ("cut", b"{"), ("too deep", b"[" * 128 + b"]" * 128), ("two values", b"{} {}")):
        check(f"scenario, {name}", ran(text), ((2, b"faulty: scenario is not JSON\n", b""), b""))
    check("scenario of 100 MB", ran(b" " * 100_000_000), ((2, b"faulty: scenario is not JSON\n", b""), b""))
    for digits, words in ((30, b"field data_centres"), (400, b"is not JSON")):
        text = b'{"data_centres":' + b"9" * digits + b"}"
        check(f"a number of {digits} digits", ran(text), ((2, b"faulty: scenario " + words + b"\n", b""), b""))
    unknown = events({"get": [0, "x"]}, colour="blue", clients=({"at": 0, "name": "a"},))
    check("unknown members", ran(unknown)[0], (0, b"0 missed\naccepted: 1 operations, 0 puts\n", b""))
    twice = b'{"data_centres":0,"data_centres":1,"clients":[],"events":[]}'
    check("of a member that occurs twice, the last", ran(twice)[0], (0, b"accepted: 0 operations, 0 puts\n", b""))


def faulty_scenarios():
    faulty_settings()
    faulty_clients()
    faulty_events()
    faulty_texts()


def replaced():
    """A faulty scenario leaves an empty file, whether or not there was a trace. If the scenario runs, an existing trace is replaced as a whole."""
    old = b"what was there\n" * 1_000
    with tempfile.NamedTemporaryFile(suffix=".trace") as file:
        file.write(old)
        file.flush()
        check("a faulty scenario", cops("run", "-", file.name, stdin=b"{}"), (2, b"faulty: scenario field data_centres\n", b""))
        with open(file.name, "rb") as there:
            check("the file of its trace", there.read(), b"")
        with open(file.name, "wb") as there:
            there.write(old)
        check("a scenario that runs", cops("run", "-", file.name, stdin=scripted(data_centres=2)), (0, b"accepted: 0 operations, 0 puts\n", b""))
        check("the trace in its place", cops("audit", file.name), (0, b"accepted: 0 operations, 0 puts\n", b""))
    with tempfile.TemporaryDirectory() as folder:
        trace = os.path.join(folder, "trace")
        check("a faulty scenario for a new trace", cops("run", "-", trace, stdin=b"{}"), (2, b"faulty: scenario field data_centres\n", b""))
        check("an empty file where there was none", os.path.getsize(trace), 0)
        os.remove(trace)
        check("no scenario to open for a new trace", cops("run", "/nothing/there", trace), (4, b"", b"failed: open\n"))
        check("no file where no scenario was opened", os.listdir(folder), [])


# Commands whose input is an example, by name or by standard input, with redirections by the shell: each would write to its own input.
OVER_INPUTS = [
    ("put_and_get.jsonl", "import - FILE < FILE"),
    ("put_and_get.jsonl", "import FILE - >> FILE"),
    ("put_and_get.jsonl", "import - - < FILE 1<> FILE"),
    ("two_clients.json", "run - FILE < FILE"),
    ("two_clients.json", "run - - < FILE >> FILE"),
    ("two_clients.json", "run FILE - >> FILE"),
    ("two_clients.json", "run FILE - 1<> FILE"),
    ("two_clients.json", "run FILE NEW >> FILE"),
    ("stale.trace", "convert FILE FILE"),
    ("stale.trace", "convert - FILE < FILE"),
    ("stale.trace", "convert FILE - >> FILE"),
    ("stale.trace", "convert FILE NEW 1<> FILE"),
    ("stale.trace", "explain - --picture FILE < FILE"),
    ("stale.trace", "explain FILE --picture - >> FILE"),
    ("stale.trace", "explain FILE --picture NEW >> FILE"),
    ("stale.trace", "explain FILE --json >> FILE"),
    ("stale.jsonl", "check FILE >> FILE"),
    ("stale.jsonl", "check - --json < FILE 1<> FILE"),
    ("stale.jsonl", "check - --picture FILE < FILE"),
    ("stale.jsonl", "check FILE --picture - >> FILE"),
    ("stale.jsonl", "check FILE --picture NEW >> FILE"),
    ("stale.trace", "audit FILE >> FILE"),
    ("stale.trace", "show FILE 1<> FILE"),
    ("stale.trace", "< FILE >> FILE"),
]


def over_inputs():
    """No command writes to the file that it reads, however the file is given: the command reports that, and the file stays unchanged."""
    for name, words in OVER_INPUTS:
        with tempfile.TemporaryDirectory() as folder:
            path, new = os.path.join(folder, "file"), os.path.join(folder, "new")
            with open(path, "wb") as file:
                file.write(example(name))
            line = f"{BUILT} {words.replace('FILE', path).replace('NEW', new)}"
            ended = subprocess.run(["sh", "-c", line], stdin=subprocess.DEVNULL, stdout=subprocess.PIPE, stderr=subprocess.PIPE)
            with open(path, "rb") as file:
                left = file.read()
            got = ended.returncode, ended.stdout, ended.stderr, left == example(name), os.listdir(folder)
            check(f"over its input: {words}", got, (4, b"", b"failed: same file\n", True, ["file"]))
    with open(os.devnull, "rb") as none:
        ended = subprocess.run([BUILT, "run", "-", os.devnull], stdin=none, stdout=subprocess.PIPE, stderr=subprocess.PIPE)
    check("a device is no file that is lost", (ended.returncode, ended.stdout, ended.stderr), (2, b"faulty: scenario is not JSON\n", b""))


def lines_in_place_of_a_trace():
    """Input that begins like JSON Lines is reported as such on standard error, and gets the same answer as any other input."""
    line = b"this looks like JSON Lines, which `cops import` reads\n"
    for data in (b'{"client":1,"get":"k"}\n', b"[1]", b"\xef\xbb\xbf{}"):
        for words in (["audit", "-"], [], ["show", "-"], ["explain", "-"]):
            ended = subprocess.run([BUILT, *words], input=data, stdout=subprocess.PIPE, stderr=subprocess.PIPE)
            out = b"faulty: cut at 0\n" if len(data) < 4 else b"faulty: bad length at 0\n"
            check(f"{words} of {data}", (ended.returncode, ended.stdout, ended.stderr), (2, out, line))
    ended = subprocess.run([BUILT, "audit", "-", "--so-far"], input=b"{", stdout=subprocess.PIPE, stderr=subprocess.PIPE)
    check("so far of a brace", (ended.returncode, ended.stdout, ended.stderr), (0, b"cut at 0\nso far: clean\n", line))
    for data in (b"\xef\xbb", b"\xef\xbb\0{", b"", b" {"):
        check(f"no line on {data}", cops(stdin=data)[2], b"")


def random_script(pick, operations, keys):
    return [{"put": [pick.choice(keys), "1"]} if pick.random() < 0.5 else {"get": pick.choice(keys)} for _ in range(operations)]


def scripts():
    """Scripts of clients, each on its own thread: however the threads are scheduled, each client is done and the trace is accepted."""

    def run(name, text, clients, operations, puts):
        report = f"accepted: {operations} operations, {puts} puts\n"
        lines = "".join(f"client {n} done\n" for n in range(clients)) + report
        answer, recorded = ran(text)
        check(f"scripts, {name}", answer, (0, lines.encode(), b""))
        check(f"audit of scripts, {name}", cops("audit", "-", stdin=recorded), (0, report.encode(), b""))

    own = [[{"put": [key, "1"]}, {"get": key}] for key in ("a", "b")]
    run("two clients get what they put", scripted(*own, data_centres=2), 2, 4, 2)
    deleting = [[{"put": [key, "1"]}, {"del": key}, {"get": key}, {"put": [key, ""]}] for key in ("a", "b")]
    run("two clients delete what they put", scripted(*deleting, data_centres=2, format=2), 2, 8, 6)
    run("a client in format 2 that deletes nothing", scripted(*own, format=2), 2, 4, 2)
    run("no clients", scripted(), 0, 0, 0)
    run("clients without scripts", json.dumps({"data_centres": 16, "clients": [{"at": 15}, {"at": 0}]}).encode(), 2, 0, 0)
    run("a long script", scripted([{"put": [f"k{n % 7}", "1"]} for n in range(10_000)], data_centres=2), 1, 10_000, 10_000)
    for seed in range(10):
        pick = random.Random(seed)
        made = [random_script(pick, 60, [f"{letter}{n}" for letter in "agmt" for n in range(3)]) for _ in range(9)]
        puts = sum("put" in operation for script in made for operation in script)
        text = scripted(*made, data_centres=3, splits=["g", "p"], link=1 + seed)
        run(f"nine clients {seed}", text, 9, 540, puts)
    (status, out, err), recorded = ran(scripted(*own, data_centres=2, turns=0))
    check("a faulty scenario with scripts", (status, out, err, recorded), (2, b"faulty: scenario field turns\n", b"", b""))
    with tempfile.NamedTemporaryFile(suffix=".json") as file:
        file.write(scripted(*own, data_centres=2))
        file.flush()
        check("a script's trace to a full device", cops("run", file.name, "/dev/full"), (4, b"", b"failed: write\n"))


def working_clusters():
    """In the event lists of a working cluster no event is refused, and the traces are accepted."""
    for seed in range(20):
        (status, out, err), recorded = ran(scenario(500, keys=4, seed=seed).encode())
        report = out.decode().split("\n")[-2]
        check(f"a working cluster {seed}", (status, report.split(":")[0], b"refused" in out, b"wait" in out), (0, "accepted", False, False))
        check(f"its trace {seed}", cops("audit", "-", stdin=recorded), (0, report.encode() + b"\n", b""))


def many_workers():
    """The answer is the same for each number of workers."""
    for name, status, text in TRACES:
        for workers in ("1", "2", "64"):
            answer = cops("audit", "--workers", workers, "-", stdin=example(f"{name}.trace"))
            check(f"{name} by {workers} workers", answer, (status, text.encode(), b""))
    path = os.path.join(ROOT, "examples", "stale.trace")
    for given in (["--workers", "0"], ["--workers", "65"], ["--workers", "x"], ["--workers"], ["--workers=2", "--workers=2"]):
        status, out, err = cops("audit", path, *given)
        check(f"usage of {given}", (status, out, err != b""), (2, b"", True))


def words():
    path = os.path.join(ROOT, "examples", "empty.trace")
    for given in (
        ["audit"], ["audit", b"\xff"], [b"\xff"], ["nothing"], ["audit", path, "more"], ["audit", "--nothing", path], ["show"], ["run", "a"],
        ["judge", "a", "b"],
    ):  # fmt: skip
        status, out, err = cops(*given)
        check(f"usage of {given}", (status, out, err != b""), (2, b"", True))
    for given in (["--all", "--fault", "2", path], ["--fault=1", path, "--all", "--picture", "a"], [path, "--all", "--fault", "16000000"]):
        check(f"usage of explain {given}", cops("explain", *given), (2, b"", ALL_WITH_FAULT))
    for given in (
        ["--fault", "0", path], ["--fault", "16000001", path], ["--fault", path], ["--all=no", path], [path, "--picture"], ["--all"],
        [path, "--all", "--all"],
    ):  # fmt: skip
        status, out, err = cops("explain", *given)
        check(f"usage of explain {given}", (status, out, err != b"", err == ALL_WITH_FAULT), (2, b"", True, False))
    for command in ("audit", "explain", "check", "show", "import", "convert", "run", "serve"):
        check(f"the help has {command}", f"  {command} ".encode() in cops("--help")[1], True)
    for option in (b"--all", b"--fault <N>", b"--picture <FILE>"):
        check(f"help of {option}", option in cops("explain", "--help")[1], True)
    for given in (["--help"], *([command, "--help"] for command in ("audit", "explain", "check", "show", "import", "convert", "run", "serve")), ["help"]):
        status, out, err = cops(*given)
        check(f"help of {given}", (status, b"Usage: cops" in out, err), (0, True, b""))
    for option in (b"--sessions <N>", b"--idle <SECONDS>", b"--trace <FILE>", b"--announce"):
        check(f"help of {option}", option in cops("serve", "--help")[1], True)
    for given in ("--version", "-V"):
        status, out, err = cops(given)
        check(f"version, {given}", (status, out.startswith(f"cops {VERSION} (rattle-kit-".encode()), err), (0, True, b""))


def devices():
    check("no such file", cops("audit", "/nothing/there"), (4, b"", b"failed: open\n"))
    check("a folder", cops("audit", ROOT), (4, b"", b"failed: read\n"))
    check("show of a folder", cops("show", ROOT), (4, b"", b"failed: read\n"))
    path = os.path.join(ROOT, "examples", "stale.trace")
    for command in ("audit", "show"):
        with open("/dev/full", "wb") as full:
            check(f"{command} to a full device", cops(command, path, stdout=full), (4, None, b"failed: write\n"))
    events_file = os.path.join(ROOT, "examples", "newer_put_elsewhere.json")
    check("no such scenario", cops("run", "/nothing/there", "/tmp/none.trace"), (4, b"", b"failed: open\n"))
    check("a trace in no folder", cops("run", events_file, "/nothing/there"), (4, b"", b"failed: open\n"))
    check("a scenario that is a folder", cops("run", ROOT, "/dev/null"), (4, b"", b"failed: read\n"))
    check("a trace to a full device", cops("run", events_file, "/dev/full"), (4, b"", b"failed: write\n"))
    with open("/dev/full", "wb") as full:
        check("a run to a full device", cops("run", events_file, "/dev/null", stdout=full), (4, None, b"failed: write\n"))


def no_thread():
    """A run for which the system does not create enough threads reports that, once the threads that were created have ended."""
    clients = [{"at": 0, "script": [{"get": "a"}]} for _ in range(64)]
    soft, hard = resource.getrlimit(resource.RLIMIT_STACK)
    if hard != resource.RLIM_INFINITY and hard < 8 << 20:
        skip("a run with more threads than the limit of memory allows", "a thread's stack may not have 8 MB")
        return
    with tempfile.TemporaryDirectory() as folder:
        path = os.path.join(folder, "scenario.json")
        with open(path, "w") as file:
            json.dump({"data_centres": 1, "clients": clients}, file)
        resource.setrlimit(resource.RLIMIT_STACK, (8 << 20, hard))
        got = cops("run", path, os.path.join(folder, "run.trace"), limit=256 << 20)
        resource.setrlimit(resource.RLIMIT_STACK, (soft, hard))
    check("a run with more threads than the limit of memory allows", got, (4, b"", b"failed: no thread\n"))


for tests in (
    examples, deletions, limits, conversions, long_chain, many_rounds, faults, cut_traces, shown, scenarios, refusals, faulty_scenarios, replaced,
    over_inputs, lines_in_place_of_a_trace, scripts, mixed_scripts, working_clusters, plain_cluster.random_worlds, many_workers, served, served_deletions,
    serving, replies, strange_peers, sent_behind, idle_clients, listens_here_alone, words, devices, on_a_terminal, generated, long_traces, each_kind,
    many_suspects, little_memory, no_thread, imports, checks, following, ranks, outcomes, pictures, redis, postgresql, arbitrate, definition_files, mutations,
    plain.rows, plain.random_histories, plain.random_cuts, plain.cuts_of_deletions, plain_reader.changed_bytes,
):
    tests()
sys.exit(ended())
