"""Tests of examples/arbitrate/arbitrate.py, which finds one order of the versions of a store that orders them only key by key, or has none."""
import contextlib
import importlib.util
import io
import itertools
import json
import os
import random
import subprocess
import sys
import tempfile
from collections import Counter

import plain
import plain_cluster
import plain_reader
from traces import ROOT, check, cops, ran, scripted

ARBITRATE = os.path.join(ROOT, "examples", "arbitrate", "arbitrate.py")
WORLDS, SCRIPTS, SMALL, LEAST_OF_A_KIND = 300, 200, 150, 20

CYCLE = 1, "cycle: each of these stands before the next, and the last before the first"

# The histories of figure 3 of Bouajjani et al., POPL 2017, in which a client reads `-` where nothing was written, and whether they are causally convergent.
FIGURE = {
    "a": (["w x 1, r x 2", "w x 2, r x 1"], False),
    "b": (["w z 1, w x 1, w y 1", "w x 2, r z -, r y 1, r x 2"], True),
    "c": (["w x 1, r x 2", "w x 2, r x 1, r x 2"], False),
    "d": (["w x 1, r y -, w y 1, r x 1", "w x 2, r y -, w y 2, r x 2"], True),
    "e": (["w x 1, w y 1", "r y 1, w x 2", "r x 2, r x 1"], False),
}


def line(client, kind, key, value=None, version=None):
    return {"client": client, kind: key, **({} if kind == "del" else {"value": value}), **({} if version is None else {"version": version})}


def loaded():
    """The script as a module."""
    spec = importlib.util.spec_from_file_location("arbitrate_script", ARBITRATE)
    module = importlib.util.module_from_spec(spec)
    spec.loader.exec_module(module)
    return module


SCRIPT = loaded()


def by_script(words):
    """The status and the output of the script, run in this process, since most runs take less time than to start Python."""
    printed = io.StringIO()
    with contextlib.redirect_stdout(printed), contextlib.redirect_stderr(printed):
        status = SCRIPT.main(words)
    return status, printed.getvalue()


def judged(lines, *words):
    """The first line of what the script or, if it finds an order, the check prints."""
    with tempfile.TemporaryDirectory() as folder:
        given, ordered = os.path.join(folder, "lines"), os.path.join(folder, "ordered")
        with open(given, "w", encoding="utf-8") as file:
            file.writelines(json.dumps(it) + "\n" for it in lines)
        status, printed = by_script([*words, given, ordered])
        if status == 0:
            status, printed, _ = cops("check", ordered)
            return status, printed.decode().split("\n", 1)[0]
        check("no order, no file", os.path.exists(ordered), False)
        return status, printed.split("\n", 1)[0]


def published():
    for name, (sessions, is_convergent) in FIGURE.items():
        steps = [(client, step.split()) for client, session in enumerate(sessions) for step in session.split(", ")]
        lines = [line(client, {"w": "put", "r": "get"}[kind], key, None if value == "-" else value) for client, (kind, key, value) in steps]
        status, text = judged(lines, "--values")
        wanted = (0, "accepted") if is_convergent else (1, "cycle")
        check(f"POPL 2017, figure 3 ({name})", (status, text.split(":")[0]), wanted)


def hidden(operations):
    """Lines of the operations of a trace with versions that are ordered only among the writes of a key, and lines with values in place of versions, or None
    if there are deletions. An operation is a client, a kind, a key, a value and a version."""
    places = {}
    for key in {key for _, _, key, _, _ in operations}:
        versions = sorted({version for _, _, of, _, version in operations if of == key and version is not None})
        places.update(((key, version), place) for place, version in enumerate(versions))
    kinds = {"put": "put", "del": "del"}
    by_key = [line(client, kinds.get(kind, "get"), key, value, places.get((key, version))) for client, kind, key, value, version in operations]
    if any(kind in ("del", "gone") for _, kind, _, _, _ in operations):
        return by_key, None
    named = [(client, kinds.get(kind, "get"), key, None if version is None else f"{value} {version}") for client, kind, key, value, version in operations]
    return by_key, [line(*of) for of in named]


def words_of(lines):
    """The operations of the lines that a trace is written from."""
    for text in lines[1:]:
        client, kind, key, *rest = text.split(" ")
        version = tuple(map(int, rest[-1].split("."))) if rest else None
        yield int(client), kind, key, rest[0] if len(rest) == 2 else None, version


def some_script(pick):
    return [{"put": [pick.choice("abc"), "1"]} if pick.random() < 0.5 else {"get": pick.choice("abc")} for _ in range(20)]


def cluster_traces():
    """Of many runs of the reference cluster, of event lists and of scripts: the operations of their traces."""
    for seed in range(WORLDS):
        yield list(words_of(plain_cluster.some_world(seed)[2]))
    for seed in range(SCRIPTS):
        pick = random.Random(seed)
        _, recorded = ran(scripted(*(some_script(pick) for _ in range(4)), data_centres=2))
        yield list(operations_in(recorded))


def operations_in(data):
    """The operations of a trace's bytes, in the order of its records."""
    for (client, _), it in plain_reader.history_of(data).items():
        yield client, it.kind, it.key.decode(), None if it.value is None else it.value.decode(), it.version


def of_the_cluster():
    """What the clients of the reference cluster saw is accepted again without the order between keys, and without versions."""
    met = Counter()
    traces = list(cluster_traces())
    pairs = [hidden(operations) for operations in traces]
    by_key = [judged(lines) for lines, _ in pairs]
    by_value = [lines and judged(lines, "--values") for _, lines in pairs]
    for seed, (operations, keyed, valued) in enumerate(zip(traces, by_key, by_value)):
        puts = sum(kind in ("put", "del") for _, kind, _, _, _ in operations)
        wanted = 0, f"accepted: {len(operations)} operations, {puts} puts"
        check(f"versions of keys, {seed}", keyed, wanted)
        if valued:
            check(f"no versions, {seed}", valued, wanted)
            met["values"] += 1
    check(f"traces without versions: {met['values']}", met["values"] >= LEAST_OF_A_KIND, True)


def has_order(history, is_fixed):
    """Whether the history converges with some order of its puts' versions, by trying all. With `is_fixed` those of a key keep their order."""
    puts = plain.of_kind(history, *plain.PUTS)
    for order in itertools.permutations(puts):
        if is_fixed and any(history[a].key == history[b].key and history[a].version > history[b].version for a, b in itertools.combinations(order, 2)):
            continue
        versions = {history[put].version: (place, 0) for place, put in enumerate(order)}
        if plain.converges({name: it._replace(version=versions.get(it.version, it.version)) for name, it in history.items()}):
            return True
    return False


def small_history(seed):
    """The operations of a random history with at most four puts of distinct versions, and without deletions."""
    while True:
        lines = plain.some_lines(seed, 1)
        history = plain.history_of(lines)
        puts = plain.of_kind(history, "put")
        if 2 <= len(puts) <= 4 and len(history) <= 9 and not plain.doubled(history) and not plain.without_source(history):
            return lines, history
        seed += 1_000_003


def small_ones():
    """On small histories it finds an order exactly where one of all orders has the history converge."""
    met, made = Counter(), [small_history(seed) for seed in range(SMALL)]
    pairs = [hidden(list(words_of(lines))) for lines, _ in made]
    by_key = [judged(lines) for lines, _ in pairs]
    by_value = [judged(lines, "--values") for _, lines in pairs]
    for seed, ((_, history), *found) in enumerate(zip(made, by_key, by_value)):
        for (status, text), is_fixed in zip(found, (True, False)):
            check(f"a small history, {seed}, {'versions of keys' if is_fixed else 'no versions'}: {text}", status == 0, has_order(history, is_fixed))
            met[is_fixed, status] += 1
    check(f"small histories: {dict(met)}", all(met[which, status] >= LEAST_OF_A_KIND for which in (True, False) for status in (0, 1)), True)


def planted():
    """A violation of each kind, and what is said of it."""
    alice = [line("alice", "put", "x", "1", 1), line("alice", "put", "x", "2", 2), line("alice", "put", "y", "3", 1)]
    knows = line("bob", "get", "y", "3", 1)
    bare = [line(*(it["client"], "put", it["put"], it["value"])) for it in alice]
    stale = "refused: 5 operations, 3 puts, 1 fault"
    turned = [line("a", "put", "y", "1", 1), line("b", "get", "y", "1", 1), line("b", "put", "x", "2", 1)]
    cases = [
        ("stale", [*alice, knows, line("bob", "get", "x", "1", 1)], (), (1, stale)),
        ("stale without versions", [*bare, line("bob", "get", "y", "3"), line("bob", "get", "x", "1")], ("--values",), CYCLE),
        ("a miss", [*alice, knows, line("bob", "get", "x")], (), (1, stale)),
        ("no source", [*alice, line("bob", "get", "x", "9", 9)], (), (1, "no source: no write has what this get returned")),
        ("no source without versions", [*bare, line("bob", "get", "x", "9")], ("--values",), (1, "no source: no write has what this get returned")),
        ("another value", [*alice, line("bob", "get", "x", "9", 1)], (), (1, "refused: 4 operations, 3 puts, 1 fault")),
        ("doubled", [*alice, line("bob", "put", "x", "4", 2)], (), (1, "doubled: two writes are the same")),
        ("doubled without versions", [*bare, line("bob", "put", "x", "2")], ("--values",), (1, "doubled: two writes are the same")),
        ("a cycle", [line("a", "put", "x", "1", 2), *turned], (), CYCLE),
    ]
    for name, lines, words, wanted in cases:
        check(f"planted: {name}", judged(lines, *words), wanted)


def unknown():
    """Puts of unknown outcome stand where the gets that returned them say, or are left out."""
    lost = {"client": "alice", "put": "x", "value": "late", "ok": None}
    got = line("bob", "get", "x", "late", 7)
    check("a put that took effect", judged([lost, got]), (0, "accepted: 2 operations, 1 puts"))
    check("without versions", judged([lost, line("bob", "get", "x", "late")], "--values"), (0, "accepted: 2 operations, 1 puts"))
    check("one that did not", judged([lost]), (0, "accepted: 0 operations, 0 puts"))
    old = [line("alice", "put", "x", "1", 8), line("alice", "put", "y", "1", 1), line("bob", "get", "y", "1", 1)]
    check("an old one", judged([lost, *old, got]), (1, "refused: 5 operations, 3 puts, 1 fault"))


def wrong():
    """Wrong lines are reported, and nothing is written, least of all over the lines."""
    for name, lines, words, said in (
        ("no client", [{"put": "x"}], (), "wrong: line 1: not one operation of a client"),
        ("no operation", [{"client": 1}], (), "wrong: line 1: not one operation of a client"),
        ("both", [{"client": 1, "put": "x", "get": "x"}], (), "wrong: line 1: not one operation of a client"),
        ("no object", [7], (), "wrong: line 1: not one operation of a client"),
        ("no version", [line(1, "put", "x", "1")], (), "wrong: line 1: a write without a version"),
        ("a version", [line(1, "put", "x", "1", 1)], ("--values",), "wrong: line 1: a version or a deletion, with --values"),
        ("a deletion", [line(1, "del", "x")], ("--values",), "wrong: line 1: a version or a deletion, with --values"),
    ):
        check(f"wrong lines: {name}", judged(lines, *words), (2, said))
    check("versions of two kinds", judged([line(1, "put", "x", "1", 1), line(1, "put", "x", "2", "b")])[0], 2)
    with tempfile.NamedTemporaryFile("w+") as file:
        file.write(json.dumps(line(1, "put", "x", "1", 1)) + "\n")
        file.flush()
        ended = subprocess.run([sys.executable, ARBITRATE, file.name, file.name], stderr=subprocess.PIPE, text=True)
        file.seek(0)
        check("one file", (ended.returncode, ended.stderr, len(file.read()) > 0), (2, "wrong: the two files are one\n", True))


def arbitrate():
    for test in (published, planted, unknown, wrong, of_the_cluster, small_ones):
        test()
