#!/usr/bin/env python3
"""Tests of the output of `cops explain`: where to look, which classes were not looked for, and the counts of the first line.

Prints a line for each test that fails, and at the end `N passed, M failed`.
"""
import os
import random
import re
import sys
import tempfile

sys.dont_write_bytecode = True
from traces import ROOT, check, cops, ended, example, trace  # noqa: E402

NOT_LOOKED_FOR = {
    "doubled": "not looked for while duplicate versions remain: reads without a source, puts out of order, stale reads",
    "no_source": "not looked for while reads without a source remain: puts out of order, stale reads",
    "not_above": "not looked for while puts out of order remain: stale reads",
}

# A chain from client 0 to client 2 through client 1, whose reads were correct.
PHOTO = """clients 3
0 put photo old 1.0
0 put photo new 2.0
1 got photo new 2.0
1 put comment nice 3.0
2 got comment nice 3.0
2 got photo old 1.0
"""

# Traces with stale gets, and the line that says where to look.
PLACES = [
    (PHOTO, "look at: (2,1), which returned an older put; its client knew of the newer put by (2,0)"),
    (PHOTO.replace("2 got photo old 1.0", "2 missed photo"), "look at: (2,1), which returned nothing; its client knew of the newer put by (2,0)"),
    (
        PHOTO.replace("2 got photo old", "2 got other 9 9.0\n2 got photo old").replace("clients 3", "clients 4") + "3 put other 9 9.0\n",
        "look at: (2,2), which returned an older put; its client knew of the newer put by (2,0)",
    ),
    ("clients 1\n0 put x 1 1.0\n0 put y 2 2.0\n0 missed x\n", "look at: (0,2), which returned nothing; the newer put (0,0) is its client's own"),
    ("clients 1\n0 put x 1 1.0\n0 put x 2 2.0\n0 got x 1 1.0\n", "look at: (0,2), which returned an older put; the newer put (0,1) is its client's own"),
    (
        "clients 2\n0 put x 1 1.0\n0 put x 2 2.0\n1 got x 2 2.0\n1 got x 1 1.0\n",
        "look at: (1,1), which returned an older put; its client knew of the newer put by (1,0)",
    ),
    (
        # The newer put is client 1's own, although the client also knows of it through client 0, which had got it.
        "clients 2\n0 put x 1 1.0\n1 put x 2 2.1\n0 got x 2 2.1\n0 put y 3 3.0\n1 got y 3 3.0\n1 got x 1 1.0\n",
        "look at: (1,2), which returned an older put; the newer put (1,0) is its client's own",
    ),
    # The newer put is a deletion, by the same client or by another one, or the get found an older deletion.
    ("clients 1 format 2\n0 put x 1 1.0\n0 del x 2.0\n0 got x 1 1.0\n", "look at: (0,2), which returned an older put; the newer put (0,1) is its client's own"),
    ("clients 1 format 2\n0 del x 1.0\n0 missed x\n", "look at: (0,1), which returned nothing; the newer put (0,0) is its client's own"),
    (
        "clients 2 format 2\n0 put x 1 1.0\n0 del x 2.0\n1 gone x 2.0\n1 got x 1 1.0\n",
        "look at: (1,1), which returned an older put; its client knew of the newer put by (1,0)",
    ),
    (
        "clients 2 format 2\n0 del x 1.0\n0 put x 2 2.0\n1 got x 2 2.0\n1 gone x 1.0\n",
        "look at: (1,1), which returned an older deletion; its client knew of the newer put by (1,0)",
    ),
    (
        "clients 2 format 2\n0 del x 1.0\n0 del x 2.0\n1 gone x 2.0\n1 gone x 1.0\n",
        "look at: (1,1), which returned an older deletion; its client knew of the newer put by (1,0)",
    ),
]

# PHOTO with a deletion in place of the newer photo.
DELETED_PHOTO = PHOTO.replace("clients 3", "clients 3 format 2").replace("put photo new", "del photo").replace("got photo new", "gone photo")


def explained(data, *words):
    """The status, the errors and the lines of an explanation. The last line is empty, since each line ends with a line feed."""
    status, out, errors = cops("explain", "-", *words, stdin=data)
    return (status, errors), out.decode().split("\n")


def lines_of(text):
    return trace(text.split("\n"))


def places():
    for text, place in PLACES:
        status, lines = explained(lines_of(text))
        check(f"where to look: {place}", (status, [line for line in lines if line.startswith("look at: ")]), ((1, b""), [place]))
    wanted = """refused: 6 operations, 3 puts, 1 fault

fault 1: stale (2,1)
client 2 got photo=old at 1.0, though it had to know of the newer put (0,1)
(0,1) client 0 put photo=new at 2.0
(1,0) client 1 got photo=new at 2.0: returned that put
(1,1) client 1 put comment=nice at 3.0: the same client's later operation
(2,0) client 2 got comment=nice at 3.0: returned that put
(2,1) client 2 got photo=old at 1.0: the same client's later operation
should have returned: (0,1) client 0 put photo=new at 2.0, or a newer put
look at: (2,1), which returned an older put; its client knew of the newer put by (2,0)
""".split("\n")
    of_deletion = [line.replace("client 0 put photo=new", "client 0 deleted photo").replace("got photo=new", "found a deletion of photo") for line in wanted]
    for name, text, expected in (("the whole paragraph", PHOTO, wanted), ("the whole paragraph of a deletion", DELETED_PHOTO, of_deletion)):
        status, lines = explained(lines_of(text))
        check(name, (status, lines[: len(expected) - 1], len(lines)), ((1, b""), expected[:-1], len(expected) + 2))


def place_of(paragraph):
    """The operation that a paragraph explains, and the place to look that follows from the chain of the paragraph."""
    op = re.search(r"stale (\(\d+,\d+\))", paragraph)[1]
    found = re.search(r"client \d+ (got nothing at|found a deletion of|got) [^\n]*, though it", paragraph)[1]
    returned = {"got nothing at": "nothing", "found a deletion of": "an older deletion", "got": "an older put"}[found]
    chain = re.findall(r"^(\((\d+),\d+\)) client", paragraph, re.MULTILINE)
    by = chain[0][0]
    for (_, before), (name, client) in zip(chain, chain[1:]):
        by = name if client != before else by
    last = f"its client knew of the newer put by {by}" if chain[0][1] != chain[-1][1] else f"the newer put {chain[0][0]} is its client's own"
    return op, f"look at: {op}, which returned {returned}; {last}"


def generated(seed):
    """A random trace in which a get returns one of the last three puts of its key, or nothing: many gets are stale, and no other class has a fault. Every
    second trace has format 2, and a third of its puts are deletions."""
    pick, number = random.Random(seed), 1 + seed % 2
    clients, clock, puts, known, deleted, lines = pick.randrange(1, 6), 0, {}, {}, set(), []
    for _ in range(60):
        client, key = pick.randrange(clients), pick.choice("xyz")
        if pick.random() < 0.4:
            clock += 1
            puts.setdefault(key, []).append(clock)
            known[clock] = client
            if number == 2 and pick.random() < 0.33:
                deleted.add(clock)
            lines.append(f"{client} del {key} {clock}.{client}" if clock in deleted else f"{client} put {key} {clock} {clock}.{client}")
        elif key in puts and pick.random() < 0.9:
            of = pick.choice(puts[key][-3:])
            lines.append(f"{client} gone {key} {of}.{known[of]}" if of in deleted else f"{client} got {key} {of} {of}.{known[of]}")
        else:
            lines.append(f"{client} missed {key}")
    return trace([f"clients {clients} format {number}", *lines])


def generated_places():
    stale = older_deletions = 0
    for seed in range(40):
        status, lines = explained(generated(seed), "--all")
        paragraphs = ("\n".join(lines)).split("\n\n")[1:]
        for paragraph in paragraphs:
            op, place = place_of(paragraph)
            check(f"where to look, generated {seed} {op}", re.findall(r"^look at: .*$", paragraph, re.MULTILINE), [place])
        check(f"no class comes after stale gets, {seed}", "not looked for" in "\n".join(lines), False)
        stale += len(paragraphs)
        older_deletions += sum("returned an older deletion" in paragraph for paragraph in paragraphs)
    check("there are stale gets", stale > 100, True)
    check("some of them found an older deletion", older_deletions > 20, True)


def later_classes():
    """The last line, after an empty one, says which classes were not looked for, whatever faults are asked for. There is no such line for a stale get, for an
    accepted trace, or for bytes that are not a trace."""
    for name, line in NOT_LOOKED_FOR.items():
        for words in ([], ["--all"], ["--fault", "1"], ["--fault", "9"]):
            status, lines = explained(example(f"{name}.trace"), *words)
            check(f"{name} {words}: what was not looked for", (status, lines[-3:]), ((1, b""), ["", line, ""]))
            check(f"{name} {words}: it is said once", sum("not looked for" in it for it in lines), 1)
    for words in ([], ["--all"], ["--fault", "9"]):
        for data in (example("stale.trace"), example("stale_missed.trace"), example("stale_deleted.trace")):
            check(f"a stale get {words}", "not looked for" in "\n".join(explained(data, *words)[1]), False)
    check("an accepted trace", explained(example("put_and_get.trace")), ((0, b""), ["accepted: 2 operations, 1 puts", ""]))
    check("no trace", explained(example("stale.trace")[:-1]), ((2, b""), ["faulty: cut at 129", ""]))


def counts():
    """The first line uses the singular for one thing."""
    for text, line in (
        ("clients 1\n0 got x 1 1.0\n", "refused: 1 operation, 0 puts, 1 fault"),
        ("clients 1\n0 put y 1 1.0\n0 got x 1 2.0\n0 got x 1 3.0\n", "refused: 3 operations, 1 put, 2 faults"),
        ("clients 1\n0 put y 1 1.0\n0 put y 1 1.0\n", "refused: 2 operations, 2 puts, 2 faults"),
    ):
        check(f"first line: {line}", explained(lines_of(text))[1][0], line)
    text = "clients 1 format 2\n0 del x 1.0\n0 gone x 2.0\n"
    check("first line: a deletion is a put", explained(lines_of(text))[1][0], "refused: 2 operations, 1 put, 1 fault")
    many = "clients 1\n0 put x 1 1.0\n" + "0 missed x\n" * 22
    check("more than the first", explained(lines_of(many))[1][-2], "and 2 more: --all explains every fault, --fault N the fault of that number")
    check("no such fault", explained(lines_of(many), "--fault", "23")[1], ["refused: 23 operations, 1 put, 22 faults", "", "there is no fault 23", ""])


def documented():
    """docs/REPORTS.md has the whole explanation of a get without a source."""
    with open(os.path.join(ROOT, "docs", "REPORTS.md"), encoding="utf-8") as page:
        shown = re.search(r"^\$ \./cops explain examples/no_source\.trace\n(.*?)^```$", page.read(), re.DOTALL | re.MULTILINE)
    answer = cops("explain", os.path.join(ROOT, "examples", "no_source.trace"))
    check("the explanation in docs/REPORTS.md", answer, (1, shown[1].encode() if shown else None, b""))


def sentences():
    """The sentence of a picture about a stale get."""
    for name, sentence in (
        ("stale", b"the red get returned an older version than the green put, which was in its past"),
        ("stale_missed", b"the red get returned nothing, though the green put was in its past"),
    ):
        with tempfile.TemporaryDirectory() as folder:
            picture = os.path.join(folder, "picture.svg")
            cops("explain", "-", "--picture", picture, stdin=example(f"{name}.trace"))
            with open(picture, "rb") as file:
                check(f"the sentence of the picture of {name}", b">" + sentence + b"</text>" in file.read(), True)


if __name__ == "__main__":
    places()
    generated_places()
    later_classes()
    counts()
    documented()
    sentences()
    sys.exit(ended())
