"""Tests of `cops check`, which judges JSON Lines and explains the faults by the recorder's names and lines, and of explanations as JSON. The texts are by
hand, and of random lines they are those of an explanation in Python, a reference implementation on top of the plain auditor."""
import json
import os
import random
import subprocess
import tempfile
from collections import Counter
from concurrent.futures import ThreadPoolExecutor

import plain
from imports import PLAIN, imported
from pictures import NOT_DRAWN, label_and_cards
from traces import BUILT, ROOT, by_stalling_pipe, check, cops, example, skip, status_of, trace

LINES = 500
LEAST_OF_A_KIND = 10
MOST_OTHERS, VALUE_BYTES = 20, 64

# The characters that are not shown as they are: controls, separators of lines and paragraphs, and controls of the direction of writing.
HIDDEN = [(0, 0x1F), (0x7F, 0x9F), (0x200E, 0x200F), (0x2028, 0x2029), (0x202A, 0x202E), (0x2066, 0x2069)]

CAUSES = {
    "doubled": """usual causes: two nodes with one number; a clock that was read from a snapshot after a crash and gives versions again;
a recorder that wrote an operation twice, for instance since its client tried again and both tries were answered
""",
    "no source": """usual causes: the put was not recorded, since its client failed first, its trace is no part of this one, or the trace ended before it;
the value was changed on the way; the store answered with the version of one put and the value of another, by a read that is not atomic
""",
    "not above": """usual causes: a node gives versions from its own clock alone, and does not raise it to those of the put's dependencies;
a clock of real time went backwards; a client lost its context, for instance by changing its session
""",
    "stale": """usual causes: a put was shown before what it depends on had come; a dependency was answered by a newer put, whose own were not looked at;
a context forgot a pair; a client read from two replicas, one of which lagged
""",
}
LATER = {
    "doubled": "not looked for while duplicate versions remain: reads without a source, puts out of order, stale reads\n",
    "no source": "not looked for while reads without a source remain: puts out of order, stale reads\n",
    "not above": "not looked for while puts out of order remain: stale reads\n",
}
CLASSES = ("doubled", "no source", "not above", "stale")

ALL_WITH_FAULT = b"""error: the argument '--all' cannot be used with '--fault <N>'

Usage: cops check --all <LINES>

For more information, try '--help'.
"""


# ---- lines by hand


def put(client, key, value, version, **more):
    return {"client": client, "put": key, "value": value, "version": version, **more}


def got(client, key, value, version):
    return {"client": client, "get": key, "value": value, "version": version}


def missed(client, key):
    return {"client": client, "get": key, "value": None}


def deleted(client, key, version):
    return {"client": client, "del": key, "version": version}


def gone(client, key, version):
    return {"client": client, "get": key, "value": None, "version": version}


def lines_of(*given):
    """JSON Lines of these objects, and as they are of these texts."""
    return "".join((of if isinstance(of, str) else json.dumps(of, ensure_ascii=False)) + "\n" for of in given).encode()


STALE = f"""refused: 5 operations, 3 puts, 1 fault

fault 1: stale bob, line 5
bob got x=1 at 1.0, though it had to know of the newer put ann, line 2
ann, line 2: put x=2 at 2.0
ann, line 3: put y=3 at 3.0: the same client's later operation
bob, line 4: got y=3 at 3.0: returned that put
bob, line 5: got x=1 at 1.0: the same client's later operation
should have returned: ann, line 2: put x=2 at 2.0, or a newer put
look at: bob, line 5, which returned an older put; its client knew of the newer put by bob, line 4
{CAUSES["stale"]}"""

# Lines of each class, and the text of their check.
BY_HAND = [
    ("no lines", b"", [], "accepted: 0 operations, 0 puts\n"),
    ("blank lines", b"\n \t\r\n\n", [], "accepted: 0 operations, 0 puts\n"),
    ("no faults", lines_of(put("a", "x", "1", 1), got("b", "x", "1", "1.0")), [], "accepted: 2 operations, 1 puts\n"),
    ("one put", lines_of(put("a", "x", "1", 1)), ["--all"], "accepted: 1 operations, 1 puts\n"),
    (
        "a version that two puts have",
        lines_of(put("ann", "x", "1", 1), put("bob", "y", "2", [1, 0]), missed("ann", "z")),
        [],
        f"""refused: 3 operations, 2 puts, 2 faults

fault 1: doubled ann, line 1
ann, line 1: put x=1 at 1.0
no other put may have that version, and these do:
bob, line 2: put y=2 at 1.0
{CAUSES["doubled"]}
fault 2: doubled bob, line 2
bob, line 2: put y=2 at 1.0
no other put may have that version, and these do:
ann, line 1: put x=1 at 1.0
{CAUSES["doubled"]}
{LATER["doubled"]}""",
    ),
    (
        "gets without a source",
        lines_of(got("ann", "x", "1", 1), put("bob", "x", "2", 2), got("ann", "x", "3", 2)),
        [],
        f"""refused: 3 operations, 1 put, 2 faults

fault 1: no source ann, line 1
ann, line 1: got x=1 at 1.0
no put has that key, value and version
no put has that version
{CAUSES["no source"]}
fault 2: no source ann, line 3
ann, line 3: got x=3 at 2.0
no put has that key, value and version
of that version there is:
bob, line 2: put x=2 at 2.0
{CAUSES["no source"]}
{LATER["no source"]}""",
    ),
    (
        "a put that is not above a get before it",
        lines_of(put(7, "x", "1", "1.64"), got("8", "x", "1", "1.64"), put(8, "y", "2", 1)),
        [],
        f"""refused: 3 operations, 2 puts, 1 fault

fault 1: not above 8, line 3
8, line 3: put y=2 at 1.0
its version is not above that of what its client did before:
8, line 2: got x=1 at 1.64
{CAUSES["not above"]}
{LATER["not above"]}""",
    ),
    (
        "deletions",
        lines_of(deleted("ann", "x", 1), put("ann", "x", "", 2), got("bob", "x", "", 2), gone("bob", "x", 1), deleted("ann", "x", 3)),
        [],
        f"""refused: 5 operations, 3 puts, 1 fault

fault 1: stale bob, line 4
bob found a deletion of x at 1.0, though it had to know of the newer put ann, line 2
ann, line 2: put x= at 2.0
bob, line 3: got x= at 2.0: returned that put
bob, line 4: found a deletion of x at 1.0: the same client's later operation
should have returned: ann, line 2: put x= at 2.0, or a newer put
look at: bob, line 4, which returned an older deletion; its client knew of the newer put by bob, line 3
{CAUSES["stale"]}""",
    ),
    (
        "a deletion of which its client knows",
        lines_of(put("ann", "x", "1", 1), deleted("ann", "x", 2), missed("ann", "x")),
        [],
        f"""refused: 3 operations, 2 puts, 1 fault

fault 1: stale ann, line 3
ann got nothing at x, though it had to know of the newer put ann, line 2
ann, line 2: deleted x at 2.0
ann, line 3: got nothing at x: the same client's later operation
should have returned: ann, line 2: deleted x at 2.0, or a newer put
look at: ann, line 3, which returned nothing; the newer put ann, line 2 is its client's own
{CAUSES["stale"]}""",
    ),
    (
        "a deletion without a source",
        lines_of(put("ann", "x", "1", 1), gone("bob", "x", 1)),
        [],
        f"""refused: 2 operations, 1 put, 1 fault

fault 1: no source bob, line 2
bob, line 2: found a deletion of x at 1.0
no put has that key, value and version
of that version there is:
ann, line 1: put x=1 at 1.0
{CAUSES["no source"]}
{LATER["no source"]}""",
    ),
    (
        "blank lines between operations, and a line feed that is missing at the end",
        (b"\n \r\n" + lines_of(put("ann", "x", "1", 1), "\t", "", deleted("ann", "x", 2), " ") + b"\r\n" + lines_of(missed("ann", "x")))[:-1],
        ["--fault", "1"],
        f"""refused: 3 operations, 2 puts, 1 fault

fault 1: stale ann, line 9
ann got nothing at x, though it had to know of the newer put ann, line 6
ann, line 6: deleted x at 2.0
ann, line 9: got nothing at x: the same client's later operation
should have returned: ann, line 6: deleted x at 2.0, or a newer put
look at: ann, line 9, which returned nothing; the newer put ann, line 6 is its client's own
{CAUSES["stale"]}""",
    ),
    (
        "no fault of that number",
        lines_of(got("ann", "x", "1", 1)),
        ["--fault", "2"],
        f"refused: 1 operation, 0 puts, 1 fault\n\nthere is no fault 2\n\n{LATER['no source']}",
    ),
    (
        "no fault of that number, of a stale get",
        example("stale.jsonl"),
        ["--fault", "16000000"],
        "refused: 5 operations, 3 puts, 1 fault\n\nthere is no fault 16000000\n",
    ),
    ("a number of a fault, of accepted lines", lines_of(put("a", "x", "1", 1)), ["--fault", "2"], "accepted: 1 operations, 1 puts\n"),
]


def alone(key, value, name="ann"):
    """A get without a source by a client of this name, and the line that says what it got."""
    return lines_of(got(name, key, value, 1))


# Names, keys and values, and how they are shown.
SHOWN = [
    ("ann lee", "a key", "a value", "ann lee, line 1: got a key=a value at 1.0"),
    ("", " ", "", ", line 1: got  = at 1.0"),
    ("Zoë", "ключ", "値 ✓ 🦀", "Zoë, line 1: got ключ=値 ✓ 🦀 at 1.0"),
    ("a=b, line 2", "%41", "x|y%25;'\"\\<&>", "a=b, line 2, line 1: got %41=x|y%25;'\"\\<&> at 1.0"),
    ("an\nn", "k\ty", "\u001b[31m ü", "an%0an, line 1: got k%09y=%1b%5b31m%20%c3%bc at 1.0"),
    ("a\u007f", "\u0080 b", "a\u009fb", "a%7f, line 1: got %c2%80%20b=a%c2%9fb at 1.0"),
    ("\u202eann", "a\u2066b", "\u200f", "%e2%80%aeann, line 1: got a%e2%81%a6b=%e2%80%8f at 1.0"),
    ("a\u2028", "\u2029", "x\u0000y", "a%e2%80%a8, line 1: got %e2%80%a9=x%00y at 1.0"),
    # Just outside the ranges of what is not shown as it is: these are letters, spaces and marks.
    ("\u0020~", "\u00a0\u200d", "\u2010\u2027\u202f\u2065\u206a", "\u0020~, line 1: got \u00a0\u200d=\u2010\u2027\u202f\u2065\u206a at 1.0"),
    # Keys and names are never cut, and values only after 64 bytes.
    ("n" * 100, "k" * 64, "v" * 64, f"{'n' * 100}, line 1: got {'k' * 64}={'v' * 64} at 1.0"),
    ("ann", "x", "v" * 65, f"ann, line 1: got x={'v' * 64}.. (65 bytes) at 1.0"),
    ("ann", "x", "v" * 16_384, f"ann, line 1: got x={'v' * 64}.. (16384 bytes) at 1.0"),
    # The 64th byte is the first of two, the second of two, and the first, second and third of four.
    ("ann", "x", "v" * 63 + "ü" + "w", f"ann, line 1: got x={'v' * 63}.. (66 bytes) at 1.0"),
    ("ann", "x", "v" * 63 + "ü", f"ann, line 1: got x={'v' * 63}.. (65 bytes) at 1.0"),
    ("ann", "x", "v" * 62 + "ü", f"ann, line 1: got x={'v' * 62}ü at 1.0"),
    ("ann", "x", "v" * 62 + "üw", f"ann, line 1: got x={'v' * 62}ü.. (65 bytes) at 1.0"),
    *[("ann", "x", "v" * (64 - n) + "🦀w", f"ann, line 1: got x={'v' * (64 - n)}.. ({69 - n} bytes) at 1.0") for n in (1, 2, 3)],
    ("ann", "x", "v" * 60 + "🦀w", f"ann, line 1: got x={'v' * 60}🦀.. (65 bytes) at 1.0"),
    # A character behind the first 64 bytes that is not printable has the whole value escaped, of which the first 64 bytes are shown.
    ("ann", "x", "v w" + "v" * 70 + "\n", f"ann, line 1: got x=v%20w{'v' * 61}.. (74 bytes) at 1.0"),
    ("ann", "x", "v" * 63 + "ü\n", f"ann, line 1: got x={'v' * 63}%c3.. (66 bytes) at 1.0"),
    ("ann", "x", "\n" * 64, f"ann, line 1: got x={'%0a' * 64} at 1.0"),
    ("ann", "x", "\n" * 65, f"ann, line 1: got x={'%0a' * 64}.. (65 bytes) at 1.0"),
]


def by_hand():
    """The stale example, lines of each class of faults, and how names, keys and values are shown; by a file, and by standard input."""
    path = os.path.join(ROOT, "examples", "stale.jsonl")
    data = example("stale.jsonl")
    check("check of stale.jsonl, by file", cops("check", path), (1, STALE.encode(), b""))
    check("check of stale.jsonl, by standard input", cops("check", "-", stdin=data), (1, STALE.encode(), b""))
    check("check of stale.jsonl, a byte at a time", by_stalling_pipe(["check", "-"], [bytes([byte]) for byte in data]), (1, STALE.encode(), b""))
    with open(os.path.join(ROOT, "README.md"), encoding="utf-8") as file:
        check("README.md has this check", f"$ ./cops check examples/stale.jsonl\n{STALE}```" in file.read(), True)
    in_trace = cops("explain", os.path.join(ROOT, "examples", "stale.trace"))[1].decode()
    check("the explanation of its trace", in_trace.split("\n")[1:3], ["", "fault 1: stale (1,1)"])
    for name, lines, words, text in BY_HAND:
        check(f"check of {name}", cops("check", "-", *words, stdin=lines), (status_of(text), text.encode(), b""))
    for name, key, value, line in SHOWN:
        title = f"fault 1: no source {line.partition(': got ')[0]}"
        text = f"refused: 1 operation, 0 puts, 1 fault\n\n{title}\n{line}\nno put has that key, value and version\nno put has that version\n"
        wanted = f"{text}{CAUSES['no source']}\n{LATER['no source']}"
        check(f"check of {name!a} {key!a} {value!a}", cops("check", "-", stdin=alone(key, value, name)), (1, wanted.encode(), b""))


def in_traces():
    """In the explanation of a trace, too, printable keys and values stand as they are, and long values are cut."""
    for _, key, value, line in SHOWN:
        data = imported(alone(key, value), "--format", "2")[3]
        shown = "(0,0) client 0 got " + line.partition(": got ")[2]
        check(f"explain of {key!a} {value!a}", cops("explain", "-", stdin=data)[1].decode().split("\n")[3], shown)
    # Bytes that are no UTF-8 can be in a trace, and not in lines: they are escaped, as by `cops show`.
    data = trace(["clients 1", "0 got kk vvvv 1.0"]).replace(b"kk", b"k\xff").replace(b"vvvv", b"v \xc3v")
    check("explain of bytes that are no UTF-8", cops("explain", "-", stdin=data)[1].decode().split("\n")[3], "(0,0) client 0 got k%ff=v%20%c3v at 1.0")
    operation = {"client": 0, "index": 0, "operation": "get", "key_hex": "6bff", "value_hex": "7620c376", "version": "1.0"}
    wanted = refusal(1, 0, 1, "no source", [{"number": 1, **operation, "puts": [], "more_puts": 0}])
    check("the JSON of bytes that are no UTF-8", cops("explain", "-", "--json", stdin=data), (1, wanted, b""))


def refusal(operations, puts, faults, of_class, explained):
    """The line of JSON of a refusal."""
    later = list(CLASSES[CLASSES.index(of_class) + 1 :])
    counts = {"verdict": "refused", "operations": operations, "puts": puts, "faults": faults}
    return json_line({**counts, "class": of_class, "explained": explained, "not_looked_for": later})


def json_line(of):
    """The text of JSON in a line: without spaces, with members in the order of their names, and with no more escapes than JSON needs."""
    return (json.dumps(of, sort_keys=True, separators=(",", ":"), ensure_ascii=False) + "\n").encode()


def many():
    """Of 25 faults the first 20 are explained, or all, or one; each has its own number in both forms."""
    lines = lines_of(put("ann", "x", "1", 1), *(missed("ann", "x") for _ in range(25)))
    titles = {number: f"fault {number}: stale ann, line {number + 1}" for number in range(1, 26)}
    for words, numbers, more in (
        ([], range(1, 21), "and 5 more: --all explains every fault, --fault N the fault of that number"),
        (["--all"], range(1, 26), None),
        (["--fault", "25"], [25], None),
        (["--fault", "26"], [], "there is no fault 26"),
    ):
        status, out, errors = cops("check", "-", *words, stdin=lines)
        text = out.decode().split("\n")
        check(f"the first line of 25 faults {words}", (status, text[0], errors), (1, "refused: 26 operations, 1 put, 25 faults", b""))
        check(f"the titles of 25 faults {words}", [line for line in text if line.startswith("fault ")], [titles[number] for number in numbers])
        check(f"the last line of 25 faults {words}", text[-2] if more else None, more)
        status, out, errors = cops("check", "-", "--json", *words, stdin=lines)
        of = json.loads(out)
        check(f"the JSON of 25 faults {words}", (status, of["faults"], of["class"], errors), (1, 25, "stale", b""))
        check(f"their numbers {words}", [(it["number"], it["line"]) for it in of["explained"]], [(number, number + 1) for number in numbers])
    puts = lines_of(*(put(f"client {n}", f"k{n}", "1", 1) for n in range(23)))
    of = json.loads(cops("check", "-", "--json", "--fault", "2", stdin=puts)[1])["explained"]
    check("23 puts of a version", [(it["number"], len(it["puts"]), it["more_puts"]) for it in of], [(2, 20, 2)])
    check("the first of them", [it["name"] for it in of[0]["puts"]], ["client 0", *(f"client {n}" for n in range(2, 21))])


def large():
    """Many lines of many clients, with blank lines between them: the one get without a source is named by its line, and by its index."""
    pick, lines, indices = random.Random(1), [], Counter()
    for clock in range(1, 30_001):
        client = f"client {pick.randrange(300)}"
        lines += [""] * pick.choice((0, 0, 0, 1, 2))
        if clock == 29_000:
            named = client, indices[client], len(lines) + 1
            lines.append(json.dumps(got(client, "x", "1", "99999.1")))
        else:
            lines.append(json.dumps(put(client, f"k{clock % 1_000}", "v" * pick.randrange(40), clock)))
        indices[client] += 1
    data, (client, index, number) = "\n".join(lines).encode(), named
    text = cops("check", "-", stdin=data)[1].decode().split("\n")
    called = f"{client}, line {number}"
    wanted = ["refused: 30000 operations, 29999 puts, 1 fault", "", f"fault 1: no source {called}", f"{called}: got x=1 at 99999.1"]
    check("check of many lines", text[:4], wanted)
    of = json.loads(cops("check", "-", "--json", stdin=data)[1])["explained"]
    check("JSON of many lines", [(it["name"], it["index"], it["line"]) for it in of], [(client, index, number)])
    check("many lines and a wrong one", cops("check", "-", stdin=data + b"\n\n{")[1], f"faulty: line {len(lines) + 2}: no JSON\n".encode())


STALE_JSON = {
    "verdict": "refused", "operations": 5, "puts": 3, "faults": 1, "class": "stale", "not_looked_for": [],
    "explained": [
        {
            "number": 1, "client": 1, "index": 1, "name": "bob", "line": 5, "operation": "get", "key": "x", "value": "1", "version": "1.0",
            "newer": {"client": 0, "index": 1, "name": "ann", "line": 2, "operation": "put", "key": "x", "value": "2", "version": "2.0"},
            "chain": [
                {"client": 0, "index": 1, "name": "ann", "line": 2, "operation": "put", "key": "x", "value": "2", "version": "2.0"},
                {"client": 0, "index": 2, "name": "ann", "line": 3, "operation": "put", "key": "y", "value": "3", "version": "3.0"},
                {"client": 1, "index": 0, "name": "bob", "line": 4, "operation": "get", "key": "y", "value": "3", "version": "3.0"},
                {"client": 1, "index": 1, "name": "bob", "line": 5, "operation": "get", "key": "x", "value": "1", "version": "1.0"},
            ],
        }
    ],
}  # fmt: skip


def without_names(of):
    """The same object, as it is for a trace: without the names of clients and the numbers of lines."""
    if isinstance(of, dict):
        return {name: without_names(value) for name, value in of.items() if name not in ("name", "line")}
    return list(map(without_names, of)) if isinstance(of, list) else of


def as_json():
    """The JSON of the stale example, of accepted lines, of deletions, of wrong lines and of bytes that are no trace."""
    check("JSON of stale.jsonl", cops("check", "-", "--json", stdin=example("stale.jsonl")), (1, json_line(STALE_JSON), b""))
    check("JSON of stale.trace", cops("explain", "-", "--json", stdin=example("stale.trace")), (1, json_line(without_names(STALE_JSON)), b""))
    accepted = b'{"faults":0,"operations":2,"puts":1,"verdict":"accepted"}\n'
    check("JSON of accepted lines", cops("check", "-", "--json", stdin=example("put_and_get.jsonl")), (0, accepted, b""))
    check("JSON of an accepted trace", cops("explain", "-", "--json", stdin=example("put_and_get.trace")), (0, accepted, b""))
    check("JSON of no lines", cops("check", "-", "--json"), (0, b'{"faults":0,"operations":0,"puts":0,"verdict":"accepted"}\n', b""))
    wrong = lines_of(put("a", "x", "1", 1), "", put("a", "x", "2", 0))
    check("JSON of a wrong line", cops("check", "-", "--json", stdin=wrong), (2, b'{"fault":"bad version","line":3,"verdict":"faulty"}\n', b""))
    cut = example("put_and_get.trace")[:60]
    check("JSON of a cut trace", cops("explain", "-", "--json", stdin=cut), (2, b'{"fault":"cut at 57","verdict":"faulty"}\n', b""))
    none = cops("explain", "-", "--json", stdin=example("stale.jsonl"))
    check("JSON of lines in place of a trace", none[:2], (2, b'{"fault":"bad length at 0","verdict":"faulty"}\n'))
    operation = {"client": 0, "index": 1, "name": 'a"\\\n\u0001ü', "line": 2, "operation": "get", "key": "\u007f\u2028", "value": None, "version": "9.0"}
    lines = lines_of(deleted('a"\\\n\u0001ü', "x", 1), gone('a"\\\n\u0001ü', "\u007f\u2028", 9))
    wanted = refusal(2, 1, 1, "no source", [{"number": 1, **operation, "puts": [], "more_puts": 0}])
    check("JSON of a deletion, and of characters that are escaped", cops("check", "-", "--json", stdin=lines), (1, wanted, b""))
    long = lines_of(got("ann", "x", "v" * 16_384, 1))
    check("JSON of a long value", json.loads(cops("check", "-", "--json", stdin=long)[1])["explained"][0]["value"], "v" * 16_384)
    missing = json.loads(cops("check", "-", "--json", stdin=lines_of(put("ann", "x", "1", 1), missed("ann", "x")))[1])["explained"][0]
    check("JSON of a get that found nothing", (missing["operation"], missing["value"], missing["version"]), ("get", None, None))


# ---- wrong lines

WRONG = [
    ("x", "no JSON"),
    ("[]", "no client"),
    ('{"client":"a","version":1}', "no operation"),
    ('{"client":"a","put":"x","del":"x","version":1}', "both operations"),
    ('{"client":"a","put":"","value":"1","version":1}', "bad key"),
    ('{"client":"a","put":"x","version":1}', "bad value"),
    ('{"client":"a","get":"x"}', "bad value"),
    ('{"client":"a","del":"x","value":"1","version":1}', "bad value"),
    ('{"client":"a","put":"x","value":"' + "v" * 16_385 + '","version":1}', "bad value"),
    ('{"client":"a","del":"x"}', "bad version"),
]


def wrong_lines():
    """The first wrong line is reported with its number, whatever is behind it and however many lines are blank before it, as by `import --format 2`."""
    right = lines_of(put("a", "x", "1", 1), deleted("b", "x", 2))
    for line, words in WRONG:
        for before, number in ((b"", 1), (right, 3), (right + b"\n\t\r\n", 5)):
            data = before + lines_of(line) + b"also wrong"
            wanted = (2, f"faulty: line {number}: {words}\n".encode(), b"")
            check(f"check of line {number}, {line[:60]}", cops("check", "-", stdin=data), wanted)
            check(f"import of line {number}, {line[:60]}", imported(data, "--format", "2")[:3], wanted)
            as_object = json_line({"fault": words, "line": number, "verdict": "faulty"})
            for asked in ([], ["--all"], ["--fault", "3"]):
                check(f"JSON of line {number}, {line[:60]}, {asked}", cops("check", "-", "--json", *asked, stdin=data), (2, as_object, b""))
    check("check of a trace", cops("check", "-", stdin=example("stale.trace"))[:2], (2, b"faulty: line 1: no JSON\n"))


# ---- random lines


def printable(text):
    return not any(first <= ord(character) <= last for character in text for first, last in HIDDEN)


def escaped(data):
    return "".join(chr(byte) if byte in PLAIN else f"%{byte:02x}" for byte in data)


def content_text(text):
    return text if printable(text) else escaped(text.encode())


def value_text(value):
    data = value.encode()
    if len(data) <= VALUE_BYTES:
        return content_text(value)
    start = data[:VALUE_BYTES]
    return f"{start.decode(errors='ignore') if printable(value) else escaped(start)}.. ({len(data)} bytes)"


class Recording:
    """Random JSON Lines, and what they describe: the operations by name, and for each operation the name of its client and the number of its line."""

    def __init__(self, seed):
        pick = random.Random(seed)
        words = [line.split() for line in plain.some_lines(seed, 2)[1:]]
        names = pick.sample(["ann", "bob", "ann lee", "Zoë", "", "7", "a\nb", "\u202ex", "app-8", "(0,0)"], 4)
        keys = dict(zip("xyz", pick.sample(["x", "y", "k" * 64, "a key", "ключ", "a\u0000", "%", "=", " "], 3)))
        values = dict(zip("01", pick.sample(["", "1", "null", "v" * 64, "v" * 65, "ü" * 33, "a\tb" * 30, "\u2028", "v" * 5_000], 2)))
        self.history, self.names, self.numbers, self.lines = {}, [], {}, []
        for client, kind, key, *rest in words:
            while pick.random() < 0.2:
                self.lines.append(pick.choice(("", " ", "\t\r")))
            value = values[rest[0]] if len(rest) == 2 else None
            version = tuple(map(int, rest[-1].split("."))) if rest else None
            self.add(pick, names[int(client)], plain.Operation(kind, keys[key], value, version))
        self.data = "\n".join(self.lines).encode() + pick.choice((b"", b"\n", b"\n\n"))

    def add(self, pick, client, operation):
        """Adds an operation, and its line in one of the forms that lines may have."""
        if client not in self.names:
            self.names.append(client)
        number = self.names.index(client)
        name = number, sum(it[0] == number for it in self.history)
        self.history[name] = operation
        asked = operation.kind if operation.kind in plain.PUTS else "get"
        of = {"client": int(client) if client == "7" and pick.random() < 0.5 else client, asked: operation.key}
        if operation.kind != "del" or pick.random() < 0.5:
            of["value"] = operation.value
        if operation.version:
            clock, node = operation.version
            forms = [f"{clock}.{node}", [clock, node]] + ([clock] if node == 0 else [])
            of["version"] = pick.choice(forms)
        elif pick.random() < 0.5:
            of["version"] = None
        members = list(of.items())
        pick.shuffle(members)
        self.lines.append(json.dumps(dict(members), ensure_ascii=pick.random() < 0.5))
        self.numbers[name] = len(self.lines)

    # -- in words

    def called(self, name):
        return f"{content_text(self.names[name[0]])}, line {self.numbers[name]}"

    def act(self, name):
        kind, key, value, version = self.history[name]
        word = {"put": "put ", "del": "deleted ", "got": "got ", "gone": "found a deletion of ", "missed": "got nothing at "}[kind]
        shown = "" if value is None else f"={value_text(value)}"
        return word + content_text(key) + shown + (f" at {plain.version_text(version)}" if version else "")

    def reported(self, name):
        return f"{self.called(name)}: {self.act(name)}"

    def others(self, name):
        """The other puts with the version of an operation."""
        return [it for it in plain.of_kind(self.history, *plain.PUTS) if it != name and self.history[it].version == self.history[name].version]

    def faults(self):
        """The class that is reported, and for each of its faults the operation, and what shows it."""
        history = self.history
        for of_class, found in (
            ("doubled", lambda: [(put, self.others(put)) for put in plain.doubled(history)]),
            ("no source", lambda: [(get, self.others(get)) for get in plain.without_source(history)]),
            ("not above", lambda: plain.not_above(history)),
            ("stale", lambda: [(get, plain.chain(history, newer, get)) for get, newer in plain.stale(history)]),
        ):
            faults = found()
            if faults:
                return of_class, faults
        return "accepted", []

    def shown(self, of_class, name, by):
        """The lines that show a fault."""
        if of_class == "stale":
            return self.shown_stale(name, by)
        if of_class == "not above":
            return [self.reported(name), "its version is not above that of what its client did before:", self.reported(by)]
        if of_class == "doubled":
            return [self.reported(name), "no other put may have that version, and these do:", *map(self.reported, by)]
        holders = ["of that version there is:", *map(self.reported, by)] if by else ["no put has that version"]
        return [self.reported(name), "no put has that key, value and version", *holders]

    def shown_stale(self, get, chain):
        newer, kind = chain[0], self.history[get].kind
        returned = {"missed": "nothing", "gone": "an older deletion", "got": "an older put"}[kind]
        known_by = newer
        for before, name in zip(chain, chain[1:]):
            known_by = name if before[0] != name[0] else known_by
        if newer[0] == get[0]:
            known = f"the newer put {self.called(newer)} is its client's own"
        else:
            known = f"its client knew of the newer put by {self.called(known_by)}"
        steps = ["the same client's later operation" if a[0] == b[0] else "returned that put" for a, b in zip(chain, chain[1:])]
        return [
            f"{content_text(self.names[get[0]])} {self.act(get)}, though it had to know of the newer put {self.called(newer)}",
            self.reported(newer),
            *(f"{self.reported(name)}: {step}" for name, step in zip(chain[1:], steps)),
            f"should have returned: {self.reported(newer)}, or a newer put",
            f"look at: {self.called(get)}, which returned {returned}; {known}",
        ]

    def text(self, number=None):
        """The text of a check, with the paragraphs of all faults or of the one with this number."""
        of_class, faults = self.faults()
        puts = len(plain.of_kind(self.history, *plain.PUTS))
        if not faults:
            return f"accepted: {len(self.history)} operations, {puts} puts\n"
        counts = ((len(self.history), "operation"), (puts, "put"), (len(faults), "fault"))
        text = "refused: " + ", ".join(f"{count} {word}{'' if count == 1 else 's'}" for count, word in counts) + "\n"
        for at, (name, by) in enumerate(faults, 1):
            if number in (None, at):
                lines = [f"fault {at}: {of_class} {self.called(name)}", *self.shown(of_class, name, by)]
                text += "\n" + "\n".join(lines) + "\n" + CAUSES[of_class]
        if number is not None and number > len(faults):
            text += f"\nthere is no fault {number}\n"
        return text + ("\n" + LATER[of_class] if of_class in LATER else "")

    # -- as JSON

    def members(self, name):
        kind, key, value, version = self.history[name]
        called = {"client": name[0], "index": name[1], "name": self.names[name[0]], "line": self.numbers[name]}
        asked = kind if kind in plain.PUTS else "get"
        return {**called, "operation": asked, "key": key, "value": value, "version": plain.version_text(version) if version else None}

    def object_of(self, of_class, at, name, by):
        fault = {"number": at, **self.members(name)}
        if of_class == "stale":
            return {**fault, "newer": self.members(by[0]), "chain": list(map(self.members, by))}
        if of_class == "not above":
            return {**fault, "earlier": self.members(by)}
        return {**fault, "puts": list(map(self.members, by[:MOST_OTHERS])), "more_puts": max(0, len(by) - MOST_OTHERS)}

    def json(self, number=None):
        """The line of JSON of a check, with the objects of all faults or of the one with this number."""
        of_class, faults = self.faults()
        puts = len(plain.of_kind(self.history, *plain.PUTS))
        if not faults:
            return json_line({"verdict": "accepted", "operations": len(self.history), "puts": puts, "faults": 0})
        asked = [self.object_of(of_class, at, name, by) for at, (name, by) in enumerate(faults, 1) if number in (None, at)]
        return refusal(len(self.history), puts, len(faults), of_class, asked)


def is_a_chain(recording, fault):
    """Whether the chain of a stale get's object leads from the newer put to the get, by steps of sessions and from puts to gets that returned them."""
    names = [(it["client"], it["index"]) for it in fault["chain"]]
    ends = names[0] == (fault["newer"]["client"], fault["newer"]["index"]), names[-1] == (fault["client"], fault["index"])
    return all(ends) and set(zip(names, names[1:])) <= plain.steps(recording.history)


# Which faults of random lines are asked for.
ASKED = [([], None), (["--all"], None), (["--fault", "1"], 1), (["--fault", "2"], 2)]


def answers_of(recording, words):
    """A check in words and as JSON, and an import with an audit of what it wrote."""
    with tempfile.TemporaryDirectory() as folder:
        path = os.path.join(folder, "trace")
        imported_as = cops("import", "--format", "2", "-", path, stdin=recording.data)
        audited = cops("audit", path)
    in_words = cops("check", "-", *words, stdin=recording.data)
    return in_words, cops("check", "-", "--json", *words, stdin=recording.data), imported_as[0], audited


def random_lines():
    """The program and the explanation in Python agree on many small recordings. A check ends with the status of an import and an audit of what it wrote."""
    made, met = [Recording(seed) for seed in range(LINES)], Counter()
    with ThreadPoolExecutor(os.cpu_count() or 2) as pool:
        answers = list(pool.map(lambda seed: answers_of(made[seed], ASKED[seed % len(ASKED)][0]), range(LINES)))
    objects = []
    for seed, (recording, (in_words, as_object, importing, audited)) in enumerate(zip(made, answers)):
        number = ASKED[seed % len(ASKED)][1]
        text, met_class = recording.text(number), recording.faults()[0]
        met[met_class] += 1
        check(f"check of random lines {seed}", in_words, (status_of(text), text.encode(), b""))
        check(f"JSON of random lines {seed}", as_object, (status_of(text), recording.json(number), b""))
        check(f"the status of an audit of random lines {seed}", (importing, audited[0]), (0, in_words[0]))
        check(f"the audit of random lines {seed}", audited[1].decode(), plain.report(recording.history))
        objects.append(json.loads(as_object[1] or b"{}"))
        if met_class == "stale":
            chains = [is_a_chain(recording, fault) for fault in objects[-1].get("explained", [])]
            check(f"the chains of random lines {seed}", chains, [True] * len(chains))
    for kind in ("accepted", *CLASSES):
        check(f"random lines that are {kind}: {met[kind]}", met[kind] >= LEAST_OF_A_KIND, True)
    return objects


# ---- the schema


def validator():
    """What validates an object, or none where jsonschema is not installed."""
    try:
        import jsonschema
    except ImportError:
        skip("the schema of explanations", "Python's jsonschema is not installed")
        return None
    with open(os.path.join(ROOT, "docs", "explanation.schema.json"), encoding="utf-8") as file:
        schema = json.load(file)
    jsonschema.Draft7Validator.check_schema(schema)
    return jsonschema.Draft7Validator(schema)


def fits_schema(objects):
    """Explanations of traces and checks of lines fit docs/explanation.schema.json, and objects that differ from them do not."""
    valid = validator()
    if not valid:
        return
    names = ("empty", "put_and_get", "no_source", "doubled", "not_above", "stale", "stale_missed", "two_orders", "deleted", "stale_deleted")
    for name in names:
        of = json.loads(cops("explain", "-", "--json", stdin=example(f"{name}.trace"))[1])
        check(f"the schema of {name}.trace", (valid.is_valid(of), "name" in json.dumps(of)), (True, False))
    raw = trace(["clients 1", "0 got kk vvvv 1.0"]).replace(b"kk", b"k\xff").replace(b"vvvv", b"v \xc3v")
    for name, data in (("bytes that are no UTF-8", raw), ("no trace", b""), ("a cut trace", raw[:30])):
        check(f"the schema of {name}", valid.is_valid(json.loads(cops("explain", "-", "--json", stdin=data)[1])), True)
    for name, data in (("no lines", b""), ("a wrong line", b"x"), ("stale.jsonl", example("stale.jsonl"))):
        check(f"the schema of {name}", valid.is_valid(json.loads(cops("check", "-", "--json", stdin=data)[1])), True)
    wrong = [seed for seed, of in enumerate(objects) if not valid.is_valid(of)]
    check("the schema of random lines", wrong, [])
    check("the schema of the example by hand", valid.is_valid(STALE_JSON), True)
    for member in STALE_JSON:
        check(f"the schema without {member}", valid.is_valid({name: value for name, value in STALE_JSON.items() if name != member}), False)
    for member in STALE_JSON["explained"][0]:
        fault = {name: value for name, value in STALE_JSON["explained"][0].items() if name != member}
        check(f"the schema of a fault without {member}", valid.is_valid({**STALE_JSON, "explained": [fault]}), False)
    check("the schema of another class", valid.is_valid({**STALE_JSON, "class": "doubled"}), False)


# ---- pictures and devices


def pictures_of_lines():
    """A picture has the recorder's names and lines, escaped. It is drawn and left out as that of `explain`."""
    data = example("stale.jsonl")
    shown = [
        ("card returned", "ann, line 1: put x=1 at 1.0"),
        ("card newer", "ann, line 2: put x=2 at 2.0"),
        ("card", "ann, line 3: put y=3 at 3.0"),
        ("card", "bob, line 4: got y=3 at 3.0"),
        ("card fault", "bob, line 5: got x=1 at 1.0"),
    ]
    with tempfile.TemporaryDirectory() as folder:
        path = os.path.join(folder, "picture.svg")
        check("check with a picture", cops("check", "-", "--picture", path, stdin=data), (1, STALE.encode(), b""))
        with open(path, "rb") as file:
            picture = file.read()
        check("the picture of stale.jsonl", label_and_cards(picture), ("stale bob, line 5", shown))
        check("its lanes", [name in picture for name in (b">ann</text>", b">bob</text>", b"client 0")], [True, True, False])
        to_output = subprocess.run([BUILT, "check", "-", "--picture", "-"], input=data, capture_output=True)
        check("a picture for -", (to_output.returncode, to_output.stdout, to_output.stderr), (1, picture, STALE.encode()))
        as_object = cops("check", "-", "--json", "--picture", path, stdin=data)
        check("JSON with a picture", as_object, (1, json_line(STALE_JSON), b""))
        hostile = lines_of(got("<b>&'\"\u0000 ü", "]]>", "<!--", 1))
        cops("check", "-", "--picture", path, stdin=hostile)
        with open(path, "rb") as file:
            drawn = file.read()
        wanted = "no source %3cb%3e%26%27%22%00%20%c3%bc, line 1"
        check("a picture of hostile names", (label_and_cards(drawn)[0], drawn.isascii()), (wanted, True))
        for name, given, words, status, left in (
            ("accepted lines", lines_of(put("a", "x", "1", 1)), [], 0, b""),
            ("no such fault", data, ["--fault", "2"], 1, b""),
            ("a wrong line", b"x", [], 2, b"<svg/>"),
        ):
            with open(path, "wb") as file:
                file.write(b"<svg/>")
            status_of_it, _, errors = cops("check", "-", *words, "--picture", path, stdin=given)
            with open(path, "rb") as file:
                check(f"nothing drawn of {name}", (status_of_it, errors, file.read()), (status, b"" if status == 2 else NOT_DRAWN, left))


def devices():
    """Files that do not exist, reads and writes that fail, and a picture that would be written over the lines."""
    path = os.path.join(ROOT, "examples", "stale.jsonl")
    check("check of no such file", cops("check", "/nothing/there"), (4, b"", b"failed: open\n"))
    check("check of a folder", cops("check", ROOT), (4, b"", b"failed: read\n"))
    check("a picture in no folder", cops("check", path, "--picture", "/nothing/there"), (4, b"", b"failed: open\n"))
    check("a picture to a full device", cops("check", path, "--picture", "/dev/full")[::2], (4, b"failed: write\n"))
    for words in (["check", path], ["check", path, "--json"], ["check", path, "--all"], ["explain", os.path.join(ROOT, "examples", "stale.trace"), "--json"]):
        with open("/dev/full", "wb") as full:
            check(f"{words} to a full device", cops(*words, stdout=full), (4, None, b"failed: write\n"))
    no_copy = subprocess.run([BUILT, "check", "-"], input=example("stale.jsonl"), capture_output=True, env={"TMPDIR": "/nothing/there"})
    check("a check needs no temporary file", (no_copy.returncode, no_copy.stdout, no_copy.stderr), (1, STALE.encode(), b""))
    with tempfile.TemporaryDirectory() as folder:
        same, other = os.path.join(folder, "same"), os.path.join(folder, "other")
        with open(same, "wb") as file:
            file.write(example("stale.jsonl"))
        os.link(same, other)
        for name in (same, other):
            for words in ([], ["--json"]):
                check(f"a picture over its lines, {words}", cops("check", same, "--picture", name, *words), (4, b"", b"failed: same file\n"))
        with open(same, "rb") as file:
            check("the lines are as they were", file.read() == example("stale.jsonl"), True)
        check("they are still checked", cops("check", same), (1, STALE.encode(), b""))
        check("what is in the folder", sorted(os.listdir(folder)), ["other", "same"])


def words():
    """Words that are no job are reported as those of `explain` are. Options may stand anywhere."""
    path = os.path.join(ROOT, "examples", "stale.jsonl")
    for given in (
        [], [path, "more"], ["--nothing", path], ["--fault", "0", path], ["--fault", "16000001", path], ["--fault", path], [path, "--picture"],
        ["--all", "--all", path], ["--json", "--json", path], ["--json=yes", path], [path, "--format", "2"], [path, "--workers", "2"],
    ):  # fmt: skip
        status, out, errors = cops("check", *given)
        check(f"usage of check {given}", (status, out, errors != b""), (2, b"", True))
    for given in (["--all", "--fault", "2", path], ["--fault=1", path, "--all", "--json"]):
        check(f"usage of check {given}", cops("check", *given), (2, b"", ALL_WITH_FAULT))
    for given in (["--json", path], [path, "--json"], ["--all", path, "--json"], ["--json", "--fault=1", path]):
        check(f"check {given}", cops("check", *given), (1, json_line(STALE_JSON), b""))
    for command in ("check", "explain"):
        status, out, errors = cops(command, "--help")
        options = [option in out for option in (b"--all", b"--fault <N>", b"--picture <FILE>", b"--json")]
        check(f"help of {command}", (status, options, errors), (0, [True] * 4, b""))


def checks():
    by_hand()
    in_traces()
    many()
    large()
    as_json()
    wrong_lines()
    fits_schema(random_lines())
    pictures_of_lines()
    devices()
    words()
