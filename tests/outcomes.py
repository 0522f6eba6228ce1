"""Tests of puts whose outcome is unknown (`"ok":null`): those that a get shows to have taken effect stand in the history, each as the operation of a client of
its own, and the others are left out. Random lines are compared with the same lines in which a plain model in Python has replaced these puts."""
import json
import random

from checks import deleted, gone, got, lines_of, missed, put
from imports import imported
from traces import check, cops

# How often a random line is a put of unknown outcome.
UNKNOWN_SHARE = 0.3
RANDOM_FILES = 150


def asked(client, key, value):
    """A put that was asked for, and whose outcome is unknown."""
    return {"client": client, "put": key, "value": value, "ok": None}


def asked_to_delete(client, key):
    return {"client": client, "del": key, "ok": None}


# Ann's second put times out, Bob gets it; Ann's third put times out too, and nobody gets it.
TIMED_OUT = lines_of(
    put("ann", "x", "1", 1), asked("ann", "x", "2"), asked("ann", "y", "3"), got("bob", "x", "2", 2), missed("bob", "y"), got("ann", "x", "1", 1)
)

# The same, but then Bob gets the older value of x, though he knows of the newer one.
STALE = TIMED_OUT + lines_of(got("bob", "x", "1", 1))

STALE_TEXT = b"""refused: 6 operations, 2 puts, 1 fault
unknown outcomes: 1 took effect, 1 left out

fault 1: stale bob, line 7
bob got x=1 at 1.0, though it had to know of the newer put ann, line 2
ann, line 2: put x=2 at 2.0
bob, line 4: got x=2 at 2.0: returned that put
"""

STALE_JSON = {
    "verdict": "refused", "operations": 6, "puts": 2, "faults": 1, "class": "stale", "not_looked_for": [],
    "unknown_outcomes": {"took_effect": 1, "left_out": 1},
}


def by_hand():
    report = b"client 0 ann\nclient 1 bob\nclient 2 ann, line 2\nimported: 5 operations, 3 clients\nunknown outcomes: 1 took effect, 1 left out\n"
    got_trace = imported(TIMED_OUT)
    check("an import of puts that timed out", got_trace[:3], (0, report, b""))
    known = lines_of(
        put("ann", "x", "1", 1), got("bob", "x", "2", 2), missed("bob", "y"), got("ann", "x", "1", 1), put("another", "x", "2", 2)
    )
    check("the put that took effect is the one operation of a client of its own", got_trace[3], imported(known)[3])
    accepted = b"accepted: 5 operations, 2 puts\nunknown outcomes: 1 took effect, 1 left out\n"
    check("a check of puts that timed out", cops("check", "-", stdin=TIMED_OUT), (0, accepted, b""))
    status, out, errors = cops("check", "-", stdin=STALE)
    check("a stale get of a put that timed out", (status, out[: len(STALE_TEXT)], errors), (1, STALE_TEXT, b""))
    status, out, errors = cops("check", "-", "--json", stdin=STALE)
    found = json.loads(out)
    check("as JSON", (status, {name: found.get(name) for name in STALE_JSON}, errors), (1, STALE_JSON, b""))
    newer = found["explained"][0]["newer"]
    check("the newer put as JSON", (newer["name"], newer["line"], newer["client"], newer["index"]), ("ann", 2, 2, 0))
    none = json.loads(cops("check", "-", "--json", stdin=lines_of(put("ann", "x", "1", 1)))[1])
    check("JSON without such puts", "unknown_outcomes" in none, False)


def which_take_effect():
    """Which puts of unknown outcome take effect: what is printed of them, and the verdict."""
    for name, data, took, left, verdict in (
        ("one that nobody got", lines_of(asked("ann", "x", "1")), 0, 1, b"accepted: 0 operations, 0 puts\n"),
        ("got by its own client later", lines_of(asked("ann", "x", "1"), got("ann", "x", "1", 3)), 1, 0, b"accepted: 2 operations, 1 puts\n"),
        ("got in an earlier line", lines_of(got("bob", "x", "1", 3), asked("ann", "x", "1")), 1, 0, b"accepted: 2 operations, 1 puts\n"),
        ("another value was got", lines_of(asked("ann", "x", "1"), got("bob", "x", "2", 3)), 0, 1, b"refused: 1 operations, 0 puts, 1 fault\n"),
        ("another key was got", lines_of(asked("ann", "x", "1"), got("bob", "y", "1", 3)), 0, 1, b"refused: 1 operations, 0 puts, 1 fault\n"),
        ("a put has the version", lines_of(asked("ann", "x", "1"), got("bob", "x", "1", 3), put("bob", "x", "1", 3)), 0, 1, None),
        (
            "a later put has the version",
            lines_of(put("bob", "x", "1", 3), got("bob", "x", "1", 3), asked("ann", "x", "1")),
            0,
            1,
            b"accepted: 2 operations, 1 puts\n",
        ),
        ("a put of another key has the version", lines_of(asked("ann", "x", "1"), got("bob", "x", "1", 3), put("eve", "y", "1", 3)), 0, 1, None),
        (
            "two that write alike, one got",
            lines_of(asked("ann", "x", "1"), asked("bob", "x", "1"), got("eve", "x", "1", 3)),
            1,
            1,
            b"accepted: 2 operations, 1 puts\n",
        ),
        (
            "two that write alike, both got",
            lines_of(asked("ann", "x", "1"), asked("bob", "x", "1"), got("eve", "x", "1", 3), got("eve", "x", "1", 4)),
            2, 0, b"accepted: 4 operations, 2 puts\n",
        ),
        (
            "one got with two versions", lines_of(asked("ann", "x", "1"), got("eve", "x", "1", 3), got("eve", "x", "1", 4)),
            1, 0, b"refused: 3 operations, 1 puts, 1 fault\n",
        ),
        (
            "two writes with one version", lines_of(asked("ann", "x", "1"), asked("ann", "y", "1"), got("eve", "x", "1", 3), got("bob", "y", "1", 3)),
            2, 0, b"refused: 4 operations, 2 puts, 2 faults\n",
        ),
        ("a deletion", lines_of(asked_to_delete("ann", "x"), gone("bob", "x", 3)), 1, 0, b"accepted: 2 operations, 1 puts\n"),
        ("a deletion is no put of nothing", lines_of(asked("ann", "x", ""), gone("bob", "x", 3)), 0, 1, b"refused: 1 operations, 0 puts, 1 fault\n"),
        ("a miss shows no deletion", lines_of(asked_to_delete("ann", "x"), missed("bob", "x")), 0, 1, b"accepted: 1 operations, 0 puts\n"),
    ):
        printed = f"unknown outcomes: {took} took effect, {left} left out\n".encode()
        for words in ([], ["--rank"]):
            _, out, errors = cops("check", "-", *words, stdin=data)
            first, _, rest = out.partition(b"\n")
            check(f"{name} {words}: what took effect", (rest[: len(printed)], errors), (printed, b""))
            if verdict:
                # Words of one operation or put stand without an s in refusals.
                check(f"{name} {words}: the verdict", singular(first + b"\n"), singular(verdict))


def singular(line):
    for word in (b"operation", b"put", b"fault"):
        line = line.replace(b" 1 " + word + b"s", b" 1 " + word).replace(b": 1 " + word + b"s", b": 1 " + word)
    return line


def wrong_lines():
    for line, words in (
        (b'{"client":1,"put":"k","value":"1","version":1,"ok":null}', "bad version"),
        (b'{"client":1,"put":"k","value":"1","version":"x","ok":null}', "bad version"),
        (b'{"client":1,"del":"k","version":1,"ok":null}', "bad version"),
        (b'{"client":1,"put":"k","ok":null}', "bad value"),
        (b'{"client":1,"put":"k","value":null,"ok":null}', "bad value"),
        (b'{"client":1,"put":"k","value":1,"version":1,"ok":null}', "bad value"),
        (b'{"client":1,"del":"k","value":"1","ok":null}', "bad value"),
        (b'{"client":1,"put":"","value":"1","ok":null}', "bad key"),
        (b'{"client":1,"put":"k","del":"k","value":"1","ok":null}', "both operations"),
        (b'{"client":1,"value":"1","ok":null}', "no operation"),
        (b'{"put":"k","value":"1","ok":null}', "no client"),
        (b'{"client":1,"put":"k","value":"1","ok":true}', "bad version"),
        (b'{"client":1,"put":"k","value":"1","ok":false}', "bad version"),
        (b'{"client":1,"get":"k","ok":null}', "bad value"),
    ):
        data = TIMED_OUT + line + b"\nalso wrong"
        for command in (["check", "-"], ["check", "-", "--rank"], ["import", "-", "/dev/null", "--format", "2"]):
            if "--rank" in command and '"x"' in line.decode():
                continue
            check(f"{command} of {line}", cops(*command, stdin=data)[:2], (2, f"faulty: line 7: {words}\n".encode()))
    no_deletions = lines_of(asked_to_delete("ann", "x"))
    check("a deletion of unknown outcome in format 1", cops("import", "-", "/dev/null", stdin=no_deletions)[:2], (2, b"faulty: line 1: needs format 2\n"))


def how_it_is_written():
    """Members that are no `ok`, and other spellings of it."""
    one = b'{"client":"ann","put":"x","value":"1",%s}\n' + lines_of(got("bob", "x", "1", 3))
    for member in (
        b'"ok":null',
        b'"ok" : null',
        b'"\\u006fk":null',
        b'"ok":true,"ok":null',
        b'"version":null,"ok":null',
        b'"note":"\\"ok\\"","ok":null',
    ):
        wanted = b"accepted: 2 operations, 1 puts\nunknown outcomes: 1 took effect, 0 left out\n"
        check(f"a put with {member}", cops("check", "-", stdin=one % member), (0, wanted, b""))
    for member in (
        b'"version":3',
        b'"version":3,"ok":true',
        b'"version":3,"ok":false',
        b'"version":3,"ok":"null"',
        b'"ok":null,"ok":0,"version":3',
        b'"version":3,"note":"ok"',
    ):
        check(f"a put with {member}", cops("check", "-", stdin=one % member), (0, b"accepted: 2 operations, 1 puts\n", b""))
    asked_only = lines_of(asked("a b", "x", "1"), asked("eve", "x", "2"), got("bob", "x", "1", 3))
    report = b"client 0 bob\nclient 1 a%20b, line 1\nimported: 2 operations, 2 clients\nunknown outcomes: 1 took effect, 1 left out\n"
    check("clients without other operations", imported(asked_only)[:2], (0, report))
    read_get = b'{"client":"ann","get":"x","value":null,"ok":null}\n'
    check("a get is what it says", cops("check", "-", stdin=read_get), (0, b"accepted: 1 operations, 0 puts\n", b""))


def content(of):
    return (of["put"], of["value"]) if "put" in of else (of["del"], None) if "del" in of else (of["get"], of["value"])


def model(given):
    """The lines with each put of unknown outcome left out, or at the end as the one operation of a new client; and the line and the version of each that took
    effect."""
    known = [of for of in given if "ok" not in of]
    taken = {of["version"] for of in known if "get" not in of}
    returned = [of for of in known if "get" in of and "version" in of]
    uses, own = {}, []
    for line, of in enumerate(given, 1):
        if "ok" in of:
            found = list(dict.fromkeys(r["version"] for r in returned if content(r) == content(of) and r["version"] not in taken))
            used = uses[content(of)] = uses.get(content(of), 0) + 1
            if used <= len(found):
                own.append((line, {**{name: of[name] for name in of if name != "ok"}, "version": found[used - 1]}))
    return known + [{**of, "client": f"line {line}"} for line, of in own], own


def random_lines(seed):
    pick = random.Random(seed)
    given = []
    for _ in range(pick.randrange(1, 50)):
        client, key, value, version = pick.choice(["ann", "bob", 3]), pick.choice("xyz"), pick.choice("12"), pick.randrange(1, 12)
        if pick.random() < UNKNOWN_SHARE:
            given.append(pick.choice([asked(client, key, value), asked_to_delete(client, key)]))
        else:
            made = [put(client, key, value, version), got(client, key, value, version), deleted(client, key, version), gone(client, key, version)]
            given.append(pick.choice(made) if pick.random() < 0.9 else missed(client, key))
    return given


def random_files():
    for seed in range(RANDOM_FILES):
        given = random_lines(seed)
        known, own = model(given)
        unknown = sum("ok" in of for of in given)
        status, out, errors, trace = imported(lines_of(*given), "--format", "2")
        wanted = imported(lines_of(*known), "--format", "2")
        check(f"random lines, {seed}: the trace", (status, errors, trace), (wanted[0], b"", wanted[3]))
        report = wanted[1].decode()
        for line, of in own:
            report = report.replace(f"line%20{line}\n", f"{of['client']}, line {line}\n")
        report += f"unknown outcomes: {len(own)} took effect, {unknown - len(own)} left out\n" if unknown else ""
        check(f"random lines, {seed}: what is printed", out.decode(), report)
        got_check, wanted_check = cops("check", "-", "--json", stdin=lines_of(*given)), cops("check", "-", "--json", stdin=lines_of(*known))
        check(f"random lines, {seed}: the check", got_check[0], wanted_check[0])
        check(f"random lines, {seed}: its lines", called(got_check[1], {}), called(wanted_check[1], places(given, known, own)))


def places(given, known, own):
    """The number and the name in the first lines, for each number in the second."""
    numbers = [line for line, of in enumerate(given, 1) if "ok" not in of] + [line for line, _ in own]
    return {at: (line, str(given[line - 1]["client"])) for at, line in enumerate(numbers, 1)}


def called(text, numbers):
    """The JSON of a check without what it counts of unknown outcomes, and with these lines and names for those of its operations."""
    def renamed(of):
        if isinstance(of, dict):
            made = {name: renamed(part) for name, part in of.items() if name != "unknown_outcomes"}
            if "line" in made and numbers:
                made["line"], made["name"] = numbers[made["line"]]
            return made
        return list(map(renamed, of)) if isinstance(of, list) else of

    return renamed(json.loads(text))


def many():
    """Many that write alike: what each takes is found in linear time."""
    count = 30_000
    given = [asked("ann", "x", "on") for _ in range(count)] + [got("bob", "x", "on", 2 * n + 1) for n in range(count)]
    given += [put("eve", "x", "on", 2 * n + 2) for n in range(count)] + [got("eve", "x", "on", 2 * count)]
    printed = b"unknown outcomes: 30000 took effect, 0 left out\n"
    check("many that write alike", cops("check", "-", stdin=lines_of(*given))[1].split(b"\n")[1] + b"\n", printed)


def too_many():
    """The clients of puts that took effect count with the others."""
    names, own = 65_533, 3
    given = [missed(n, "k") for n in range(names)] + [asked("ann", "x", str(n)) for n in range(own)] + [got(0, "x", str(n), n + 1) for n in range(own)]
    check("one client too many", cops("check", "-", stdin=lines_of(*given))[:2], (2, f"faulty: line {names + 3}: too many clients\n".encode()))
    fewer = lines_of(*(of for of in given if of.get("put") is None or of["value"] != "1" or "ok" not in of))
    check("as many clients as there may be, but a get without a source", cops("check", "-", stdin=fewer)[0], 1)


def outcomes():
    by_hand()
    which_take_effect()
    wrong_lines()
    how_it_is_written()
    random_files()
    many()
    too_many()
