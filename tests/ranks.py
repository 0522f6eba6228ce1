"""Tests of `--rank`: versions as other stores have them are imported and checked by their places among those of the file."""
import json
import random

from checks import got, lines_of, missed, put
from imports import imported
from traces import check, cops

STALE_BY_RANKS = b"""refused: 5 operations, 3 puts, 1 fault

fault 1: stale bob, line 5
bob got x=1 at 1.0, though it had to know of the newer put ann, line 2
"""

# Versions in increasing order: times in microseconds, texts by their bytes, and times with the name of a node.
TIMES = [0, 9, 10, 2**48, 1764500000000001, 1764500000000002, 2**64 - 1]
TEXTS = ["", "10", "9", "Z", "a", "aa", "b\u00e9", "\u20ac", "\U0001f600", "a text of more than sixteen bytes"]
PAIRS = [[3, ""], [3, "a"], [3, "b"], [20, "a"], [2**64 - 1, "node 7"]]


def stale(versions):
    """Ann puts 1 and 2 at x, then 3 at y; Bob gets that y, then the older x."""
    first, second, third = versions
    return lines_of(
        put("ann", "x", "1", first), put("ann", "x", "2", second), put("ann", "y", "3", third), got("bob", "y", "3", third), got("bob", "x", "1", first)
    )


def by_hand():
    for name, versions in (("times", TIMES), ("texts", sorted(TEXTS, key=str.encode)), ("pairs", PAIRS)):
        status, out, errors = cops("check", "-", "--rank", stdin=stale(versions[-3:]))
        check(f"check by the ranks of {name}", (status, out[: len(STALE_BY_RANKS)], errors), (1, STALE_BY_RANKS, b""))
        check(f"in another order the ranks of {name} are not above", cops("check", "-", "--rank", stdin=stale(versions[:3][::-1]))[0], 1)
        # Ranks are those of the file, so versions that are not there leave no gaps.
        ranked = imported(stale(versions[-3:]), "--rank", "--format", "2")
        check(f"import by the ranks of {name}", ranked, imported(stale([1, 2, 3]), "--format", "2"))
    check("the largest time is no clock", cops("check", "-", stdin=lines_of(put("ann", "x", "1", 2**48)))[:2], (2, b"faulty: line 1: bad version\n"))
    check("nothing but a miss", cops("check", "-", "--rank", stdin=lines_of(missed("ann", "x"))), (0, b"accepted: 1 operations, 0 puts\n", b""))
    check("no lines", cops("check", "-", "--rank", stdin=b""), (0, b"accepted: 0 operations, 0 puts\n", b""))


def wrong_versions():
    """Versions that do not compare with the first one of the file."""
    for first, other in (
        (1, "1"), ("1", 1), (1, [1, "a"]), ([1, "a"], 1), ("a", [1, "a"]), ([1, "a"], "a"), (1, -1), (1, 1.5), (1, 2**64), (1, True), (1, {}), (1, []),
        ([1, "a"], [1]), ([1, "a"], [1, "a", 2]), ([1, "a"], ["a", 1]), ([1, "a"], [-1, "a"]), ([1, "a"], [1, 2]),
    ):
        data = lines_of(put("ann", "x", "1", first), put("ann", "x", "2", other))
        for command in (["check", "-", "--rank"], ["import", "-", "/dev/null", "--rank"]):
            status, out, _ = cops(*command, stdin=data)
            check(f"{command[0]} of {first} and then {other}", (status, out), (2, b"faulty: line 2: bad version\n"))


def random_lines(seed):
    """Lines with versions of one kind, and the same lines with the ranks in their place."""
    pick = random.Random(seed)
    kinds = {
        "numbers": lambda: pick.choice([pick.randrange(20), pick.randrange(2**64)]),
        "texts": lambda: "".join(pick.choice("ab\u00e9\n\"\\") for _ in range(pick.randrange(20))),
        "pairs": lambda: [pick.randrange(4), pick.choice(["", "a", "b", "a longer text than sixteen"])],
    }
    kind = pick.choice(sorted(kinds))
    given = []
    for _ in range(pick.randrange(1, 60)):
        version, client = kinds[kind](), pick.choice(["ann", "bob", 3])
        given.append(pick.choice([put, got])(client, "x", "1", version) if pick.random() < 0.9 else missed(client, "x"))

    def key(version):
        return [part.encode() if isinstance(part, str) else part for part in (version if isinstance(version, list) else [version])]

    distinct = sorted({json.dumps(it["version"]): it["version"] for it in given if "version" in it}.values(), key=key)
    ranked = [{**it, "version": 1 + distinct.index(it["version"])} if "version" in it else it for it in given]
    shuffled = [dict(pick.sample(sorted(it.items()), len(it))) for it in given]
    return lines_of(*shuffled), lines_of(*ranked)


def ranks():
    by_hand()
    wrong_versions()
    for seed in range(100):
        data, ranked = random_lines(seed)
        check(f"random lines by their ranks, {seed}", imported(data, "--rank"), imported(ranked))
        check(f"their check, {seed}", cops("check", "-", "--rank", stdin=data), cops("check", "-", stdin=ranked))
