"""A plain auditor of small histories: a reference implementation of docs/DEFINITIONS.md, with which the program is compared.

It works with sets of names and pairs of names, and computes the past as a transitive closure by brute force. The program processes the operations
in the order of their arrival, so that the two have nothing in common but the definitions.
"""
import glob
import os
import random
import re
from collections import Counter, namedtuple
from concurrent.futures import ThreadPoolExecutor

from traces import ROOT, check, cops, row, status_of, trace
from write_trace import TRACE_END, frame

# A deletion is a put without a value, and a get that found a deletion returned no value.
Operation = namedtuple("Operation", "kind key value version")
PUTS, GETS = ("put", "del"), ("got", "gone")
HISTORIES = 4000
CUTS = 400
FORMATS = (1, 2)
WORKERS = ("1", "2", "3", "64")
LEAST_OF_A_KIND = 20

# The end of a trace, whose length does not depend on the count.
TRACE_ENDED = frame(TRACE_END, bytes(4))


def history_of(lines):
    """The operations by name, from the lines that a trace is written from."""
    words = [line.split() for line in lines if line.strip() and not line.startswith("#")]
    history, lengths = {}, Counter()
    for client, kind, key, *rest in words[1:]:
        value = rest[0] if len(rest) == 2 else None
        version = tuple(map(int, rest[-1].split("."))) if rest else None
        history[int(client), lengths[client]] = Operation(kind, key, value, version)
        lengths[client] += 1
    return history


def of_kind(history, *kinds):
    return [name for name in sorted(history) if history[name].kind in kinds]


def sources(history, get):
    """The puts that have the key, the content and the version that a get returned."""
    return [put for put in of_kind(history, *PUTS) if history[put][1:] == history[get][1:]]


def steps(history):
    """The pairs of names with a session step or a source step from the first to the second."""
    session = {(a, b) for a in history for b in history if a[0] == b[0] and a[1] < b[1]}
    return session | {(put, get) for get in of_kind(history, *GETS) for put in sources(history, get)}


def closure(pairs):
    """The transitive closure of the pairs."""
    while True:
        longer = pairs | {(a, d) for a, b in pairs for c, d in pairs if b == c}
        if longer == pairs:
            return pairs
        pairs = longer


def doubled(history):
    puts = of_kind(history, *PUTS)
    return [a for a in puts if any(a != b and history[a].version == history[b].version for b in puts)]


def without_source(history):
    return [get for get in of_kind(history, *GETS) if not sources(history, get)]


def not_above(history):
    """Each put whose version is not above that of an earlier put or get of its session, with the first of these."""
    found = []
    for put in of_kind(history, *PUTS):
        before = [a for a in sorted(history) if a[0] == put[0] and a[1] < put[1] and history[a].kind != "missed"]
        higher = [a for a in before if not history[a].version < history[put].version]
        found += [(put, higher[0])] if higher else []
    return found


def stale(history):
    """Each get that has in its past a put on its key that is newer than what it returned, with the newest of these."""
    past, found = closure(steps(history)), []
    for get in of_kind(history, *GETS, "missed"):
        known = [put for put in of_kind(history, *PUTS) if (put, get) in past and history[put].key == history[get].key]
        newer = [put for put in known if history[get].kind == "missed" or history[put].version > history[get].version]
        found += [(get, max(newer, key=lambda put: history[put].version))] if newer else []
    return found


def chain(history, first, last):
    """The first of the shortest chains from one name to another, in the order of names."""
    pairs, chains = steps(history), [(first,)]
    while not any(names[-1] == last for names in chains):
        chains = [names + (b,) for names in chains for a, b in pairs if a == names[-1]]
    return min(names for names in chains if names[-1] == last)


def converges(history):
    """Whether the past is a causal order that explains each get, with the version order as the arbitration."""
    past = closure(steps(history))
    puts = sorted(of_kind(history, *PUTS), key=lambda put: history[put].version)
    if any(a == b for a, b in past) or any((b, a) in past for at, a in enumerate(puts) for b in puts[at:]):
        return False

    def explained(get):
        known = [put for put in puts if (put, get) in past and history[put].key == history[get].key]
        if history[get].kind == "missed":
            return not known
        return any(all(puts.index(put) <= puts.index(source) for put in known) for source in sources(history, get))

    return all(explained(name) for name in history if history[name].kind not in PUTS)


def name_text(name):
    return f"({name[0]},{name[1]})"


def version_text(version):
    return f"{version[0]}.{version[1]}"


def operation_text(history, name):
    """The name of an operation with its version."""
    return f"{name_text(name)} at {version_text(history[name].version)}"


def stale_line(history, get, newer):
    returned = version_text(history[get].version) if history[get].version else "nothing"
    names = " ".join(map(name_text, chain(history, newer, get)))
    return f"stale {name_text(get)} returned {returned}, newer {operation_text(history, newer)}, chain {names}"


def fault_lines(history):
    """The lines of the first class that has a fault, or an empty list."""
    classes = (
        lambda: [f"doubled {operation_text(history, put)}" for put in doubled(history)],
        lambda: [f"no source {operation_text(history, get)}" for get in without_source(history)],
        lambda: [f"not above {operation_text(history, a)}, earlier {operation_text(history, first)}" for a, first in not_above(history)],
        lambda: [stale_line(history, get, newer) for get, newer in stale(history)],
    )
    for lines in classes:
        found = lines()
        if found:
            return found
    return []


def report(history):
    """The text of the audit of a history."""
    faults, size = fault_lines(history), f"{len(history)} operations, {len(of_kind(history, *PUTS))} puts"
    if not faults:
        return f"accepted: {size}\n"
    return "".join(line + "\n" for line in [f"refused: {size}, {len(faults)} faults", *faults])


def said_so_far(history):
    """The verdict so far on the records of a cut trace. Of all faults, only a get with a version that no put has may still be resolved by later records."""
    versions = [history[put].version for put in of_kind(history, *PUTS)]
    waiting = [get for get in without_source(history) if history[get].version not in versions]
    if doubled(history) or not_above(history) or stale(history) or len(waiting) < len(without_source(history)):
        return "refused"
    return f"waiting {len(waiting)}" if waiting else "clean"


def kind_of(text):
    """The kind of verdict in a report: accepted, or the class of its faults."""
    if text.startswith("accepted: "):
        return "accepted"
    line = text.split("\n")[1]
    return "stale, returned nothing" if " returned nothing, " in line else line.split(" (")[0]


def involves_deletions(history, text):
    """Whether an accepted history has a get that found a deletion, or the line of a fault names a deletion or such a get before its chain."""
    if text.startswith("accepted: "):
        return bool(of_kind(history, "gone"))
    named = "".join(line.split(", chain ")[0] for line in text.split("\n")[1:])
    names = [tuple(map(int, found)) for found in re.findall(r"\((\d+),(\d+)\)", named)]
    return any(history[name].kind in ("del", "gone") for name in names)


KINDS = ("accepted", "doubled", "no source", "not above", "stale", "stale, returned nothing")


def some_put(pick, time, number):
    """A random put, or in format 2, a third of the time, a deletion; mostly with a version above all earlier ones."""
    clock = pick.randint(1, 8) if pick.random() < 0.12 else time
    key, version = pick.choice("xy"), f"{clock}.{pick.choice((0, 1, 64))}"
    if number == 2 and pick.random() < 0.33:
        return "del", key, version
    return "put", key, str(pick.randrange(2)), version


def get_of(put):
    """The get that returns this put, or that finds this deletion."""
    return "gone" if put[0] == "del" else "got", *put[1:]


def some_operation(pick, puts, time, number):
    """A random put, deletion or get. A get mostly returns an earlier put, half the time the newest, and rarely any key and content."""
    dice = pick.random()
    if dice < 0.4 or not puts:
        puts.append(some_put(pick, time, number))
        return puts[-1]
    if dice < 0.48:
        return "missed", pick.choice("xyz")
    seen = puts[-1] if pick.random() < 0.5 else pick.choice(puts)
    if dice < 0.52:
        key, version = pick.choice("xy"), pick.choice((seen[-1], "9.0"))
        return ("gone", key, version) if number == 2 and pick.random() < 0.5 else ("got", key, str(pick.randrange(2)), version)
    return get_of(seen)


def some_lines(seed, number):
    """The lines of a random history of a format, with at most four clients and twelve operations, whose sessions are interleaved at random."""
    pick = random.Random(seed)
    clients, puts = pick.randint(1, 4), []
    sessions = [[] for _ in range(clients)]
    for time in range(1, 1 + pick.randrange(13)):
        pick.choice(sessions).append(some_operation(pick, puts, time, number))
    order = [client for client, session in enumerate(sessions) for _ in session]
    pick.shuffle(order)
    return [f"clients {clients} format {number}"] + [" ".join([str(client), *sessions[client].pop(0)]) for client in order]


def with_long_values(lines, length):
    """The lines with a value of `length` bytes in place of each value 1."""
    words = [line.split() for line in lines]
    return [" ".join([*of[:3], "v" * length, of[4]] if len(of) == 5 and of[3] == "1" else of) for of in words]


def format_of(seed):
    """The format of a random history: the formats alternate."""
    return FORMATS[seed % len(FORMATS)]


def random_histories():
    """The program and the plain auditor agree on many small histories, and each kind of verdict occurs often, also with deletions."""
    met, made = Counter(), [some_lines(seed, format_of(seed)) for seed in range(HISTORIES)]

    def audited(seed):
        workers = WORKERS[seed // len(FORMATS) % len(WORKERS)]
        return cops("audit", "-", "--workers", workers, stdin=trace(made[seed]))

    with ThreadPoolExecutor(os.cpu_count() or 2) as pool:
        answers = list(pool.map(audited, range(HISTORIES)))
    for seed, (lines, answer) in enumerate(zip(made, answers)):
        history = history_of(lines)
        text = report(history)
        met[format_of(seed), kind_of(text)] += 1
        met["of deletions", kind_of(text)] += involves_deletions(history, text)
        check(f"a small history, {seed}", answer, (status_of(text), text.encode(), b""))
        wanted = not doubled(history) and converges(history)
        check(f"its verdict by the definition, {seed}", kind_of(text) == "accepted", wanted)
    for which in (*FORMATS, "of deletions"):
        for kind in KINDS:
            check(f"small histories that are {kind}, {which}: {met[which, kind]}", met[which, kind] >= LEAST_OF_A_KIND, True)


def cut_at(lines, length):
    """The first `length` bytes of the text of a history, where the last whole record in them ends, and the lines up to there."""
    text = trace(lines)
    ends = [0] + [len(trace(lines[:count])) - len(TRACE_ENDED) for count in range(1, len(lines) + 1)]
    whole = max(count for count, end in enumerate(ends) if end <= length)
    return text[:length], ends[whole], lines[:whole]


def cut_anywhere(seed):
    """A random prefix of the text of a small history, where the last whole record in it ends, and the lines up to there."""
    lines = some_lines(seed, format_of(seed))
    return cut_at(lines, random.Random(seed).randrange(len(trace(lines))))


def said_of_cuts(made):
    """Checks that the program and the plain auditor agree on the verdict so far on each of these prefixes, and yields the verdicts."""
    with ThreadPoolExecutor(os.cpu_count() or 2) as pool:
        answers = list(pool.map(lambda cut: cops("audit", "-", "--so-far", stdin=cut[0]), made))
    for (data, end, lines), answer in zip(made, answers):
        said = said_so_far(history_of(lines))
        wanted = (1 if said == "refused" else 0, f"cut at {end}\nso far: {said}\n".encode(), b"")
        check(f"a history that is cut, {data.hex()}", answer, wanted)
        yield said


def random_cuts():
    """The program and the plain auditor agree on many small histories that are cut anywhere, and each verdict so far occurs."""
    met = Counter()
    for seed, said in enumerate(said_of_cuts([cut_anywhere(seed) for seed in range(CUTS)])):
        met[format_of(seed), said.split()[0]] += 1
    for number in FORMATS:
        for said in ("clean", "waiting", "refused"):
            check(f"small histories that are so far {said}, format {number}: {met[number, said]}", met[number, said] > 0, True)


def cuts_of_deletions():
    """They also agree on each test case of format 2, cut at each of its bytes."""
    cases_of_format_2 = [lines for lines, _ in map(row, case_paths()) if any(line.endswith(" format 2") for line in lines)]
    check("there are rows of format 2", len(cases_of_format_2) > 5, True)
    given = [[line for line in lines if line and not line.startswith("#")] for lines in cases_of_format_2]
    list(said_of_cuts([cut_at(lines, length) for lines in given for length in range(len(trace(lines)))]))


def case_paths():
    """The files of the test cases of an audit."""
    return sorted(glob.glob(os.path.join(ROOT, "tests", "rows", "*.ops")))


def rows():
    """For each test case the program, with few workers and many, and the plain auditor give the expected text."""
    paths = case_paths()
    check("there are rows", len(paths) > 0, True)
    for path in paths:
        lines, text = row(path)
        name = os.path.basename(path)
        check(f"{name}, by the plain auditor", report(history_of(lines)), text)
        for workers in WORKERS:
            answer = cops("audit", "-", "--workers", workers, stdin=trace(lines))
            check(f"{name} by {workers} workers", answer, (status_of(text), text.encode(), b""))
