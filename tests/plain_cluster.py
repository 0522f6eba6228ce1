"""A plain cluster for small worlds: a reference implementation of docs/DEFINITIONS.md and docs/FORMATS.md, with which the program is compared.

It keeps each node as a set of pairs, and looks for a refusal in the order of the table. The program and the plain cluster are given lists of random
events, many of which are late, lost, repeated or out of order.
"""
import json
import os
import random
from collections import Counter, defaultdict
from concurrent.futures import ThreadPoolExecutor

from traces import LIMITS, check, ran, trace

WORLDS, EVENTS, LEAST_OF_A_KIND = 2000, 200, 20
NO_CLIENT, NO_DATA_CENTRE, NEVER_SENT, NOT_HELD, NO_SUCH_DEP, NOT_ASKED, DEPS_OPEN, CONTEXT_FULL = 3, 10, 4, 5, 6, 7, 8, 2
FORMATS = (1, 2)


class Node:
    """A clock, the settled pairs, and the puts that wait, each with the indexes of its marked dependencies."""

    def __init__(self):
        self.clock, self.settled, self.held = 0, set(), {}

    def settle(self, key, version):
        self.settled.add((key, version))
        self.clock = max(self.clock, version[0])

    def shown(self, key):
        return max((version for name, version in self.settled if name == key), default=None)


class World:
    """The format, all nodes, the issued puts and deletions, the answers `yes`, and for each client its data centre, its context and what it saw. A deletion
    is a put whose value is None."""

    def __init__(self, data_centres, splits, homes, number=1):
        self.format, self.data_centres, self.splits, self.homes = number, data_centres, [split.encode() for split in splits], homes
        self.nodes = defaultdict(Node)
        self.issued, self.values, self.yes = {}, {}, set()
        self.contexts, self.seen = [[] for _ in homes], [f"clients {len(homes)} format {number}"]

    def answer(self, name, of):
        """The outcome of an event of this name."""
        return getattr(self, "delete" if name == "del" else name)(*of)

    def number(self, dc, key):
        return 64 * dc + sum(split <= key.encode() for split in self.splits)

    def node(self, dc, key):
        return self.nodes[self.number(dc, key)]

    def saw(self, client, kind, key, version=None):
        value = [self.values[version]] if version and self.values[version] is not None else []
        self.seen.append(" ".join([str(client), kind, key, *value, *([text_of(version)] if version else [])]))

    def put(self, client, key, value):
        return self.write(client, key, value, "put", "done")

    def delete(self, client, key):
        return self.write(client, key, None, "del", "deleted")

    def write(self, client, key, value, kind, outcome):
        if client >= len(self.homes):
            return f"refused {NO_CLIENT}"
        number, deps = self.number(self.homes[client], key), self.contexts[client]
        node = self.nodes[number]
        version = max([node.clock, *(clock for _, (clock, _) in deps)]) + 1, number
        self.issued[version], self.values[version] = (key, deps), value
        node.settle(key, version)
        self.contexts[client] = [(key, version)]
        self.saw(client, kind, key, version)
        return f"{outcome} {text_of(version)}"

    def get(self, client, key):
        if client >= len(self.homes):
            return f"refused {NO_CLIENT}"
        if len(self.contexts[client]) == LIMITS[self.format].pairs:
            return f"refused {CONTEXT_FULL}"
        version = self.node(self.homes[client], key).shown(key)
        kind = "missed" if not version else "gone" if self.values[version] is None else "got"
        self.saw(client, kind, key, version)
        if not version:
            return kind
        if (key, version) not in self.contexts[client]:
            self.contexts[client] = [*self.contexts[client], (key, version)]
        return f"{kind} {text_of(version)}"

    def deliver(self, dc, version):
        if dc >= self.data_centres:
            return f"refused {NO_DATA_CENTRE}"
        if version not in self.issued:
            return f"refused {NEVER_SENT}"
        key, _ = self.issued[version]
        node = self.node(dc, key)
        if version in node.held or (key, version) in node.settled:
            return "repeat"
        node.held[version] = set()
        return "held"

    def ask(self, dc, key, version):
        if dc >= self.data_centres:
            return f"refused {NO_DATA_CENTRE}"
        if (key, version) not in self.node(dc, key).settled:
            return "wait"
        self.yes.add((dc, key, version))
        return "yes"

    def waiting(self, dc, version):
        """The node at which the put of a version waits in a data centre, its key and its dependencies; or None."""
        if version not in self.issued:
            return None
        key, deps = self.issued[version]
        node = self.node(dc, key)
        return (node, key, deps) if version in node.held else None

    def mark(self, dc, version, dep):
        if dc >= self.data_centres:
            return f"refused {NO_DATA_CENTRE}"
        if not self.waiting(dc, version):
            return f"refused {NOT_HELD}"
        node, _, deps = self.waiting(dc, version)
        if dep >= len(deps):
            return f"refused {NO_SUCH_DEP}"
        if (dc, *deps[dep]) not in self.yes:
            return f"refused {NOT_ASKED}"
        node.held[version].add(dep)
        return "marked"

    def settle(self, dc, version):
        if dc >= self.data_centres:
            return f"refused {NO_DATA_CENTRE}"
        if not self.waiting(dc, version):
            return f"refused {NOT_HELD}"
        node, key, deps = self.waiting(dc, version)
        if len(node.held[version]) < len(deps):
            return f"refused {DEPS_OPEN}"
        del node.held[version]
        node.settle(key, version)
        return "settled"


def text_of(version):
    return f"{version[0]}.{version[1]}"


def some_value(pick, world):
    """The value of a put; in format 2 some are longer than format 1 allows."""
    value = f"v{len(world.issued)}"
    longer = world.format == 2 and pick.random() < 0.02
    return value.ljust(pick.randint(LIMITS[1].value + 1, LIMITS[2].value), "w") if longer else value


def some_event(pick, world, keys):
    """A random event, which mostly names what exists, and mostly what waits."""
    client, dc = pick.randrange(len(world.homes) + (pick.random() < 0.05)), pick.randrange(world.data_centres + (pick.random() < 0.05))
    key, versions = pick.choice(keys), [*world.issued] or [(1, 0)]
    held = [(number // 64, version) for number, node in world.nodes.items() for version in node.held]
    dice = pick.random()
    if dice < 0.15:
        deletes = world.format == 2 and pick.random() < 0.4
        return ("del", client, key) if deletes else ("put", client, key, some_value(pick, world))
    if dice < 0.35:
        return "get", client, key
    if dice < 0.5 or not held:
        return "deliver", dc, pick.choice(versions) if pick.random() < 0.9 else (pick.randrange(1, 99), 0)
    if pick.random() < 0.9:
        dc, version = pick.choice(held)
    else:
        version = pick.choice(versions)
    _, deps = world.issued.get(version, (key, []))
    if dice < 0.65:
        return ("ask", dc, *pick.choice(deps)) if deps and pick.random() < 0.9 else ("ask", dc, key, version)
    if dice < 0.85:
        return "mark", dc, version, pick.randrange(len(deps) + (pick.random() < 0.2 or not deps))
    return "settle", dc, version


def some_world(seed):
    """A scenario of random events, the outcomes that it is expected to print, and what its clients saw."""
    pick = random.Random(seed)
    data_centres, splits = pick.randint(1, 4), sorted(pick.sample(["b", "k2", "m", "é"], pick.randrange(4)))
    world = World(data_centres, splits, [pick.randrange(data_centres) for _ in range(pick.randint(1, 6))], FORMATS[seed % len(FORMATS)])
    keys, events, outcomes = ["a", "b", "k1", "k2", "z", "éa"], [], []
    for _ in range(EVENTS):
        name, *of = some_event(pick, world, keys)
        outcomes.append(world.answer(name, of))
        events.append({name: [text_of(it) if isinstance(it, tuple) else it for it in of]})
    return scenario_of(world, events), outcomes, world.seen


def scenario_of(world, events):
    """The scenario file. It names format 2 always, and format 1, which is the default, only if the number of clients is odd."""
    splits = [split.decode() for split in world.splits]
    clients = [{"at": home} for home in world.homes]
    named = {"format": world.format} if world.format == 2 or len(world.homes) % 2 else {}
    return json.dumps({**named, "data_centres": world.data_centres, "splits": splits, "clients": clients, "events": events}).encode()


def full_context(number):
    """One client puts more keys than a context has pairs, and in format 2 deletes every third. Another client gets them: once its context is full its gets
    are refused, until it puts."""
    world, count = World(1, [], [0, 0], number), LIMITS[number].pairs + 44
    writes = [{"del": [0, f"k{n}"]} if number == 2 and n % 3 == 0 else {"put": [0, f"k{n}", "1"]} for n in range(count)]
    events = [*writes, *({"get": [1, f"k{n}"]} for n in range(count)), {"put": [1, "k0", "2"]}, {"get": [1, f"k{count - 1}"]}]
    outcomes = [world.answer(name, of) for event in events for name, of in event.items()]
    return scenario_of(world, events), outcomes, world.seen


def kind_of(outcome):
    return outcome if outcome.startswith("refused") else outcome.split()[0]


def random_worlds():
    """For many lists of random events the program prints the outcomes of the plain cluster, and records what its clients saw."""
    made, met = [*map(full_context, FORMATS), *map(some_world, range(WORLDS))], Counter()
    with ThreadPoolExecutor(os.cpu_count() or 2) as pool:
        answers = list(pool.map(ran, (scenario for scenario, _, _ in made)))
    for seed, ((_, outcomes, seen), (answer, recorded)) in enumerate(zip(made, answers)):
        puts = sum(line.split()[1] in ("put", "del") for line in seen[1:])
        report = f"accepted: {len(seen) - 1} operations, {puts} puts\n"
        lines = "".join(f"{n} {outcome}\n" for n, outcome in enumerate(outcomes)) + report
        check(f"a small world, {seed}", answer, (0, lines.encode(), b""))
        check(f"its trace, {seed}", recorded, trace(seen))
        met.update(map(kind_of, outcomes))
        met["of long values"] += sum(line.split()[1] == "got" and len(line) > LIMITS[1].value for line in seen)
    refusals = (NO_CLIENT, NO_DATA_CENTRE, NEVER_SENT, NOT_HELD, NO_SUCH_DEP, NOT_ASKED, DEPS_OPEN, CONTEXT_FULL)
    kinds = ["done", "deleted", "got", "of long values", "gone", "missed", "held", "repeat", "yes", "wait", "marked", "settled"]
    for kind in [*kinds, *(f"refused {code}" for code in refusals)]:
        check(f"outcomes that are {kind}: {met[kind]}", met[kind] >= LEAST_OF_A_KIND, True)
