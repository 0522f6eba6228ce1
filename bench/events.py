#!/usr/bin/env python3
"""Writes a scenario with the given number of events. Clients put and get; each put is delivered to the other data centres some steps later, its
dependencies are asked for and marked, and it is settled.

usage: events.py EVENTS [DATA_CENTRES] [CLIENTS] [KEYS] [SEED]
"""
import json
import random
import sys
from collections import deque


class Cluster:
    """A minimal model of a cluster that computes the versions, with one node in each data centre."""

    def __init__(self, data_centres, clients, keys, seed, puts):
        self.pick = random.Random(seed)
        self.puts = puts
        self.homes = [n % data_centres for n in range(clients)]
        self.keys = [f"k{n}" for n in range(keys)]
        self.clocks = [0] * data_centres
        self.shown = [{} for _ in range(data_centres)]
        self.waiting = [deque() for _ in range(data_centres)]
        self.contexts = [{} for _ in range(clients)]
        self.events = []

    def put(self, client):
        home, key = self.homes[client], self.pick.choice(self.keys)
        deps = list(self.contexts[client])
        clock = max([self.clocks[home]] + [clock for _, (clock, _) in deps]) + 1
        self.clocks[home] = clock
        pair = (key, (clock, 64 * home))
        self.settle(home, pair)
        self.contexts[client] = {pair: None}
        for dc, waiting in enumerate(self.waiting):
            if dc != home:
                waiting.append((pair, deps))
        self.events.append({"put": [client, key, f"value{len(self.events)}"]})

    def get(self, client):
        home, key = self.homes[client], self.pick.choice(self.keys)
        version = self.shown[home].get(key)
        if version and len(self.contexts[client]) < 256:
            self.contexts[client][(key, version)] = None
        self.events.append({"get": [client, key]})

    def settle(self, dc, pair):
        key, version = pair
        self.shown[dc][key] = max(version, self.shown[dc].get(key, version))
        self.clocks[dc] = max(self.clocks[dc], version[0])

    def replicate(self, dc):
        pair, deps = self.waiting[dc].popleft()
        version = "{}.{}".format(*pair[1])
        self.events.append({"deliver": [dc, version]})
        for index, (key, (clock, node)) in enumerate(deps):
            self.events.append({"ask": [dc, key, f"{clock}.{node}"]})
            self.events.append({"mark": [dc, version, index]})
        self.events.append({"settle": [dc, version]})
        self.settle(dc, pair)

    def step(self):
        dc = self.pick.randrange(len(self.waiting))
        client = self.pick.randrange(len(self.homes))
        if len(self.waiting[dc]) > 20:
            self.replicate(dc)
        elif self.pick.random() < self.puts:
            self.put(client)
        else:
            self.get(client)


def made(count, data_centres, clients, keys, seed, puts=0.3):
    cluster = Cluster(data_centres, clients, keys, seed, puts)
    while len(cluster.events) < count:
        cluster.step()
    return cluster.homes, cluster.events[:count]


def lines(count, data_centres=3, clients=6, keys=100, seed=1, puts=0.3):
    """The events as lines, each with a name and its arguments. `puts` is the fraction of puts among the operations of the clients."""
    _, events = made(count, data_centres, clients, keys, seed, puts)
    return "".join(" ".join([name, *map(str, of)]) + "\n" for event in events for name, of in event.items())


def scenario(count, data_centres=3, clients=6, keys=100, seed=1):
    homes, events = made(count, data_centres, clients, keys, seed)
    return json.dumps({"data_centres": data_centres, "clients": [{"at": home} for home in homes], "events": events})


if __name__ == "__main__":
    sys.stdout.write(scenario(*map(int, sys.argv[1:])))
