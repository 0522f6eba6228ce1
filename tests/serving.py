"""Tests of the options of `cops serve` that keep the recorded trace and announce the port, and of scenarios whose scripts or events it does not run."""
import json
import os
import socket
import subprocess
import tempfile

from sessions import PATIENCE, Server, one_client
from traces import ROOT, check, cops, example
from write_trace import trace

# Two clients in one data centre, each of which is served once.
TWO = json.dumps({"data_centres": 1, "clients": [{"at": 0}, {"at": 0}]}).encode()
REPORT = b"accepted: 4 operations, 2 puts\n"
RECORDED = trace(["clients 2", "0 put x 1 1.0", "0 got x 1 1.0", "1 got x 1 1.0", "1 put x 2 2.0"])

SCRIPTS, EVENTS = b"the scripts of the scenario are not run\n", b"the events of the scenario are not run\n"


def two_sessions(*words):
    server = Server(TWO, 2, *words)
    check(f"the first session, {words}", server.lines("hello 0", "put x 1", "get x", "bye")[1:], ["done 1.0", "got 1 1.0", "bye"])
    check(f"the second, {words}", server.lines("hello 1", "get x", "put x 2", "bye")[1:], ["got 1 1.0", "done 2.0", "bye"])
    return server.ended()


def kept_traces():
    with tempfile.TemporaryDirectory() as folder:
        path = os.path.join(folder, "served.trace")
        for old in (None, b"an older file that is longer than the trace is" * 10):
            if old:
                with open(path, "wb") as file:
                    file.write(old)
            check("serving with a trace", two_sessions("--trace", path), (0, REPORT, b""))
            with open(path, "rb") as file:
                check("the trace", file.read(), RECORDED)
        check("the trace to standard output", two_sessions("--trace", "-"), (0, RECORDED, REPORT))
        check("the trace to a full device", two_sessions("--trace", "/dev/full"), (4, b"", b"failed: write\n"))
        scenario = os.path.join(folder, "scenario.json")
        with open(scenario, "wb") as file:
            file.write(TWO)
        check("the trace over the scenario", cops("serve", "1", scenario, "--trace", scenario), (4, b"", b"failed: same file\n"))
        with open(scenario, "rb") as file:
            check("the scenario is as it was", file.read(), TWO)
        check("a trace in no folder", cops("serve", "1", scenario, "--trace", "/nothing/there"), (4, b"", b"failed: open\n"))
        with socket.create_server(("127.0.0.1", 0)) as taken:
            port = str(taken.getsockname()[1])
            for name, before in (("new.trace", None), ("served.trace", RECORDED)):
                path = os.path.join(folder, name)
                check(f"a port that is taken, {name}", cops("serve", port, scenario, "--trace", path), (4, b"", b"failed: bind\n"))
                check(f"what is left, {name}", open(path, "rb").read() if os.path.exists(path) else None, before)
        faulty = cops("serve", port, "-", "--trace", path, stdin=b"{}")
        check("a faulty scenario", (faulty, open(path, "rb").read()), ((2, b"faulty: scenario field data_centres\n", b""), RECORDED))
        deletions = json.dumps({"format": 2, "data_centres": 1, "clients": [{"at": 0}]}).encode()
        server = Server(deletions, 1, "--trace", path)
        check("a session with a deletion", server.lines("hello 0 2", "put x 1", "delete x", "get x", "bye")[1:], ["done 1.0", "deleted 2.0", "gone 2.0", "bye"])
        check("its report", server.ended(), (0, b"accepted: 3 operations, 2 puts\n", b""))
        with open(path, "rb") as file:
            wanted = trace(["clients 1 format 2", "0 put x 1 1.0", "0 del x 2.0", "0 gone x 2.0"])
            check("its trace", file.read(), wanted)


def announced():
    """The line on standard error comes before any client, and a connection that closes without a byte is then no session."""
    server = Server(one_client(), 1, "--announce")
    check("the line of an open port", server.process.stderr.readline(), f"listening on 127.0.0.1:{server.port}\n".encode())
    for _ in range(3):
        socket.create_connection(("127.0.0.1", server.port), PATIENCE).close()
    check("a session after silent connections", server.lines("hello 0", "put x 1", "bye")[1:], ["done 1.0", "bye"])
    check("the report", server.ended(), (0, b"accepted: 1 operations, 1 puts\n", b""))
    server = Server(one_client(), 2)
    server.connect().close()
    check("a session after a silent one", server.lines("hello 0", "put x 1", "bye")[1:], ["done 1.0", "bye"])
    check("the report of both", server.ended(), (0, b"accepted: 1 operations, 1 puts\n", b""))
    server = Server(one_client(), 2, "--announce", "--idle", "1")
    server.process.stderr.readline()
    with server.connect() as mute:
        check("a client that says nothing", mute.recv(1), b"")
    check("the one behind it", server.lines("hello 0", "get x", "bye")[1:], ["missed", "bye"])
    check("an idle client is a session", server.ended(), (0, b"accepted: 1 operations, 0 puts\n", b""))
    with socket.create_server(("127.0.0.1", 0)) as taken:
        got = cops("serve", str(taken.getsockname()[1]), "-", "--announce", stdin=one_client())
    check("a port that is taken is not announced", got, (4, b"", b"failed: bind\n"))


def not_run():
    for name, text, line in (
        ("scripts", example("two_clients.json"), SCRIPTS),
        ("an empty script", json.dumps({"data_centres": 1, "clients": [{"at": 0, "script": []}]}).encode(), b""),
        ("events", example("newer_put_elsewhere.json"), EVENTS),
        ("neither", one_client(), b""),
    ):
        server = Server(text, 1)
        check(f"a session over {name}", server.lines("bye"), ["bye"])
        check(f"its report over {name}", server.ended(), (0, b"accepted: 0 operations, 0 puts\n", line))


def serving():
    kept_traces()
    announced()
    not_run()
