"""Tests with a real store: clients of a Redis primary and its replica, recorded and checked by examples/redis/run.py, and imported and audited."""
import json
import os
import shutil
import socket
import subprocess
import sys
import tempfile
import threading

from traces import ROOT, check, cops, skip

sys.path.insert(0, os.path.join(ROOT, "examples", "redis"))
import record  # noqa: E402

RUN = os.path.join(ROOT, "examples", "redis", "run.py")

# The timeout of both recordings, in seconds.
PATIENCE = 300


def audit_of(lines, folder):
    """The audit of an import of lines."""
    trace = os.path.join(folder, "trace")
    check(f"import of {os.path.basename(lines)}", cops("import", lines, trace)[::2], (0, b""))
    return cops("audit", trace)


def lines_by(path, client, key):
    """The numbers of the lines of a client's operations on a key."""
    with open(path, encoding="utf-8") as file:
        made = list(map(json.loads, file))
    return [number for number, of in enumerate(made, 1) if of["client"] == client and key in (of.get("put"), of.get("get"))]


def no_reply():
    """A put whose connection ends before the reply is recorded as one of unknown outcome."""
    with socket.create_server(("127.0.0.1", 0)) as server:
        def end_both():
            for _ in range(2):
                connection, _ = server.accept()
                connection.close()

        thread = threading.Thread(target=end_both)
        thread.start()
        recorder, port = record.Recorder(), server.getsockname()[1]
        client = record.Client("ann", recorder, port, port)
        try:
            client.put("x", "1")
            raised = False
        except OSError:
            raised = True
        thread.join()
        client.close()
    lines = b'{"client": "ann", "put": "x", "value": "1", "ok": null}\n'
    check("a put without a reply", (raised, recorder.text().encode()), (True, lines))
    answer = b"accepted: 0 operations, 0 puts\nunknown outcomes: 0 took effect, 1 left out\n"
    check("a put without a reply: checked", cops("check", "-", stdin=lines), (0, answer, b""))


def redis():
    """If all gets are at the primary, what the clients saw is accepted; a get from a replica that lags is stale."""
    no_reply()
    if not shutil.which("redis-server"):
        skip("clients of Redis", "redis-server is not installed")
        return
    with tempfile.TemporaryDirectory() as folder:
        ran = subprocess.run([sys.executable, RUN, folder], stdout=subprocess.PIPE, timeout=PATIENCE)
        printed = ran.stdout.decode().split("\n")
        primary, both = os.path.join(folder, "primary.jsonl"), os.path.join(folder, "both.jsonl")
        check("clients of Redis are recorded", ran.returncode, 0)
        accepted = "accepted: 240 operations, 80 puts"
        check("all at the primary: checked", accepted in printed, True)
        check("all at the primary: audited", audit_of(primary, folder), (0, f"{accepted}\n".encode(), b""))
        check("some at the replica: checked", "refused: 87 operations, 43 puts, 1 fault" in printed, True)
        text = b"refused: 87 operations, 43 puts, 1 faults\nstale (1,2) returned 1.0, newer (0,1) at 2.0, chain (0,1) (0,2) (1,1) (1,2)\n"
        # Carol's and Dave's puts take versions between those of Alice's.
        got, out, errors = audit_of(both, folder)
        check("some at the replica: audited", (got, without_newer(out), errors), (1, without_newer(text), b""))
        _, looked, _ = lines_by(both, "bob", "picture")
        _, newer = lines_by(both, "alice", "picture")
        check("some at the replica: the fault", f"fault 1: stale bob, line {looked}" in printed, True)
        known = f"bob got picture=old at 1.0, though it had to know of the newer put alice, line {newer}"
        check("some at the replica: explained", known in printed, True)


def without_newer(text):
    """A report without the version of the newer put."""
    before, _, after = text.partition(b"newer (0,1) at ")
    return before, after.partition(b",")[2]
