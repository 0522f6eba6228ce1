"""Tests with a real store: clients of a PostgreSQL primary and its replica, recorded and checked by examples/postgresql/run.py."""
import importlib.util
import os
import subprocess
import sys
import tempfile

from redis import PATIENCE, audit_of, lines_by, without_newer
from traces import ROOT, check, skip

RUN = os.path.join(ROOT, "examples", "postgresql", "run.py")


def is_installed():
    found = importlib.util.spec_from_file_location("run_postgresql", RUN)
    module = importlib.util.module_from_spec(found)
    found.loader.exec_module(module)
    return module.programs() is not None


def postgresql():
    """If all gets are at the primary, what the clients saw is accepted; a get from a replica that lags is stale."""
    if not is_installed():
        skip("clients of PostgreSQL", "its server is not installed")
        return
    with tempfile.TemporaryDirectory() as folder:
        ran = subprocess.run([sys.executable, RUN, folder], stdout=subprocess.PIPE, timeout=PATIENCE)
        printed = ran.stdout.decode().split("\n")
        primary, both = os.path.join(folder, "primary.jsonl"), os.path.join(folder, "both.jsonl")
        check("clients of PostgreSQL are recorded", ran.returncode, 0)
        accepted = "accepted: 240 operations, 80 puts"
        check("PostgreSQL, all at the primary: checked", accepted in printed, True)
        check("PostgreSQL, all at the primary: audited", audit_of(primary, folder), (0, f"{accepted}\n".encode(), b""))
        check("PostgreSQL, some at the replica: checked", "refused: 87 operations, 43 puts, 1 fault" in printed, True)
        # Carol's and Dave's puts take versions between those of Alice's.
        got, out, errors = audit_of(both, folder)
        text = b"refused: 87 operations, 43 puts, 1 faults\nstale (1,2) returned 1.0, newer (0,1) at 2.0, chain (0,1) (0,2) (1,1) (1,2)\n"
        check("PostgreSQL, some at the replica: audited", (got, without_newer(out), errors), (1, without_newer(text), b""))
        _, looked, _ = lines_by(both, "bob", "picture")
        _, newer = lines_by(both, "alice", "picture")
        check("PostgreSQL, some at the replica: the fault", f"fault 1: stale bob, line {looked}" in printed, True)
        known = f"bob got picture=old at 1.0, though it had to know of the newer put alice, line {newer}"
        check("PostgreSQL, some at the replica: explained", known in printed, True)
