#!/usr/bin/env python3
"""Records twice what clients of a Redis primary and its replica see, and checks each recording.

usage: run.py [FOLDER]

In the first recording all clients get from the primary. In the second, one client also gets from the replica, whose link is held back for a while.
The lines are left in FOLDER, if one is named. README.md in this folder says more.
"""
import os
import shutil
import socket
import subprocess
import sys
import tempfile
import threading

sys.dont_write_bytecode = True
from record import PATIENCE, Client, Connection, Recorder, in_step, side_by_side, wait_until  # noqa: E402

COPS = os.path.join(os.path.dirname(os.path.abspath(__file__)), "..", "..", "cops")
ROUNDS = 20


def free_port():
    with socket.socket() as listener:
        listener.bind(("127.0.0.1", 0))
        return listener.getsockname()[1]


class Server:
    """A Redis server on a free port of this machine, which writes nothing to the disk but its log."""

    def __init__(self, folder, name, primary=None):
        self.port = free_port()
        words = ["redis-server", "--bind", "127.0.0.1", "--port", str(self.port), "--dir", folder, "--dbfilename", f"{name}.rdb"]
        words += ["--save", "", "--appendonly", "no", "--repl-diskless-sync-delay", "0"]
        if primary:
            words += ["--replicaof", f"127.0.0.1 {primary}"]
        with open(os.path.join(folder, f"{name}.log"), "wb") as log:
            self.process = subprocess.Popen(words, stdout=log, stderr=log)
        try:
            wait_until(self.answers, f"the {name} answers")
        except BaseException:
            self.end()
            raise

    def answers(self):
        if self.process.poll() is not None:
            raise RuntimeError(f"redis-server has ended with {self.process.returncode}")
        try:
            connection = Connection(self.port)
        except ConnectionRefusedError:
            return False
        connection.close()
        return True

    def end(self):
        self.process.terminate()
        try:
            self.process.wait(PATIENCE)
        except subprocess.TimeoutExpired:
            self.process.kill()
            self.process.wait()


class Link:
    """A proxy that a replica uses as its primary: a port that forwards everything, and holds back what the primary sends while `open` is cleared."""

    def __init__(self, primary):
        self.primary = primary
        self.open = threading.Event()
        self.open.set()
        self.listener = socket.create_server(("127.0.0.1", 0))
        self.port = self.listener.getsockname()[1]
        threading.Thread(target=self.accept, daemon=True).start()

    def accept(self):
        try:
            while True:
                near, _ = self.listener.accept()
                far = socket.create_connection(("127.0.0.1", self.primary))
                threading.Thread(target=self.pass_on, args=(near, far), daemon=True).start()
                threading.Thread(target=self.pass_on, args=(far, near, self.open), daemon=True).start()
        except OSError:
            # The link is closed, or the primary has ended.
            pass

    @staticmethod
    def pass_on(source, target, is_open=None):
        """Forwards data to the end of the stream, and waits while `is_open` is cleared."""
        try:
            while data := source.recv(65_536):
                if is_open:
                    is_open.wait()
                target.sendall(data)
            target.shutdown(socket.SHUT_WR)
        except OSError:
            # One of the two servers has ended.
            pass

    def end(self):
        self.open.set()
        self.listener.close()


def at_the_primary(primary, replica, link):
    """Four clients in parallel, which put three keys and get them again, all at the primary."""
    recorder = Recorder()
    clients = [Client(name, recorder, primary, replica) for name in ("alice", "bob", "carol", "dave")]

    def work(client):
        for turn in range(ROUNDS):
            client.put("xyz"[turn % 3], f"{client.name} {turn}")
            client.get("xyz"[(turn + 1) % 3])
            client.get("xyz"[(turn + 2) % 3])

    side_by_side(*(lambda client=client: work(client) for client in clients))
    for client in clients:
        client.close()
    return recorder.text()


def at_both(primary, replica, link):
    """Alice puts a new picture and then a message about it. Bob gets the message from the primary, and the picture from the replica, which has the old
    picture while its link is held back, and the new one afterwards. In parallel, Carol and Dave put and get at the primary."""
    recorder = Recorder()
    alice, bob, carol, dave = clients = [Client(name, recorder, primary, replica) for name in ("alice", "bob", "carol", "dave")]
    alice.put("picture", "old")
    in_step(primary, replica)
    bob.get("picture", at_replica=True)
    link.open.clear()
    said = threading.Event()

    def put_and_say():
        alice.put("picture", "new")
        alice.put("message", "look at my new picture")
        said.set()

    def read_and_look():
        if not said.wait(PATIENCE):
            return
        bob.get("message")
        bob.get("picture", at_replica=True)
        link.open.set()
        in_step(primary, replica)
        bob.get("picture", at_replica=True)

    def work(client):
        for turn in range(ROUNDS):
            client.put("xy"[turn % 2], f"{client.name} {turn}")
            client.get("xy"[(turn + 1) % 2])

    side_by_side(put_and_say, read_and_look, lambda: work(carol), lambda: work(dave))
    for client in clients:
        client.close()
    return recorder.text()


RECORDINGS = [("primary", at_the_primary), ("both", at_both)]


def recorded(folder, name, record):
    """Starts two servers, makes a recording and ends the servers. Returns the path of the recorded lines."""
    primary = replica = link = None
    try:
        primary = Server(folder, f"{name}_primary")
        link = Link(primary.port)
        replica = Server(folder, f"{name}_replica", link.port)
        in_step(primary.port, replica.port)
        text = record(primary.port, replica.port, link)
    finally:
        for part in (link, replica, primary):
            if part:
                part.end()
    path = os.path.join(folder, f"{name}.jsonl")
    with open(path, "w", encoding="utf-8") as file:
        file.write(text)
    return path


def cops(*words):
    print(f"$ cops {' '.join(words)}", flush=True)
    return subprocess.run([COPS, *words], check=False).returncode


def main(folder):
    for name, record in RECORDINGS:
        # Accepted, or refused and explained.
        if cops("check", recorded(folder, name, record)) not in (0, 1):
            return 1
    return 0


if __name__ == "__main__":
    if not shutil.which("redis-server"):
        sys.exit("redis-server is not installed")
    if len(sys.argv) > 1:
        os.makedirs(sys.argv[1], exist_ok=True)
        sys.exit(main(sys.argv[1]))
    with tempfile.TemporaryDirectory() as temporary:
        sys.exit(main(temporary))
