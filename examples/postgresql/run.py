#!/usr/bin/env python3
"""Records twice what clients of a PostgreSQL primary and its streaming replica see, and checks each recording.

usage: run.py [FOLDER]

In the first recording all clients get from the primary. In the second, one client also gets from the replica, which lags for a while. The lines are left in
FOLDER, if one is named. README.md in this folder says more.
"""
import glob
import os
import shutil
import socket
import struct
import subprocess
import sys
import tempfile
import threading

sys.dont_write_bytecode = True
HERE = os.path.dirname(os.path.abspath(__file__))
sys.path.insert(0, os.path.join(HERE, os.pardir, "redis"))
from record import PATIENCE, Recorder, side_by_side, wait_until  # noqa: E402

COPS = os.path.join(HERE, os.pardir, os.pardir, "cops")
ROUNDS = 20
NOBODY = 65_534

TABLE = "CREATE SEQUENCE clock; CREATE TABLE store (key text PRIMARY KEY, value text NOT NULL, version bigint NOT NULL)"
# The row is locked when the second nextval is called, so that versions of a key are in the order of its writes.
PUT = "INSERT INTO store VALUES ({0}, {1}, nextval('clock')) ON CONFLICT (key) DO UPDATE SET value = {1}, version = nextval('clock') RETURNING version"
GET = "SELECT value, version FROM store WHERE key = {0}"


def programs():
    """The folder of the server's programs, or None."""
    found = shutil.which("initdb")
    folders = [*([os.path.dirname(os.path.realpath(found))] if found else []), *sorted(glob.glob("/usr/lib/postgresql/*/bin"), reverse=True)]
    return next((it for it in folders if all(os.path.exists(os.path.join(it, name)) for name in ("initdb", "postgres", "pg_basebackup"))), None)


def as_nobody(words):
    """The words of a command as another user, if this one is root: the server does not run as root."""
    return words if os.geteuid() else ["setpriv", f"--reuid={NOBODY}", f"--regid={NOBODY}", "--clear-groups", *words]


def quoted(text):
    """A text as a literal of SQL: standard_conforming_strings is on."""
    return "'" + text.replace("'", "''") + "'"


class Connection:
    """One connection to a server by its protocol, version 3: statements and the rows that they return."""

    def __init__(self, port):
        self.socket = socket.create_connection(("127.0.0.1", port), timeout=PATIENCE)
        self.replies = self.socket.makefile("rb")
        words = b"user\0cops\0database\0postgres\0\0"
        self.socket.sendall(struct.pack(">II", len(words) + 8, 196_608) + words)
        self.rows()

    def call(self, statement):
        text = statement.encode() + b"\0"
        self.socket.sendall(b"Q" + struct.pack(">I", len(text) + 4) + text)
        return self.rows()

    def rows(self):
        """The rows of a statement's answer, which ends when the server is ready for the next statement."""
        rows, failure = [], None
        while True:
            kind, length = self.some(1), struct.unpack(">I", self.some(4))[0]
            body = self.some(length - 4)
            if kind == b"D":
                rows.append(fields_of(body))
            elif kind == b"E":
                failure = body.replace(b"\0", b" ").decode(errors="replace")
                if b"SFATAL\0" in body:
                    raise ConnectionRefusedError(failure)
            elif kind == b"Z":
                if failure:
                    raise RuntimeError(failure)
                return rows

    def some(self, count):
        data = self.replies.read(count)
        if len(data) < count:
            raise ConnectionError("the server has ended the connection")
        return data

    def close(self):
        self.replies.close()
        self.socket.close()


def fields_of(body):
    """The fields of a row: each has its length, or -1 for NULL, and its text."""
    at, fields = 2, []
    for _ in range(struct.unpack_from(">H", body)[0]):
        length = struct.unpack_from(">i", body, at)[0]
        fields.append(None if length < 0 else body[at + 4 : at + 4 + length].decode())
        at += 4 + max(length, 0)
    return fields


class Client:
    """A client, which puts at the primary and gets from the primary or the replica. It records an operation once its answer has arrived."""

    def __init__(self, name, recorder, primary, replica):
        self.name, self.recorder = name, recorder
        self.primary, self.replica = Connection(primary), Connection(replica)

    def put(self, key, value):
        put = {"client": self.name, "put": key, "value": value}
        try:
            (version,), = self.primary.call(PUT.format(quoted(key), quoted(value)))
        except OSError:
            # There was no answer in time, or the connection has ended: the put may have been stored or not.
            self.recorder.add({**put, "ok": None})
            raise
        self.recorder.add({**put, "version": int(version)})

    def get(self, key, at_replica=False):
        rows = (self.replica if at_replica else self.primary).call(GET.format(quoted(key)))
        value, version = rows[0] if rows else (None, None)
        self.recorder.add({"client": self.name, "get": key, "value": value, "version": int(version) if rows else None})

    def close(self):
        self.primary.close()
        self.replica.close()


def free_port():
    with socket.socket() as listener:
        listener.bind(("127.0.0.1", 0))
        return listener.getsockname()[1]


class Server:
    """A server on a free port of this machine with its data in a folder of its own."""

    def __init__(self, bin_folder, data):
        self.port = free_port()
        settings = {"listen_addresses": "127.0.0.1", "port": self.port, "unix_socket_directories": "", "fsync": "off", "wal_level": "replica"}
        words = [os.path.join(bin_folder, "postgres"), "-D", data, *(word for name, value in settings.items() for word in ("-c", f"{name}={value}"))]
        with open(f"{data}.log", "wb") as log:
            self.process = subprocess.Popen(as_nobody(words), stdout=log, stderr=log, cwd="/")
        try:
            wait_until(self.answers, "the server answers")
        except BaseException:
            self.end()
            raise

    def answers(self):
        if self.process.poll() is not None:
            raise RuntimeError(f"postgres has ended with {self.process.returncode}")
        try:
            Connection(self.port).close()
        except OSError:
            return False
        return True

    def end(self):
        self.process.send_signal(2)
        try:
            self.process.wait(PATIENCE)
        except subprocess.TimeoutExpired:
            self.process.kill()
            self.process.wait()


class Cluster:
    """A primary and its streaming replica."""

    def __init__(self, bin_folder, folder):
        self.servers = []
        primary, replica = os.path.join(folder, "primary"), os.path.join(folder, "replica")
        quiet = {"stdout": subprocess.DEVNULL, "check": True, "cwd": "/"}
        try:
            options = ["-U", "cops", "-A", "trust", "--no-locale", "-E", "UTF8", "--no-sync"]
            subprocess.run(as_nobody([os.path.join(bin_folder, "initdb"), "-D", primary, *options]), **quiet)
            self.servers.append(Server(bin_folder, primary))
            self.at(0, TABLE)
            source = ["-h", "127.0.0.1", "-p", str(self.servers[0].port), "-U", "cops"]
            subprocess.run(as_nobody([os.path.join(bin_folder, "pg_basebackup"), *source, "-D", replica, "-R", "--no-sync", "-c", "fast"]), **quiet)
            self.servers.append(Server(bin_folder, replica))
        except BaseException:
            self.end()
            raise

    @property
    def ports(self):
        return [server.port for server in self.servers]

    def at(self, number, statement):
        connection = Connection(self.servers[number].port)
        try:
            return connection.call(statement)
        finally:
            connection.close()

    def in_step(self):
        """Waits until the replica shows everything that the primary has now."""
        (place,), = self.at(0, "SELECT pg_current_wal_lsn()")
        wait_until(lambda: self.at(1, f"SELECT pg_last_wal_replay_lsn() >= '{place}'") == [["t"]], "the replica is in step")

    def end(self):
        for server in reversed(self.servers):
            server.end()


def at_the_primary(cluster):
    """Four clients in parallel, which put three keys and get them again, all at the primary."""
    recorder = Recorder()
    clients = [Client(name, recorder, *cluster.ports) for name in ("alice", "bob", "carol", "dave")]

    def work(client):
        for turn in range(ROUNDS):
            client.put("xyz"[turn % 3], f"{client.name} {turn}")
            client.get("xyz"[(turn + 1) % 3])
            client.get("xyz"[(turn + 2) % 3])

    side_by_side(*(lambda client=client: work(client) for client in clients))
    for client in clients:
        client.close()
    return recorder.text()


def at_both(cluster):
    """Alice puts a new picture and then a message about it. Bob gets the message from the primary, and the picture from the replica, which has the old picture
    while it does not replay what it receives, and the new one afterwards. In parallel, Carol and Dave put and get at the primary."""
    recorder = Recorder()
    alice, bob, carol, dave = clients = [Client(name, recorder, *cluster.ports) for name in ("alice", "bob", "carol", "dave")]
    alice.put("picture", "old")
    cluster.in_step()
    bob.get("picture", at_replica=True)
    cluster.at(1, "SELECT pg_wal_replay_pause()")
    wait_until(lambda: cluster.at(1, "SELECT pg_get_wal_replay_pause_state()") == [["paused"]], "the replica pauses")
    said = threading.Event()

    def put_and_say():
        alice.put("picture", "new")
        alice.put("message", "look at my new picture")
        said.set()

    def read_and_look():
        if not said.wait(PATIENCE):
            return
        bob.get("message")
        bob.get("picture", at_replica=True)
        cluster.at(1, "SELECT pg_wal_replay_resume()")
        cluster.in_step()
        bob.get("picture", at_replica=True)

    def work(client):
        for turn in range(ROUNDS):
            client.put("xy"[turn % 2], f"{client.name} {turn}")
            client.get("xy"[(turn + 1) % 2])

    side_by_side(put_and_say, read_and_look, lambda: work(carol), lambda: work(dave))
    for client in clients:
        client.close()
    return recorder.text()


def recorded(bin_folder, folder, name, record):
    """Starts two servers, makes a recording and ends the servers. Returns the path of the recorded lines."""
    with tempfile.TemporaryDirectory(prefix="cops-postgresql-") as data:
        os.chmod(data, 0o700)
        if not os.geteuid():
            os.chown(data, NOBODY, NOBODY)
        cluster = Cluster(bin_folder, data)
        try:
            cluster.in_step()
            text = record(cluster)
        finally:
            cluster.end()
    path = os.path.join(folder, f"{name}.jsonl")
    with open(path, "w", encoding="utf-8") as file:
        file.write(text)
    return path


def cops(*words):
    print(f"$ cops {' '.join(words)}", flush=True)
    return subprocess.run([COPS, *words], check=False).returncode


def main(bin_folder, folder):
    for name, record in (("primary", at_the_primary), ("both", at_both)):
        # Accepted, or refused and explained.
        if cops("check", recorded(bin_folder, folder, name, record)) not in (0, 1):
            return 1
    return 0


if __name__ == "__main__":
    if not programs():
        sys.exit("PostgreSQL's server is not installed")
    if len(sys.argv) > 1:
        os.makedirs(sys.argv[1], exist_ok=True)
        sys.exit(main(programs(), sys.argv[1]))
    with tempfile.TemporaryDirectory() as temporary:
        sys.exit(main(programs(), temporary))
