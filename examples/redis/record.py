"""Records as JSON Lines what clients of a Redis primary and its replica see.

This module implements the protocol RESP itself, over sockets. A put is a script that increments a clock of the primary and stores the value together
with the new clock: that is the version of the put, and no two puts have the same. A get returns both.
"""
import json
import socket
import threading
import time

CLOCK = "clock"
PUT = """
local version = redis.call('INCR', KEYS[1])
redis.call('HSET', KEYS[2], 'value', ARGV[1], 'version', version)
return version
"""

# The timeout in seconds, for a reply and for a replica that catches up.
PATIENCE = 20


class Connection:
    """One connection to a server: commands, and their replies."""

    def __init__(self, port):
        self.socket = socket.create_connection(("127.0.0.1", port), timeout=PATIENCE)
        self.replies = self.socket.makefile("rb")

    def call(self, *words):
        """Sends a command and returns its reply: a text, a whole number, None, or a list of these."""
        text = f"*{len(words)}\r\n".encode()
        for word in words:
            data = str(word).encode()
            text += f"${len(data)}\r\n".encode() + data + b"\r\n"
        self.socket.sendall(text)
        return self.reply()

    def reply(self):
        line = self.replies.readline()
        if not line.endswith(b"\r\n"):
            raise ConnectionError("the server has ended the connection")
        kind, rest = line[:1], line[1:-2]
        if kind == b"+":
            return rest.decode()
        if kind == b"-":
            raise RuntimeError(rest.decode())
        if kind == b":":
            return int(rest)
        if kind == b"$":
            return None if rest == b"-1" else self.replies.read(int(rest) + 2)[:-2].decode()
        if kind == b"*":
            return [self.reply() for _ in range(int(rest))]
        raise ValueError(f"no reply: {line}")

    def information(self, section):
        """The fields of a section of INFO, by name."""
        lines = self.call("INFO", section).split("\r\n")
        return dict(line.split(":", 1) for line in lines if ":" in line)

    def close(self):
        self.replies.close()
        self.socket.close()


class Recorder:
    """Keeps a line for each operation, in the order in which the replies arrive."""

    def __init__(self):
        self.lock = threading.Lock()
        self.lines = []

    def add(self, line):
        with self.lock:
            self.lines.append(json.dumps(line))

    def text(self):
        return "".join(line + "\n" for line in self.lines)


class Client:
    """A client, which puts at the primary and gets from the primary or the replica. It records an operation once its reply has arrived, before the next
    operation."""

    def __init__(self, name, recorder, primary, replica):
        self.name = name
        self.recorder = recorder
        self.primary = Connection(primary)
        self.replica = Connection(replica)

    def put(self, key, value):
        put = {"client": self.name, "put": key, "value": value}
        try:
            version = self.primary.call("EVAL", PUT, 2, CLOCK, f"key:{key}", value)
        except OSError:
            # There was no reply in time, or the connection has ended: the put may have been stored or not.
            self.recorder.add({**put, "ok": None})
            raise
        self.recorder.add({**put, "version": version})

    def get(self, key, at_replica=False):
        server = self.replica if at_replica else self.primary
        value, version = server.call("HMGET", f"key:{key}", "value", "version")
        found = version is not None
        self.recorder.add({"client": self.name, "get": key, "value": value if found else None, "version": int(version) if found else None})

    def close(self):
        self.primary.close()
        self.replica.close()


def wait_until(holds, what):
    """Polls until the condition holds. Raises TimeoutError after PATIENCE seconds."""
    end = time.monotonic() + PATIENCE
    while not holds():
        if time.monotonic() > end:
            raise TimeoutError(f"waited for {PATIENCE} seconds: {what}")
        time.sleep(0.01)


def in_step(primary, replica):
    """Waits until the replica has everything that the primary has now."""
    to_primary, to_replica = Connection(primary), Connection(replica)
    offset = int(to_primary.information("replication")["master_repl_offset"])

    def has_all():
        state = to_replica.information("replication")
        return state.get("master_link_status") == "up" and int(state["slave_repl_offset"]) >= offset

    wait_until(has_all, "the replica is in step")
    to_primary.close()
    to_replica.close()


def side_by_side(*functions):
    """Runs the functions in parallel, each on its own thread. If some fail, raises the first failure."""
    failures = []

    def call(function):
        try:
            function()
        except Exception as failure:  # (raised below, by the thread that waits)
            failures.append(failure)

    threads = [threading.Thread(target=call, args=(function,)) for function in functions]
    for thread in threads:
        thread.start()
    for thread in threads:
        thread.join()
    if failures:
        raise failures[0]
