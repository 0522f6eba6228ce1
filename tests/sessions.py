"""Tests of the front door: its replies, consecutive sessions, misbehaving peers, idle clients, and where it listens."""
import json
import os
import socket
import subprocess
import time

from traces import ROOT, check, cops, example, skip
from client import message, talk

# 127.0.0.1, and the state of a socket that listens, as the system's tables of sockets write them.
LOOPBACK = "0100007F"
LISTENS = "0A"

# The timeout of a client of these tests, in seconds.
PATIENCE = 60


def free_port():
    with socket.socket() as listener:
        listener.bind(("127.0.0.1", 0))
        return listener.getsockname()[1]


def read_to_end(connection):
    """All data up to the end of the stream. If the connection breaks instead, the error comes last, which no test expects."""
    got = b""
    try:
        while piece := connection.recv(4096):
            got += piece
    except OSError as fault:
        got += repr(fault).encode()
    return got


class Server:
    """A `cops serve` with this number of sessions. Each session is one call, which first waits for the port."""

    def __init__(self, text, sessions, *words):
        self.port = free_port()
        command = [os.path.join(ROOT, "cops"), "serve", str(self.port), "-", "--sessions", str(sessions), *words]
        self.process = subprocess.Popen(command, stdin=subprocess.PIPE, stdout=subprocess.PIPE, stderr=subprocess.PIPE)
        self.process.stdin.write(text)
        self.process.stdin.close()

    def connect(self):
        for _ in range(2000):
            try:
                return socket.create_connection(("127.0.0.1", self.port), PATIENCE)
            except ConnectionRefusedError:
                if self.process.poll() is not None:
                    break
                time.sleep(0.01)
        raise ConnectionRefusedError(self.process.stderr.read())

    def lines(self, *given):
        """The replies to a client that sends these lines and disconnects."""
        return list(talk(self.port, given, connect=self.connect))

    def bytes(self, given, rest=b"", ends=True):
        """Everything that comes back for these bytes. The bytes of `rest` are sent one by one; `ends` says whether the client then shuts its writing side."""
        with self.connect() as connection:
            try:
                connection.sendall(given)
                for at in range(len(rest)):
                    connection.sendall(rest[at : at + 1])
                if ends:
                    connection.shutdown(socket.SHUT_WR)
            except OSError as fault:
                return repr(fault).encode()
            return read_to_end(connection)

    def leave(self, given):
        """Sends these bytes, and disconnects without reading the replies."""
        with self.connect() as connection:
            connection.sendall(given)

    def ended(self):
        out, err = self.process.stdout.read(), self.process.stderr.read()
        return self.process.wait(), out, err


def one_client(**more):
    return json.dumps({"data_centres": 1, "clients": [{"at": 0}], **more}).encode()


def served():
    """Consecutive sessions of the front door, and the report at the end."""
    hello, bye = "000000050100010000", "000000010f"
    server = Server(one_client(), 2)
    given = bytes.fromhex(hello + "0000000a03000000010178000131" + bye)
    wanted = bytes.fromhex("00000003020001" + "0000000d05000000010000000000010000" + "0000000110")
    check("a session by hand", server.bytes(given), wanted)
    got = server.lines("hello 0", "get x", "status 0", "status 1", "check x 1.0", "check x 2.0", "bye")
    lines = ["hello from data centre 0, 1 nodes", "got 1 1.0", "clock 1, keys 1, settled 1, held 0", "refused 19", "yes", "wait", "bye"]
    check("the session after it", got, lines)
    check("the report of both", server.ended(), (0, b"accepted: 2 operations, 1 puts\n", b""))

    server = Server(example("two_clients.json"), 2)
    lines = ["hello from data centre 0, 1 nodes", "done 1.0", "got 1 1.0", "bye"]
    check("the first session of the example", server.lines("hello 0", "put x 1", "get x", "bye"), lines)
    lines = ["hello from data centre 1, 1 nodes", "got 1 1.0", "clock 1, keys 1, settled 1, held 0", "bye"]
    check("its second session", server.lines("hello 1", "get x", "status 0", "bye"), lines)
    check("its report", server.ended(), (0, b"accepted: 3 operations, 1 puts\n", b"the scripts of the scenario are not run\n"))

    two = {"data_centres": 2, "splits": ["m"], "clients": [{"at": 0}, {"at": 1}, {"at": 1}]}
    server = Server(json.dumps(two).encode(), 5)
    check("a put", server.lines("hello 0", "put x 1", "put a 2", "bye"), ["hello from data centre 0, 2 nodes", "done 1.1", "done 2.0", "bye"])
    check("a get elsewhere", server.lines("hello 1", "get a", "put z 3", "bye"), ["hello from data centre 1, 2 nodes", "got 2 2.0", "done 3.65", "bye"])
    check("the first client again", server.lines("hello 0", "check z 3.65", "get z", "bye"), ["hello from data centre 0, 2 nodes", "yes", "got 3 3.65", "bye"])
    check("another client", server.lines("hello 2", "get x", "get y", "bye"), ["hello from data centre 1, 2 nodes", "got 1 1.1", "missed", "bye"])
    check("no such client", server.lines("hello 3", "hello 2", "put x 4", "bye"), ["refused 3", "hello from data centre 1, 2 nodes", "done 4.65", "bye"])
    check("their report", server.ended(), (0, b"accepted: 8 operations, 4 puts\n", b""))


def served_deletions():
    """Deletions at the front door of a cluster of format 2, and in the other data centre, after a put that depends on them."""
    server = Server(one_client(format=2), 2)
    hello, bye = "000000050100020000", "000000010f"
    given = hello + "0000000a03000000010178000131" + "0000000716000000020178" + "0000000704000000030178" + bye
    done, deleted, gone = "0000000d05000000010000000000010000", "0000000d17000000020000000000020000", "0000000d18000000030000000000020000"
    check("a session with a deletion by hand", server.bytes(bytes.fromhex(given)).hex(), "00000003020001" + done + deleted + gone + "0000000110")
    got = server.lines("hello 0 2", "get x", "check x 2.0", "status 0", "put x 3", "get x", "bye")
    lines = ["hello from data centre 0, 1 nodes", "gone 2.0", "yes", "clock 2, keys 1, settled 2, held 0", "done 3.0", "got 3 3.0", "bye"]
    check("the session after it", got, lines)
    check("the report of both", server.ended(), (0, b"accepted: 6 operations, 3 puts\n", b""))
    two = {"format": 2, "data_centres": 2, "clients": [{"at": 0}, {"at": 1}]}
    server = Server(json.dumps(two).encode(), 2)
    check("a put and its deletion", server.lines("hello 0 2", "put x 1", "delete x", "put y 2", "bye")[1:], ["done 1.0", "deleted 2.0", "done 3.0", "bye"])
    check("the deletion elsewhere", server.lines("hello 1 2", "get y", "get x", "bye")[1:], ["got 2 3.0", "gone 2.0", "bye"])
    check("the report of both data centres", server.ended(), (0, b"accepted: 5 operations, 3 puts\n", b""))


# Messages in hexadecimal digits, a greeting, a put and a goodbye, and the reply to each.
GREETING, FIRST_PUT, BYE = "000000050100010000", "0000000a03000000010178000131", "000000010f"
WELCOME, DONE, GOODBYE = "00000003020001", "0000000d05000000010000000000010000", "0000000110"


def sessions_of_one_message():
    """Each message in hexadecimal digits, before a greeting and after it, with the replies to it."""
    get, later = "0000000704000000020178", "0000000f0a0000000501780000000000090000"
    before = [
        (FIRST_PUT, "00000006080000000110"),
        (get, "00000006080000000210"),
        (later, "00000006080000000510"),
        ("000000060d0000000300", "00000006080000000310"),
        ("000000050100020000", "00000006080000000011"),
        ("000000050100010001", "00000006080000000003"),
        ("000000050b00000007", "00000006080000000712"),
        ("000000050c00000008", "00000006080000000812"),
        (WELCOME, "00000006080000000012"),
        (DONE, "00000006080000000112"),
        ("0000002409017000013600000000000300000002016b0000000000020000016b0000000000020040", "00000006080000000012"),
        ("000000051500000002", "00000006080000000012"),
        (BYE, GOODBYE),
        ("000000050100020000" + FIRST_PUT + GREETING, "00000006080000000011" + "00000006080000000110" + WELCOME),
    ]
    after = [
        (get, "000000050700000002"),
        (later, "000000050c00000005"),
        (GREETING, "00000006080000000012"),
        ("000000050100020000", "00000006080000000012"),
        ("000000050b00000007", "00000006080000000712"),
        ("000000060d0000000300", "000000190e000000030000000000000000000000000000000000000000"),
        ("000000060d0000000401", "00000006080000000413"),
        (BYE, GOODBYE),
        (FIRST_PUT, DONE),
    ]
    return [*before, *((GREETING + given, WELCOME + wanted) for given, wanted in after)]


def replies():
    """The replies of the front door to each message, before a greeting and after it, to garbage, and to a session that is cut anywhere."""
    sessions, deletion = sessions_of_one_message(), "0000000716000000010178"
    garbage = ("00000000", "00008001", "ffffffffff", "000000011c", "000000020f00", "0000000704000000010078", deletion)
    whole = bytes.fromhex(GREETING + FIRST_PUT + BYE)
    server = Server(one_client(), len(sessions) + len(garbage) + len(whole))
    for given, wanted in sessions:
        check(f"replies to {given}", server.bytes(bytes.fromhex(given)).hex(), wanted)
    for given in garbage:
        check(f"replies to {given}", server.bytes(bytes.fromhex(GREETING + given)).hex(), WELCOME)
    for length in range(len(whole)):
        got = server.bytes(whole[:length])
        check(f"replies to a session of {length} bytes", (got[:7], len(got)), (bytes.fromhex(WELCOME)[: len(got)], (length >= 9) * 7 + (length >= 23) * 17))
    status, out, err = server.ended()
    check("the report after them", (status, out, err), (0, b"accepted: 7 operations, 6 puts\n", b""))


def strange_peers():
    """Whatever a peer sends, only its own session ends, and the next is served."""
    hello, bye = message(["hello", "0"], 0), message(["bye"], 0)
    put = message(["put", "x", "1"], 7)
    welcome, refused = bytes.fromhex("00000003020001"), "000000060800000007"
    peers = [
        ("nothing", b"", b"", b""),
        ("garbage", bytes(range(256)), b"", b""),
        ("half a frame", hello[:5], b"", b""),
        ("half a frame after a greeting", hello + put[:-1], b"", welcome),
        ("a put before a greeting", put + bye, b"", bytes.fromhex(refused + "10" + "0000000110")),
        ("two greetings", hello + hello + bye, b"", welcome + bytes.fromhex("00000006080000000012" + "0000000110")),
        ("another profile", bytes.fromhex("000000050100020000") + bye, b"", bytes.fromhex("00000006080000000011" + "0000000110")),
        ("a reply", bytes.fromhex("000000050b00000007") + bye, b"", bytes.fromhex(refused + "12" + "0000000110")),
        ("messages behind the goodbye", hello + bye + put, b"", welcome + bytes.fromhex("0000000110")),
        ("the longest frame by single bytes", hello, bytes.fromhex("00008000") + bytes([3]) + bytes(32_767), welcome),
        ("an announced length alone", hello + bytes.fromhex("00008000"), b"", welcome),
        ("a length that is too long", hello + bytes.fromhex("00008001"), b"", welcome),
    ]
    server = Server(one_client(), len(peers) + 2)
    for name, given, rest, wanted in peers:
        got = server.bytes(given, rest)
        check(f"peer: {name}", got.hex(), wanted.hex())
    server.leave(hello + put * 5000)
    got = server.lines("hello 0", "put y 2", "get y", "bye")
    check("a peer after all of them", (got[0], got[2].split()[:2], got[3]), ("hello from data centre 0, 1 nodes", ["got", "2"], "bye"))
    status, out, err = server.ended()
    check("the report after strange peers", (status, out.startswith(b"accepted: "), err), (0, True, b""))
    not_served()


def not_served():
    """A port in use, a scenario that is faulty or cannot be read, and wrong usage."""
    port = free_port()
    with socket.socket() as taken:
        taken.bind(("127.0.0.1", port))
        taken.listen()
        check("a port in use", cops("serve", str(port), "-", stdin=one_client()), (4, b"", b"failed: bind\n"))
    check("serve of a faulty scenario", cops("serve", str(port), "-", stdin=b"{}"), (2, b"faulty: scenario field data_centres\n", b""))
    check("serve of no file", cops("serve", str(port), "/nothing/there"), (4, b"", b"failed: open\n"))
    idle = [["1", "a", "--idle", given] for given in ("0", "65536", "x", "-1", "1.5", "")]
    for given in (["0", "a"], ["65536", "a"], ["x", "a"], ["1"], ["1", "a", "--sessions", "0"], ["1", "a", "--sessions", "65536"], *idle):
        status, out, err = cops("serve", *given)
        check(f"usage of serve {given}", (status, out, err != b""), (2, b"", True))


def sent_behind():
    """Replies that were written are read, whatever a client sends after the end of its session, and a client that stays connected after it does not block the
    front door."""
    hello, bye = message(["hello", "0"], 0), message(["bye"], 0)
    get, put = message(["get", "x"], 7), message(["put", "x", "1"], 7)
    welcome, missed, goodbye = (bytes.fromhex(given) for given in ("00000003020001", "000000050700000007", "0000000110"))
    fault, more = bytes.fromhex("00008001"), (put * 8000)[:100_000]
    server = Server(one_client(), 700)
    for number in range(500):
        got = server.bytes(hello + get * 20 + bye + more, ends=number % 2 == 0)
        check(f"replies before bytes behind a goodbye {number}", got.hex(), (welcome + missed * 20 + goodbye).hex())
    for number in range(100):
        got = server.bytes(hello + get * 20 + fault + more, ends=number % 2 == 0)
        check(f"replies before bytes behind a fault {number}", got.hex(), (welcome + missed * 20).hex())
    for number in range(100):
        got = server.bytes(hello + get + bye, more[:50], ends=number % 2 == 0)
        check(f"replies before single bytes behind a goodbye {number}", got.hex(), (welcome + missed + goodbye).hex())
    check("the report behind them", server.ended(), (0, b"accepted: 12100 operations, 0 puts\n", b""))

    server = Server(one_client(), 4)
    with server.connect() as silent, server.connect() as cut, server.connect() as endless:
        silent.sendall(hello + get + bye)
        cut.sendall(hello + get + fault)
        check("a client that sends without an end is cut", sent_until_cut(endless, hello + bye, more), True)
        got = server.lines("hello 0", "get x", "bye")
        check("a client behind three that stay", got, ["hello from data centre 0, 1 nodes", "missed", "bye"])
        check("replies to a client that stays behind its goodbye", read_to_end(silent).hex(), (welcome + missed + goodbye).hex())
        check("replies to a client that stays behind a fault", read_to_end(cut).hex(), (welcome + missed).hex())
    check("the report behind clients that stay", server.ended(), (0, b"accepted: 3 operations, 0 puts\n", b""))


def sent_until_cut(connection, given, more):
    """Whether the connection was cut while these bytes were sent, and then `more` repeatedly."""
    try:
        connection.sendall(given)
        while True:
            connection.sendall(more)
    except ConnectionError:
        return True
    except TimeoutError:
        return False


def idle_clients():
    """A client that is idle for longer than the limit is disconnected, and no other client is."""
    hello, bye = message(["hello", "0"], 0), message(["bye"], 0)
    put, get, other = message(["put", "x", "v" * 4096], 7), message(["get", "x"], 7), message(["get", "y"], 7)
    welcome, missed, goodbye = (bytes.fromhex(given) for given in ("00000003020001", "000000050700000007", "0000000110"))
    done = bytes.fromhex("0000000d05000000070000000000010000")
    server = Server(one_client(), 5, "--idle", "1")
    with server.connect() as silent, server.connect() as inside, server.connect() as mute, server.connect() as full:
        silent.sendall(hello + other)
        inside.sendall(hello + other + put[:-1])
        full.sendall(hello + put + get * 8000)
        check("replies to a client that falls silent", read_to_end(silent).hex(), (welcome + missed).hex())
        check("replies to one that does so inside a frame", read_to_end(inside).hex(), (welcome + missed).hex())
        check("replies to one that says nothing", read_to_end(mute), b"")
        check("a client behind idle ones", server.bytes(hello + other + bye).hex(), (welcome + missed + goodbye).hex())
        got = read_to_end(full)
        check("replies to one that takes nothing", (got[:24].hex(), b"Error" in got, len(got) < 8000 * 4096), ((welcome + done).hex(), False, True))
    status, out, err = server.ended()
    check("the report behind idle clients", (status, out.startswith(b"accepted: "), err), (0, True, b""))

    for words, seconds, gets in ((["--idle", "2"], 0.4, 6), ([], 1.5, 1)):
        server = Server(one_client(), 1, *words)
        with server.connect() as slow:
            for given in (hello, *[get] * gets, bye):
                slow.sendall(given)
                time.sleep(seconds)
            check(f"replies to a slow client, {words}", read_to_end(slow).hex(), (welcome + missed * gets + goodbye).hex())
        check(f"the report on it, {words}", server.ended(), (0, f"accepted: {gets} operations, 0 puts\n".encode(), b""))


def listening(port):
    """The addresses at which some process listens on this port, according to the system's tables of sockets."""
    for table in filter(os.path.exists, ("/proc/net/tcp", "/proc/net/tcp6")):
        with open(table, encoding="ascii") as file:
            for line in file.readlines()[1:]:
                _, local, _, state, *_ = line.split()
                address, _, at = local.partition(":")
                if int(at, 16) == port and state == LISTENS:
                    yield address


def listens_here_alone():
    """The front door listens at 127.0.0.1, and at no other address of the machine."""
    with socket.socket() as known:
        known.bind(("127.0.0.1", 0))
        known.listen()
        addresses = list(listening(known.getsockname()[1]))
    if addresses != [LOOPBACK]:
        skip("where the front door listens", "the system's tables do not show a socket that listens")
        return
    server = Server(one_client(), 1)
    for _ in range(2000):
        if list(listening(server.port)):
            break
        time.sleep(0.01)
    check("where the front door listens", list(listening(server.port)), [LOOPBACK])
    check("a session there", server.lines("bye"), ["bye"])
    check("the report of no operations", server.ended(), (0, b"accepted: 0 operations, 0 puts\n", b""))
