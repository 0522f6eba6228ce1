#!/usr/bin/env python3
"""Tests of examples/client.py: each line of input gets a reply or one line on standard error, and values may have spaces.

Prints a line for each test that fails, and at the end `N passed, M failed`.
"""
import os
import socket
import subprocess
import sys
import threading
import time

sys.dont_write_bytecode = True
from traces import LIMITS, ROOT, check, ended  # noqa: E402

CLIENT = os.path.join(ROOT, "examples", "client.py")
SCENARIO = b'{"data_centres":1,"clients":[{"at":0}]}'
WITH_DELETIONS = b'{"format":2,"data_centres":1,"clients":[{"at":0}]}'
USAGE = b"client: usage: client.py PORT < MESSAGES, with a port of 1 to 65535\n"

# The timeout of a test, in seconds.
PATIENCE = 60

MESSAGES = b"hello CLIENT [PROFILE], put KEY VALUE, delete KEY, get KEY, check KEY VERSION, status PLACE, bye"

# Lines that are not messages, and the error for each.
WRONG = [
    (b"foo", b"there is no message 'foo': the messages are " + MESSAGES),
    (b"\xff", b"there is no message '\\udcff': the messages are " + MESSAGES),
    (b"PUT x 1", b"there is no message 'PUT': the messages are " + MESSAGES),
    (b"hello", b"the message is written hello CLIENT [PROFILE]"),
    (b"hello 0 1 2", b"the message is written hello CLIENT [PROFILE]"),
    (b"hello x", b"a client is a whole number of at most 65535"),
    (b"hello -1", b"a client is a whole number of at most 65535"),
    (b"hello 65536", b"a client is a whole number of at most 65535"),
    (b"hello " + b"9" * 5000, b"a client is a whole number of at most 65535"),
    ("hello ١".encode(), b"a client is a whole number of at most 65535"),
    (b"hello 0 x", b"a profile is a whole number of at most 65535"),
    (b"hello 0 65536", b"a profile is a whole number of at most 65535"),
    (b"put", b"the message is written put KEY VALUE"),
    (b"put x", b"the message is written put KEY VALUE"),
    (b"put x ", b"the message is written put KEY VALUE"),
    (b"put " + b"k" * 65 + b" 1", b"a key has 1 to 64 bytes"),
    (b"put x " + b"v" * 4097, b"a value has 0 to 4096 bytes"),
    (b"put x \xff", b"a value is UTF-8"),
    (b"put \xff 1", b"a key is UTF-8"),
    (b"delete", b"the message is written delete KEY"),
    (b"delete a b", b"the message is written delete KEY"),
    (b"delete " + b"k" * 65, b"a key has 1 to 64 bytes"),
    (b"del x", b"there is no message 'del': the messages are " + MESSAGES),
    (b"get", b"the message is written get KEY"),
    (b"get a b", b"the message is written get KEY"),
    (b"get " + "ü".encode() * 33, b"a key has 1 to 64 bytes"),
    (b"check x", b"the message is written check KEY VERSION"),
    (b"check x 1", b"a version is CLOCK.NODE"),
    (b"check x 1.", b"a version's node is a whole number of at most 1023"),
    (b"check x .1", b"a version's clock is a whole number of at most 281474976710655"),
    (b"check x 0.1", b"a version's clock is above 0"),
    (b"check x 281474976710656.0", b"a version's clock is a whole number of at most 281474976710655"),
    (b"check x 1.1024", b"a version's node is a whole number of at most 1023"),
    (b"check x 1.0.0", b"a version's node is a whole number of at most 1023"),
    (b"status", b"the message is written status PLACE"),
    (b"status 64", b"a place is a whole number of at most 63"),
    (b"status one", b"a place is a whole number of at most 63"),
    (b"bye now", b"the message is written bye"),
]


def free_port():
    with socket.socket() as listener:
        listener.bind(("127.0.0.1", 0))
        return listener.getsockname()[1]


def client(*words, typed=b"", stdin=None, stdout=subprocess.PIPE):
    """Status, output and errors of the client for this input."""
    given = {"input": typed} if stdin is None else {"stdin": stdin}
    ran = subprocess.run([sys.executable, CLIENT, *words], stdout=stdout, stderr=subprocess.PIPE, timeout=PATIENCE, **given)
    return ran.returncode, ran.stdout, ran.stderr


class Server:
    """A `cops serve` with this number of sessions."""

    def __init__(self, sessions, scenario=SCENARIO):
        self.port = str(free_port())
        command = [os.path.join(ROOT, "cops"), "serve", self.port, "-", "--sessions", str(sessions)]
        self.process = subprocess.Popen(command, stdin=subprocess.PIPE, stdout=subprocess.PIPE, stderr=subprocess.PIPE)
        self.process.stdin.write(scenario)
        self.process.stdin.close()

    def client(self, typed, **more):
        """The answer of the client, once the server listens on the port."""
        end = time.monotonic() + PATIENCE
        while time.monotonic() < end:
            answer = client(self.port, typed=typed, **more)
            if b"Connection refused" not in answer[2] or self.process.poll() is not None:
                return answer
            time.sleep(0.01)
        return "the port is not there"

    def ended(self):
        out = self.process.stdout.read()
        self.process.stdout.close()
        return self.process.wait(), out, self.process.stderr.read()


def sessions():
    """Lines that are not messages among others, and values with spaces. The session continues after each of them."""
    server = Server(5)
    typed = b"".join(line + b"\n" for line, _ in WRONG)
    errors = b"".join(b"client: line %d: %s\n" % (number, why) for number, (_, why) in enumerate(WRONG, 2))
    answer = server.client(b"hello 0\n" + typed + b"\n  \nput x 1\nbye\n")
    check("lines that are no messages", answer, (1, b"hello from data centre 0, 1 nodes\ndone 1.0\nbye\n", errors))
    values = [(b"put x a b  c\n", b"a b  c"), (b"put x  a\r\n", b" a"), (b"put x a \n", b"a "), ("  put x ü \"q\"\n".encode(), 'ü "q"'.encode())]
    typed = b"hello 0\n" + b"".join(line + b"get x\n" for line, _ in values) + b"check x 2.0\nstatus 0\nstatus 63\nget y\nbye"
    got = b"".join(b"done %d.0\ngot %s %d.0\n" % (clock, value, clock) for clock, (_, value) in enumerate(values, 2))
    wanted = b"hello from data centre 0, 1 nodes\n" + got + b"yes\nclock 5, keys 1, settled 5, held 0\nrefused 19\nmissed\nbye\n"
    check("values with spaces", server.client(typed), (0, wanted, b""))
    check("a message behind the end", server.client(b"bye\nget x\n")[1:], (b"bye\nthe session has ended\n", b""))
    check("nothing is typed", server.client(b""), (0, b"", b""))
    with open("/dev/full", "wb") as full:
        line = b"client: port %s: No space left on device\n" % server.port.encode()
        check("nobody takes the replies", server.client(b"hello 0\n", stdout=full), (1, None, line))
    check("the report", server.ended(), (0, b"accepted: 10 operations, 5 puts\n", b""))


def deletions():
    """A cluster of format 2 has deletions. A deletion ends the session in a cluster of format 1, and before a greeting in one of format 2."""
    server = Server(4, WITH_DELETIONS)
    typed = b"hello 0\nhello 0 2\nput x 1\ndelete x\nget x\nput x \ndelete y\nget y\nget z\ncheck x 2.0\nbye\n"
    expected = b"refused 17\nhello from data centre 0, 1 nodes\ndone 1.0\ndeleted 2.0\ngone 2.0\ndeleted 3.0\ngone 3.0\nmissed\nyes\nbye\n"
    wrong = b"client: line 6: the message is written put KEY VALUE\n"
    check("a session with deletions", server.client(typed), (1, expected, wrong))
    check("a deletion before a greeting", server.client(b"delete x\nget x\n")[1:], (b"the session has ended\n", b""))
    check("a deletion behind a refused greeting", server.client(b"hello 0 1\ndelete x\n")[1:], (b"refused 17\nthe session has ended\n", b""))
    typed = b"hello 0 2\nput y 2\nget y\nget x\nbye\n"
    expected = b"hello from data centre 0, 1 nodes\ndone 4.0\ngot 2 4.0\ngone 2.0\nbye\n"
    check("a session after them", server.client(typed), (0, expected, b""))
    check("the report of deletions", server.ended(), (0, b"accepted: 9 operations, 4 puts\n", b""))
    server = Server(2)
    expected = b"refused 17\nhello from data centre 0, 1 nodes\ndone 1.0\nthe session has ended\n"
    check("a deletion in format 1", server.client(b"hello 0 2\nhello 0\nput x 1\ndelete x\nget x\n"), (1, expected, b""))
    check("a session behind it", server.client(b"hello 0\nget x\nbye\n"), (0, b"hello from data centre 0, 1 nodes\ngot 1 1.0\nbye\n", b""))
    check("the report of format 1", server.ended(), (0, b"accepted: 2 operations, 1 puts\n", b""))


def longest_values():
    """A value is at most as long as the format allows: format 1 until a greeting is accepted, then the format of its profile."""
    short, long = (limits.value for limits in LIMITS.values())
    welcome = b"hello from data centre 0, 1 nodes\n"
    before = b"client: line %d: a value has 0 to 4096 bytes\n"
    server = Server(1)
    typed = b"hello 0\nput x %s\nput x %s\nget x\nbye\n" % (b"v" * short, b"v" * (short + 1))
    expected = welcome + b"done 1.0\ngot %s 1.0\nbye\n" % (b"v" * short)
    check("the longest value of format 1", server.client(typed), (1, expected, before % 3))
    check("the report of it", server.ended(), (0, b"accepted: 2 operations, 1 puts\n", b""))
    server = Server(2, WITH_DELETIONS)
    longer, most = b"put x %s\n" % (b"v" * (short + 1)), "ü".encode() * (long // 2)
    typed = longer + b"hello 0 1\n" + longer + b"hello 0 2\nput x %s\nput x %sv\nget x\nbye\n" % (most, most)
    expected = b"refused 17\n" + welcome + b"done 1.0\ngot %s 1.0\nbye\n" % most
    wrong = before % 1 + before % 3 + b"client: line 6: a value has 0 to 16384 bytes\n"
    check("the longest value of format 2", server.client(typed), (1, expected, wrong))
    expected = welcome + b"refused 18\ndone 2.0\ngot %s 2.0\nbye\n" % (b"v" * (short + 1))
    check("a longer value behind a second greeting", server.client(b"hello 0 2\nhello 0 1\n" + longer + b"get x\nbye\n"), (0, expected, b""))
    check("the report of both", server.ended(), (0, b"accepted: 4 operations, 2 puts\n", b""))


def words():
    for given in ([], ["x"], ["0"], ["65536"], ["-1"], ["7070", "x"], [""], ["7" * 5000], ["\u0661"]):
        check(f"usage of {str(given)[:20]}", client(*given), (2, b"", USAGE))
    port = str(free_port())
    check("nobody listens", client(port, typed=b"bye\n"), (1, b"", b"client: port %s: Connection refused\n" % port.encode()))


def other_servers():
    """Servers that are not a front door, or that disconnect at once."""
    no_front_door, gone = "client: port {}: what answers there is no front door of cops serve\n", b"the session has ended\n"
    replies = [
        (b"SSH-2.0-OpenSSH\r\n", b"", no_front_door),
        (b"\0\0\0\0", b"", no_front_door),
        (b"\0\0\0\1\x63", b"", no_front_door),
        (b"\0\0\0\2\6\0", b"", no_front_door),
        (b"\0\0\0\x05\1", gone, ""),
        (b"", gone, ""),
        (b"\0\0\x80\0", gone, ""),
        (b"\0\0\x80\1", b"", no_front_door),
    ]
    for sent, out, errors in replies:
        answered(b"hello 0 2\n", [sent], out, errors)
    welcome, hello = b"\0\0\0\3\2\0\1", b"hello from data centre 0, 1 nodes\n"
    for number, limits in LIMITS.items():
        typed = b"hello 0 %d\nget x\n" % number
        answered(typed, [welcome, limits.body.to_bytes(4, "big")], hello + gone, "")
        answered(typed, [welcome, (limits.body + 1).to_bytes(4, "big")], hello, no_front_door)


def answered(typed, sent, out, errors):
    """Checks the output of the client with a server that sends one piece after each of its messages, and disconnects."""
    with socket.create_server(("127.0.0.1", 0)) as listener:
        port = listener.getsockname()[1]
        answering = threading.Thread(target=answer, args=(listener, sent))
        answering.start()
        got = client(str(port), typed=typed)
        answering.join()
    check(f"a server that sends {sent}", got, (1, out, errors.format(port).encode()))


def answer(listener, sent):
    """Sends one piece after each message of one client, and disconnects."""
    with listener.accept()[0] as connection:
        for piece in sent:
            connection.recv(4096)
            connection.sendall(piece)


sessions()
deletions()
longest_values()
words()
other_servers()
sys.exit(ended())
