#!/usr/bin/env python3
"""A client of `cops serve`, the front door: it sends the message of each line of text and prints the reply.

usage: client.py PORT < MESSAGES

Each line is one of
    hello CLIENT [PROFILE]
    put KEY VALUE
    delete KEY
    get KEY
    check KEY VERSION
    status PLACE
    bye
where VERSION is CLOCK.NODE. PROFILE is the number of the cluster's format: 1, the default, which has no deletions, or 2. A key has no spaces;
a value is the rest of its line, and may have spaces. A value has at most 4,096 bytes, and after an accepted greeting with profile 2 at most
16,384. A byte of a returned value that is not UTF-8 is printed as \\xHH. Any other line is reported on standard error, and the next one is
read. The end of the lines ends the session, as `bye` does. docs/FORMATS.md describes the bytes.

The exit status is 0 if each line was a message with a reply, 1 if one was not, and 2 for wrong usage.
"""
import os
import re
import socket
import struct
import sys

from write_trace import frame, key, value, version

HELLO, HELLO_OK, PUT, GET, PUT_DONE, GOT, MISSED, REFUSED = 1, 2, 3, 4, 5, 6, 7, 8
DEP_CHECK, DEP_YES, DEP_WAIT, STATUS, STATUS_IS, BYE, BYE_OK = 10, 11, 12, 13, 14, 15, 16
DEL, DELETED, GONE = 22, 23, 24

# The maximum number of bytes of a value, and of a frame's body, in each format.
MAX_VALUE = {1: 4_096, 2: 16_384}
MAX_BODY = {1: 32_768, 2: 131_072}

ENDED = "the session has ended"
NO_FRONT_DOOR = "what answers there is no front door of cops serve"
VERSIONED = {PUT_DONE: "done", DELETED: "deleted", GONE: "gone"}
REPLIES = {MISSED: "missed", DEP_YES: "yes", DEP_WAIT: "wait", BYE_OK: "bye"}

USAGES = {
    "hello": "hello CLIENT [PROFILE]",
    "put": "put KEY VALUE",
    "delete": "delete KEY",
    "get": "get KEY",
    "check": "check KEY VERSION",
    "status": "status PLACE",
    "bye": "bye",
}


class NotAMessage(ValueError):
    """The reason why a line is not a message."""


def words_of(line):
    """The words of a line. The value of a put is the rest of the line after one space."""
    words = line.split()
    if words[:1] == ["put"] and len(words) > 2:
        return re.match(r"\s*(\S+)\s+(\S+)\s(.*?)\r?\n?\Z", line, re.DOTALL).groups()
    return words


def whole(text, most, what):
    """Parses a whole number of at most `most`."""
    if not re.fullmatch(r"[0-9]{1,20}", text, re.ASCII) or int(text) > most:
        raise NotAMessage(f"{what} is a whole number of at most {most}")
    return int(text)


def sized(text, least, most, what):
    """Returns the text if its UTF-8 encoding has `least` to `most` bytes."""
    try:
        length = len(text.encode())
    except UnicodeEncodeError:
        raise NotAMessage(f"{what} is UTF-8") from None
    if not least <= length <= most:
        raise NotAMessage(f"{what} has {least} to {most} bytes")
    return text


def checked(text):
    """Returns the text if it is a version, CLOCK.NODE."""
    clock, dot, node = text.partition(".")
    if not dot:
        raise NotAMessage("a version is CLOCK.NODE")
    if whole(clock, 2**48 - 1, "a version's clock") < 1:
        raise NotAMessage("a version's clock is above 0")
    whole(node, 1023, "a version's node")
    return text


def counts_of(kind):
    """The numbers of words that may follow the name of a message: those in brackets are optional."""
    words = USAGES[kind].split()[1:]
    return range(sum(not word.startswith("[") for word in words), len(words) + 1)


def profile_of(words):
    """The profile of a greeting: 1 if it names none."""
    return whole(words[2], 65535, "a profile") if words[2:] else 1


def message(words, number, spoken=1):
    """The frame of the message of one line, with this sequence number, in the format of the session."""
    kind, *rest = words
    if kind not in USAGES:
        raise NotAMessage(f"there is no message {kind!a}: the messages are {', '.join(USAGES.values())}")
    if len(rest) not in counts_of(kind):
        raise NotAMessage(f"the message is written {USAGES[kind]}")
    seq = struct.pack(">I", number)
    if kind == "hello":
        client = whole(rest[0], 65535, "a client")
        return frame(HELLO, struct.pack(">HH", profile_of(words), client))
    if kind == "put":
        return frame(PUT, seq + key(sized(rest[0], 1, 64, "a key")) + value(sized(rest[1], 0, MAX_VALUE[spoken], "a value")))
    if kind == "delete":
        return frame(DEL, seq + key(sized(rest[0], 1, 64, "a key")))
    if kind == "get":
        return frame(GET, seq + key(sized(rest[0], 1, 64, "a key")))
    if kind == "check":
        return frame(DEP_CHECK, seq + key(sized(rest[0], 1, 64, "a key")) + version(checked(rest[1])))
    if kind == "status":
        return frame(STATUS, seq + struct.pack(">B", whole(rest[0], 63, "a place")))
    return frame(BYE, b"")


def version_text(raw):
    number = struct.unpack(">Q", raw)[0]
    return f"{number // 65536}.{number % 65536}"


def reply_text(body):
    """A reply as a line. The sequence number follows the byte of the kind, except in the replies to a greeting and a goodbye."""
    kind, fields = body[0], body[5:]
    if kind == HELLO_OK:
        return f"hello from data centre {body[1]}, {body[2]} nodes"
    if kind in VERSIONED:
        return f"{VERSIONED[kind]} {version_text(fields)}"
    if kind == GOT:
        length = struct.unpack(">H", fields[:2])[0]
        return f"got {fields[2:2 + length].decode(errors='backslashreplace')} {version_text(fields[2 + length:])}"
    if kind == REFUSED:
        return f"refused {fields[0]}"
    if kind == STATUS_IS:
        clock, keys, settled, held = struct.unpack(">QIII", fields)
        return f"clock {clock}, keys {keys}, settled {settled}, held {held}"
    return REPLIES[kind]


def read_all(stream, count):
    """Reads `count` bytes, or returns None if the stream ends before that."""
    data = stream.read(count)
    return data if len(data) == count else None


def read_reply(replies, spoken):
    """Reads the next reply in the format of the session, and returns it as a line, or ENDED if the session has ended."""
    head = read_all(replies, 4)
    length = struct.unpack(">I", head)[0] if head else 0
    if head and not 1 <= length <= MAX_BODY[spoken]:
        raise ConnectionError(NO_FRONT_DOOR)
    body = read_all(replies, length) if head else None
    if body is None:
        return ENDED
    try:
        return reply_text(body)
    except (KeyError, IndexError, struct.error):
        raise ConnectionError(NO_FRONT_DOOR) from None


def fail(line, fault):
    """Raises the fault of a line."""
    raise fault


def format_after(words, reply, spoken):
    """The format of the session after a message and its reply: the profile of an accepted greeting, or else the format before."""
    if words[0] == "hello" and reply.startswith("hello ") and profile_of(words) in MAX_VALUE:
        return profile_of(words)
    return spoken


def talk(port, lines, connect=None, wrong=fail):
    """Sends the message of each line over one connection, and yields each reply as a line. Calls `wrong` for a line that is not a message."""
    spoken, connected = 1, connect() if connect else socket.create_connection(("127.0.0.1", port))
    with connected as connection, connection.makefile("rb") as replies:
        for number, line in enumerate(lines, 1):
            if not line.strip():
                continue
            words = words_of(line)
            try:
                sent = message(words, number, spoken)
            except NotAMessage as fault:
                wrong(number, fault)
                continue
            connection.sendall(sent)
            reply = read_reply(replies, spoken)
            spoken = format_after(words, reply, spoken)
            yield reply
            if reply == ENDED:
                return


def lines_of(stream):
    """The lines of a text stream, which may have bytes that are not UTF-8; none if the stream is closed."""
    if stream is None:
        return []
    stream.reconfigure(errors="surrogateescape")
    return stream


def main(words):
    unanswered = []

    def wrong(number, fault):
        unanswered.append(number)
        print(f"client: line {number}: {fault}", file=sys.stderr, flush=True)

    def shown(text):
        if text == ENDED:
            unanswered.append(text)
        print(text, flush=True)

    if len(words) != 1 or not re.fullmatch(r"[0-9]{1,5}", words[0], re.ASCII) or not 1 <= int(words[0]) <= 65535:
        print("client: usage: client.py PORT < MESSAGES, with a port of 1 to 65535", file=sys.stderr)
        return 2
    try:
        for text in talk(int(words[0]), lines_of(sys.stdin), wrong=wrong):
            shown(text)
    except KeyboardInterrupt:
        return 1
    except OSError as fault:
        print(f"client: port {words[0]}: {fault.strerror or fault}", file=sys.stderr)
        # If nobody reads the replies, the rest of them must not be written at exit either.
        os.dup2(os.open(os.devnull, os.O_WRONLY), 1)
        return 1
    return 1 if unanswered else 0


if __name__ == "__main__":
    sys.exit(main(sys.argv[1:]))
