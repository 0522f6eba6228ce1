"""Tests of the limits of each format for values, pairs and frames: at the limit, one below it and one above it, for each kind of input."""
import json
import struct

from traces import LIMITS, audited, check, cops, del_after, events, outcomes_of, pairs_of, put_after, ran, scripted, trace
from client import BYE, BYE_OK, GET, GOT, HELLO, HELLO_OK, PUT, PUT_DONE, REFUSED
from conversions import converted, in_format_2
from imports import imported, words_of
from sessions import PATIENCE, Server, one_client
from write_trace import TRACE_END, TRACE_HEAD, frame, key, value, version

CONTEXT_FULL, NOT_GREETED, OTHER_PROFILE, NO_CLIENTS_MESSAGE = 2, 16, 17, 18
ACCEPTED = "accepted: 2 operations, 1 puts\n"
NO_SOURCE = "refused: 2 operations, 1 puts, 1 faults\nno source (1,0) at 1.0\n"

# The sequence number of all messages of these tests, and the 0 in the reply to a message that has none.
SEQ, NO_SEQ = struct.pack(">I", 7), bytes(4)
BYE_SENT, WELCOME, GOODBYE = frame(BYE, b""), frame(HELLO_OK, bytes([0, 1])), frame(BYE_OK, b"")

# If no reply arrives for this many seconds, the front door is considered to wait for more.
WAIT_SECONDS = 0.3


def around(limit):
    return limit - 1, limit, limit + 1


def around_each(name):
    """The numbers around this limit, for each format."""
    return [number for limits in LIMITS.values() for number in around(getattr(limits, name))]


def each_value():
    """Each format with values of all lengths around both limits, and whether it allows them. The length is that of the UTF-8 encoding."""
    for number, limits in LIMITS.items():
        of_two_bytes = "ü" * (limits.value // 2)
        for text in [*("v" * length for length in around_each("value")), of_two_bytes, of_two_bytes + "v"]:
            yield number, text, len(text.encode()) <= limits.value


def name_of(number, text):
    return f"a value of {len(text.encode())} bytes of {text[0]} in format {number}"


def put_and_got(number, put, got):
    """A trace of a format in which one client puts a value and another gets a value."""
    return trace([f"clients 2 format {number}", f"0 put x {put} 1.0", f"1 got x {got} 1.0"])


def check_fault(name, data, shown, words):
    """An audit and `show` report this fault of bytes that are not a trace; `show` first prints the lines of the frames before it."""
    line = f"faulty: {words}\n"
    check(f"audit of {name}", cops("audit", "-", stdin=data), (2, line.encode(), b""))
    check(f"show of {name}", cops("show", "-", stdin=data), (2, (shown + line).encode(), b""))


def values_of_traces():
    """Values in a put, where they are at byte 22, and in a get alone, where they are at byte 46 after a put of one byte."""
    for number, text, fits in each_value():
        name, data, of_get = name_of(number, text), put_and_got(number, text, text), put_and_got(number, "v", text)
        head, shown = f"TraceHead format={number} clients=2\n", text.replace("ü", "%c3%bc")
        put, got = (f"{kind} client={client} index=0 key=x value={{}} version=1.0\n" for client, kind in enumerate(("TracePut", "TraceGot")))
        if fits:
            wanted = head + put.format(shown) + got.format(shown) + "TraceEnd ops=2\n"
            audited(f"a trace with {name}", data, ACCEPTED, 0)
            check(f"show of a trace with {name}", cops("show", "-", stdin=data), (0, wanted.encode(), b""))
            audited(f"a get alone of {name}", of_get, NO_SOURCE, 1)
        else:
            audited(f"a trace with {name}", data, "faulty: bad field at 22\n", 2)
            check(f"show of a trace with {name}", cops("show", "-", stdin=data), (2, f"{head}faulty: bad field at 22\n".encode(), b""))
            check_fault(f"a get alone of {name}", of_get, head + put.format("v"), "bad field at 46")


def values_that_differ():
    """A value of maximum length is compared as a whole: a get of another first or last byte, or of one byte less, has no source."""
    for number, limits in LIMITS.items():
        most = "v" * limits.value
        for text in (most[1:], most[1:] + "w", "w" + most[1:]):
            audited(f"a get of another value than the longest, {name_of(number, text)}", put_and_got(number, most, text), NO_SOURCE, 1)


def values_of_scenarios():
    """Values in an event, whose put is delivered to another data centre, and in a script. The member `format` comes after the events, and before the
    scripts."""
    for number, text, fits in each_value():
        name, put = name_of(number, text), {"put": [0, "x", text]}
        given = events(put, {"deliver": [1, "1.0"]}, {"settle": [1, "1.0"]}, {"get": [1, "x"]}, data_centres=2, clients=({"at": 0}, {"at": 1}), format=number)
        expected = (0, b"0 done 1.0\n1 held\n2 settled\n3 got 1.0\n" + ACCEPTED.encode(), b""), put_and_got(number, text, text)
        check(f"an event with {name}", ran(given), expected if fits else ((2, b"faulty: scenario field events\n", b""), b""))
        script = [{"put": ["x", text]}, {"get": "x"}]
        given = json.dumps({"format": number, "data_centres": 2, "clients": [{"at": 0, "script": script}, {"at": 1}]}).encode()
        recorded = trace([f"clients 2 format {number}", f"0 put x {text} 1.0", f"0 got x {text} 1.0"])
        expected = (0, b"client 0 done\nclient 1 done\n" + ACCEPTED.encode(), b""), recorded
        check(f"a script with {name}", ran(given), expected if fits else ((2, b"faulty: scenario field clients\n", b""), b""))


def values_of_imports():
    """The limit of the format that an import writes holds for the values of puts and of gets. A check has that of format 2."""
    expected = b"client 0 1\nclient 1 2\nimported: 2 operations, 2 clients\n"

    def lines(put, got):
        of_put, of_get = {"client": 1, "put": "x", "value": put, "version": 1}, {"client": 2, "get": "x", "value": got, "version": 1}
        return f"{json.dumps(of_put)}\n{json.dumps(of_get)}\n".encode()

    for number, text, fits in each_value():
        name, words, given = name_of(number, text), words_of(number), [lines(text, text), lines("v", text)]
        wrong = [(2, f"faulty: line {at}: bad value\n".encode(), b"") for at in (1, 2)]
        if fits:
            check(f"an import with {name}", imported(given[0], *words), (0, expected, b"", put_and_got(number, text, text)))
        else:
            check(f"an import with {name}", imported(given[0], *words)[:3], wrong[0])
            check(f"an import of a get of {name}", imported(given[1], *words)[:3], wrong[1])
        if number == 2:
            wanted = [(0, ACCEPTED.encode(), b"")] if fits else wrong
            check(f"a check of {name}", [cops("check", "-", stdin=it) for it in given[: len(wanted)]], wanted)


def values_of_conversions():
    """A trace of either format with such values becomes one of format 2 with the same audit and explanation, also if it is refused."""
    for number, text, fits in each_value():
        name, data = name_of(number, text), put_and_got(number, text, text)
        if not fits:
            check(f"convert of {name}", converted(data), ((2, b"faulty: bad field at 22\n", b""), b""))
            continue
        stale = trace([f"clients 1 format {number}", f"0 put x {text} 1.0", "0 put x v 2.0", f"0 got x {text} 1.0"])
        refused = b"refused: 3 operations, 2 puts, 1 faults\nstale (0,2) returned 1.0, newer (0,1) at 2.0, chain (0,1) (0,2)\n"
        for given, count, audit in ((data, 2, (0, ACCEPTED.encode(), b"")), (stale, 3, (1, refused, b""))):
            answer, new = converted(given)
            check(f"convert of {count} operations with {name}", (answer, new), ((0, f"converted: {count} operations\n".encode(), b""), in_format_2(given)))
            check(f"the audits of {count} with {name}", [cops("audit", "-", stdin=it) for it in (given, new)], [audit, audit])
            check(f"explained as before: {count} with {name}", cops("explain", "-", stdin=new), cops("explain", "-", stdin=given))


def hello(number, client=0):
    return frame(HELLO, struct.pack(">HH", number, client))


def put(text, on="x"):
    return frame(PUT, SEQ + key(on) + value(text))


def get(on="x"):
    return frame(GET, SEQ + key(on))


def done(clock):
    return frame(PUT_DONE, SEQ + version(f"{clock}.0"))


def got(text, clock):
    return frame(GOT, SEQ + value(text) + version(f"{clock}.0"))


def refused(code, seq=SEQ):
    return frame(REFUSED, seq + bytes([code]))


def two_clients(number, *homes):
    """The scenario of a format whose clients are in these data centres."""
    return one_client(format=number, data_centres=max(homes) + 1, clients=[{"at": at} for at in homes])


def values_at_the_front_door():
    """A put of a value within the limit of the format is answered, and a get then returns the whole value. A put of a longer value ends the session without a
    reply."""
    for number in LIMITS:
        texts = [(text, fits) for which, text, fits in each_value() if which == number]
        server, clock = Server(one_client(format=number), len(texts)), 0
        for text, fits in texts:
            clock += fits
            replies = WELCOME + (done(clock) + got(text, clock) + GOODBYE if fits else b"")
            check(f"a session with {name_of(number, text)}", server.bytes(hello(number) + put(text) + get() + BYE_SENT).hex(), replies.hex())
        check(f"the report of values in format {number}", server.ended(), (0, f"accepted: {2 * clock} operations, {clock} puts\n".encode(), b""))


def before_a_greeting():
    """Frames up to the one that is answered by HelloOk are read in format 1, also at the front door of a cluster of format 2."""
    short, longer = "v" * LIMITS[1].value, "v" * (LIMITS[1].value + 1)
    fits, over = put_after(pairs_of(LIMITS[1].pairs)), put_after(pairs_of(LIMITS[1].pairs + 1))
    first, other, none_of_its = refused(NOT_GREETED), refused(OTHER_PROFILE, NO_SEQ), refused(NO_CLIENTS_MESSAGE, NO_SEQ)
    sessions = [
        (put(short) + hello(1) + put(short) + hello(2) + put(longer) + BYE_SENT, first + other + first + WELCOME + done(1) + GOODBYE),
        (put(longer) + BYE_SENT, b""),
        (hello(1) + put(longer) + BYE_SENT, other),
        (hello(2) + hello(1) + put(longer) + BYE_SENT, WELCOME + none_of_its + done(2) + GOODBYE),
        (fits + BYE_SENT, none_of_its + GOODBYE),
        (over + BYE_SENT, b""),
        (hello(1) + over + BYE_SENT, other),
    ]
    server = Server(one_client(format=2), len(sessions))
    for at, (given, wanted) in enumerate(sessions):
        check(f"a greeting of format 2 and what is before it, {at}", server.bytes(given).hex(), wanted.hex())
    check("the report of puts before a greeting", server.ended(), (0, b"accepted: 2 operations, 2 puts\n", b""))


def contexts_of_events():
    """A context has at most the number of pairs that the format allows. Once it is full each get is refused until the next put, also a get of a key that the
    context has and of one that nobody put."""
    for number, limits in LIMITS.items():
        writes = [{"put": [0, f"k{n}", "1"]} for n in range(limits.pairs + 1)]
        rest = [{"get": [1, "k0"]}, {"get": [1, "none"]}, {"put": [1, "a", ""]}, {"get": [1, "k0"]}]
        for count in around(limits.pairs):
            gets = [{"get": [1, f"k{n}"]} for n in range(count)]
            wanted = [f"done {n + 1}.0" for n in range(len(writes))] + [f"got {n + 1}.0" for n in range(min(count, limits.pairs))]
            wanted += [f"refused {CONTEXT_FULL}"] * (count - limits.pairs)
            wanted += ["got 1.0", "missed"] if count < limits.pairs else [f"refused {CONTEXT_FULL}"] * 2
            wanted += [f"done {len(writes) + 1}.0", "got 1.0"]
            outcomes = outcomes_of(*writes, *gets, *rest, clients=({"at": 0}, {"at": 0}), format=number)
            check(f"a context of {count} pairs in format {number}", outcomes, (0, wanted, b""))


def contexts_of_scripts():
    """A put leaves one pair, and each get of another key adds one. A get with a full context stops the client."""
    for number, limits in LIMITS.items():
        for count in around(limits.pairs):
            script = [{"put": [f"k{n}", "1"]} for n in range(count)] + [{"get": f"k{n}"} for n in range(count - 1)]
            stops = count > limits.pairs
            end = f"stopped {CONTEXT_FULL}" if stops else "done"
            report = f"client 0 {end}\naccepted: {2 * count - 1 - stops} operations, {count} puts\n"
            check(f"a script with {count} pairs in format {number}", ran(scripted(script, format=number))[0], (0, report.encode(), b""))


def contexts_at_the_front_door():
    """A client keeps its context in a later session: a full context is still full there, until the client puts."""
    for number, limits in LIMITS.items():
        most, full = limits.pairs, refused(CONTEXT_FULL)
        server = Server(two_clients(number, 0, 0), 3)
        sessions = [
            (0, [put("1", f"k{n}") for n in range(most + 1)], [done(n + 1) for n in range(most + 1)]),
            (1, [get(f"k{n}") for n in range(most + 1)], [*(got("1", n + 1) for n in range(most)), full]),
            (1, [get("k0"), put("", "a"), get("k0")], [full, done(most + 2), got("1", 1)]),
        ]
        for at, (client, given, replies) in enumerate(sessions):
            sent = hello(number, client) + b"".join(given) + BYE_SENT
            check(f"session {at} of a full context in format {number}", server.bytes(sent).hex(), (WELCOME + b"".join(replies) + GOODBYE).hex())
        wanted = f"accepted: {2 * most + 3} operations, {most + 2} puts\n"
        check(f"the report of a full context in format {number}", server.ended(), (0, wanted.encode(), b""))


def largest_puts():
    """A put with the longest keys, the longest value and the most dependencies is replicated to another data centre: from a script, and from the front
    door."""
    for number, limits in LIMITS.items():
        keys, last, text = [f"{n:064}" for n in range(limits.pairs)], "k" * 64, "v" * limits.value
        script = [*({"put": [it, "1"]} for it in keys), *({"get": it} for it in keys[:-1]), {"put": [last, text]}]
        report = f"accepted: {2 * limits.pairs} operations, {limits.pairs + 1} puts\n"
        expected = (0, b"client 0 done\nclient 1 done\n" + report.encode(), b"")
        check(f"a script with the largest put of format {number}", ran(scripted(script, [], data_centres=2, format=number))[0], expected)
        server = Server(two_clients(number, 0, 1), 2)
        sent = [*(put("1", it) for it in keys), *(get(it) for it in keys[:-1]), put(text, last)]
        clocks = range(1, limits.pairs + 1)
        replies = [*(done(clock) for clock in clocks), *(got("1", clock) for clock in clocks[:-1]), done(limits.pairs + 1)]
        answer = server.bytes(hello(number) + b"".join(sent) + BYE_SENT)
        check(f"a session with the largest put of format {number}", answer.hex(), (WELCOME + b"".join(replies) + GOODBYE).hex())
        answer = server.bytes(hello(number, 1) + get(last) + BYE_SENT)
        check(f"the largest put of format {number} elsewhere", answer.hex(), (frame(HELLO_OK, bytes([1, 1])) + got(text, limits.pairs + 1) + GOODBYE).hex())
        report = f"accepted: {2 * limits.pairs + 1} operations, {limits.pairs + 1} puts\n"
        check(f"the report of the largest put of format {number}", server.ended(), (0, report.encode(), b""))


def head_of(number):
    """The head of a trace of a format with one client, its line, and the end of a trace without records."""
    data = trace([f"clients 1 format {number}"])
    return data[:9], f"TraceHead format={number} clients=1\n", data[9:]


def pairs_of_frames():
    """The number of dependencies of a message after a head, in the first frame, and at the front door. A message that decodes is still no record, and not one
    that clients may send."""
    counts = around_each("pairs")
    for number, limits in LIMITS.items():
        head, shown, end = head_of(number)
        server = Server(one_client(format=number), 2 * len(counts))
        for count in counts:
            name, fits, pairs = f"{count} pairs in format {number}", count <= limits.pairs, pairs_of(count)
            of_put = "not a record at 9" if fits else "bad field at 26"
            of_deletion = "unknown kind at 9" if number == 1 else "not a record at 9" if fits else "bad field at 24"
            for kind, message, words in (("put", put_after(pairs), of_put), ("deletion", del_after(pairs), of_deletion)):
                check_fault(f"a {kind} after {name}", head + message + end, shown, words)
                replies = WELCOME + (refused(NO_CLIENTS_MESSAGE, NO_SEQ) + GOODBYE if words == "not a record at 9" else b"")
                check(f"a session with a {kind} after {name}", server.bytes(hello(number) + message + BYE_SENT).hex(), replies.hex())
        check(f"the report of pairs in format {number}", server.ended(), (0, b"accepted: 0 operations, 0 puts\n", b""))
    for count in counts:
        words = "no head at 0" if count <= LIMITS[1].pairs else "bad field at 17"
        check_fault(f"a put after {count} pairs, the first frame", put_after(pairs_of(count)), "", words)
        check_fault(f"a deletion after {count} pairs, the first frame", del_after(pairs_of(count)), "", "unknown kind at 0")


def repeated_pairs():
    """The last of the maximum number of pairs must differ from all pairs before it. Pairs with one key and different versions differ, and so do pairs with
    different keys."""
    for number, limits in LIMITS.items():
        head, shown, end = head_of(number)
        pairs = pairs_of(limits.pairs - 1)
        for last, fits in ((pairs[0], False), (pairs[-1], False), (pairs[limits.pairs // 2], False), (("0", "2.0"), True), (("00", "1.0"), True)):
            words = "not a record at 9" if fits else "bad field at 26"
            check_fault(f"the last of {limits.pairs} pairs is {last}", head + put_after([*pairs, last]) + end, shown, words)


def largest_frames():
    """The message of the largest put of each format, after the heads and at the front doors of both: that of format 2 is longer than a frame of format 1 may
    be."""
    for number, limits in LIMITS.items():
        head, shown, end = head_of(number)
        server = Server(one_client(format=number), len(LIMITS))
        for of in LIMITS.values():
            largest = put_after([(f"{n:064}", "1.0") for n in range(of.pairs)], "k" * 64, "v" * of.value)
            name, fits = f"a message of {len(largest)} bytes in format {number}", len(largest) - 4 <= limits.body
            check_fault(name, head + largest + end, shown, "not a record at 9" if fits else "bad length at 9")
            replies = WELCOME + (refused(NO_CLIENTS_MESSAGE, NO_SEQ) + GOODBYE if fits else b"")
            check(f"a session with {name}", server.bytes(hello(number) + largest + BYE_SENT).hex(), replies.hex())
        check(f"the report of large messages in format {number}", server.ended(), (0, b"accepted: 0 operations, 0 puts\n", b""))


def frames_of_traces():
    """The length of a frame after a head, and of the first frame, which is read in format 1. If the length is legal, the rest of the frame is examined."""
    for number, limits in LIMITS.items():
        head, shown, end = head_of(number)
        for length in around_each("body"):
            name, longer, fits = f"a frame of {length} bytes in format {number}", frame(TRACE_END, bytes(length - 1)), length <= limits.body
            check_fault(name, head + longer, shown, "trailing bytes at 9" if fits else "bad length at 9")
            cut = "cut at 9" if fits else "bad length at 9"
            check_fault(f"all but the last byte of {name}", head + longer[:-1], shown, cut)
            check_fault(f"the length of {name}", head + longer[:4], shown, cut)
            so_far = (0, b"cut at 9\nso far: clean\n", b"") if fits else (2, b"faulty: bad length at 9\n", b"")
            check(f"so far of {name}", cops("audit", "-", "--so-far", stdin=head + longer[:4]), so_far)
            first, may_be_first = frame(TRACE_HEAD, struct.pack(">HH", number, 1) + bytes(length - 5)), length <= LIMITS[1].body
            check_fault(f"{name}, the first frame", first + end, "", "trailing bytes at 0" if may_be_first else "bad length at 0")
            check_fault(f"the length of {name}, the first frame", first[:4], "", "cut at 0" if may_be_first else "bad length at 0")


def frames_at_the_front_door():
    """The front door waits for a frame of maximum length, and ends the session at the length of a longer one. Until a greeting is accepted, the limit is that
    of format 1."""
    for number, limits in LIMITS.items():
        cases = [(hello(number), WELCOME, limits.body, length) for length in around(limits.body)]
        cases += [(b"", b"", LIMITS[1].body, length) for length in around(LIMITS[1].body)]
        server = Server(one_client(format=number), len(cases))
        for before, welcome, most, length in cases:
            wanted = welcome, length <= most
            answer = answer_to(server, before + struct.pack(">I", length), *wanted)
            check(f"{length} bytes announced behind {len(before)} bytes in format {number}", answer, wanted)
        check(f"the report of long frames in format {number}", server.ended(), (0, b"accepted: 0 operations, 0 puts\n", b""))


def answer_to(server, given, welcome, waits):
    """The reply to these bytes, of at most one byte more than the welcome, and whether the front door then waits for more. `waits` says whether it is
    expected to."""
    with server.connect() as connection, connection.makefile("rb") as replies:
        connection.sendall(given)
        came = replies.read(len(welcome))
        connection.settimeout(WAIT_SECONDS if waits else PATIENCE)
        try:
            return came + replies.read(1), False
        except TimeoutError:
            return came, True


def limits():
    for tests in (
        values_of_traces, values_that_differ, values_of_scenarios, values_of_imports, values_of_conversions, values_at_the_front_door, before_a_greeting,
        contexts_of_events, contexts_of_scripts, contexts_at_the_front_door, largest_puts, pairs_of_frames, repeated_pairs, largest_frames,
        frames_of_traces, frames_at_the_front_door,
    ):  # fmt: skip
        tests()
