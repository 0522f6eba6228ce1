"""Tests of the running program with traces of many operations."""
import os
import struct
import subprocess
import sys
import tempfile

from traces import LIMITS, ROOT, audited, check, cops, trace
from write_trace import TRACE_END, TRACE_HEAD, TRACE_PUT, frame


def long_chain():
    """A chain through a hundred clients."""
    lines = ["clients 101", "0 put x 1 1.0", "0 put x 2 2.0", "0 put c0 1 3.0"]
    for client in range(1, 100):
        lines += [f"{client} got c{client - 1} 1 {client + 2}.0", f"{client} put c{client} 1 {client + 3}.0"]
    lines += ["100 got c99 1 102.0", "100 got x 1 1.0"]
    names = ["(0,1)", "(0,2)"] + [f"({client},{index})" for client in range(1, 100) for index in (0, 1)] + ["(100,0)", "(100,1)"]
    text = "refused: 203 operations, 102 puts, 1 faults\n"
    text += f"stale (100,1) returned 1.0, newer (0,1) at 2.0, chain {' '.join(names)}\n"
    audited("long chain", trace(lines), text, 1)
    check("long chain by 64 workers", cops("audit", "-", "--workers", "64", stdin=trace(lines)), (1, text.encode(), b""))


def many_rounds():
    """Ten clients with a hundred rounds each: a put on the client's own key, and a get of what the next client puts."""
    lines = ["clients 10"]
    for client in range(10):
        other = (client + 1) % 10
        for clock in range(1, 101):
            lines.append(f"{client} put k{client} {clock} {clock}.{client}")
            lines.append(f"{client} got k{other} {clock} {clock}.{other}")
    audited("many rounds", trace(lines), "accepted: 2000 operations, 1000 puts\n", 0)
    text = "refused: 2001 operations, 1000 puts, 1 faults\n"
    text += "stale (0,200) returned 7.1, newer (1,198) at 100.1, chain (1,198) (0,199) (0,200)\n"
    audited("a stale get after many rounds", trace([*lines, "0 got k1 7 7.1"]), text, 1)


def generated():
    """The traces of the benchmark are accepted, or have exactly the violation that was asked for: with few keys, and with so many that they are
    prefetched."""
    faults_of = {None: 0, "doubled": 2, "no_source": 1, "not_above": 1, "stale": 1}
    for operations, keys in ((900, 20), (40_000, 20_000)):
        for violation, faults in faults_of.items():
            words = [sys.executable, os.path.join(ROOT, "bench", "generate.py"), str(operations), "30", str(keys), "5"]
            made = subprocess.run(words + ([violation] if violation else []), stdout=subprocess.PIPE, check=True).stdout
            got, out, _ = cops(stdin=made)
            first, *lines = out.decode().split("\n")[:-1]
            name = f"a generated trace on {keys} keys, {violation}"
            check(name, (got, first.split(":")[0], len(lines)), (1, "refused", faults) if violation else (0, "accepted", 0))
            if violation:
                check(f"{name}: its faults", all(line.startswith(violation.replace("_", " ")) for line in lines), True)


def put_frames(clients, count):
    """The frames of a trace of `count` puts, from the head to the end. The clients put in turn."""
    frames = [frame(TRACE_HEAD, struct.pack(">HH", 1, clients))]
    for n in range(count):
        fields = struct.pack(">HI", n % clients, n // clients) + b"\x01k\x00\x02vv" + struct.pack(">Q", (n + 1) << 16)
        frames.append(frame(TRACE_PUT, fields))
    return [*frames, frame(TRACE_END, struct.pack(">I", count))]


def long_traces():
    """A long trace with each fault in turn: in its first piece, in a later one, and across the boundary of two pieces."""
    count = 60_000
    frames = put_frames(3, count)
    size = len(frames[1])
    with tempfile.NamedTemporaryFile(suffix=".trace") as file:

        def answered(name, data, wanted, all_workers=("2", "5")):
            file.seek(0)
            file.truncate()
            file.write(data)
            file.flush()
            for workers in all_workers:
                check(f"{name}, by {workers} workers", cops("audit", file.name, "--workers", workers), wanted)

        answered("a long trace", b"".join(frames), (0, f"accepted: {count} operations, {count} puts\n".encode(), b""), ("1", "2", "5", "64"))
        # A piece has 65,536 bytes, so that the 20,972nd record begins in the eighth piece and ends in the ninth.
        for at in (10_000, 20_972, 50_000):
            place = len(frames[0]) + (at - 1) * size
            good, rest = frames[at], b"".join(frames[at + 1 :])
            before = b"".join(frames[:at])
            wrong = {
                "index out of turn": good[:7] + struct.pack(">I", 9_999_999) + good[11:],
                "client out of range": good[:5] + b"\xff\xff" + good[7:],
                "bad length": bytes(4) + good[4:],
                "unknown kind": good[:4] + b"\x63" + good[5:],
                "trailing bytes": struct.pack(">I", 200) + good[4:] + bytes(200),
                "not a record": frames[0],
            }
            for fault, text in wrong.items():
                answered(f"{fault} at record {at}", before + text + rest, (2, f"faulty: {fault} at {place}\n".encode(), b""))
            answered(f"bad field at record {at}", before + good[:11] + b"\0" + good[12:] + rest, (2, f"faulty: bad field at {place + 11}\n".encode(), b""))
            answered(f"cut in record {at}", before + good[:-1], (2, f"faulty: cut at {place}\n".encode(), b""))
        end = b"".join(frames)
        answered("a byte after a long trace", end + b"\0", (2, f"faulty: bytes after end at {len(end)}\n".encode(), b""))
        answered("a record after the end", end + frames[1], (2, f"faulty: bytes after end at {len(end)}\n".encode(), b""))
        answered("two heads", frames[0] + end, (2, f"faulty: not a record at {len(frames[0])}\n".encode(), b""))
        answered("no head", end[len(frames[0]) :], (2, b"faulty: no head at 0\n", b""))


def each_kind():
    """Records of each kind, with values of many lengths up to the limit of the format. A get in the first piece and one in the last have their sources, or
    one of them returned a value that differs in its last byte, and so has no source."""
    for which, rounds in ((1, 3_000), (2, 1_200)):
        lines, counts = lines_of_each_kind(which, rounds), f"{3 * rounds} operations, {rounds} puts"
        traces = [(f"records of each kind, format {which}", trace(lines), (0, f"accepted: {counts}\n".encode(), b""))]
        for number in (20, rounds - 10):
            at, client = 2 + 3 * number, (number + 1) % 3
            index = sum(line.startswith(f"{client} ") for line in lines[1:at])
            wrong = lines[at].replace("w ", "x ")
            text = f"refused: {counts}, 1 faults\nno source ({client},{index}) at {number + 1}.{number % 3}\n"
            name = f"a get of put {number} without a source, format {which}"
            traces.append((name, trace([*lines[:at], wrong, *lines[at + 1 :]]), (1, text.encode(), b"")))
        for given in traces:
            audited_by_workers(*given)


def audited_by_workers(name, data, wanted):
    """The audit of the trace gives this answer with one worker and with several."""
    with tempfile.NamedTemporaryFile(suffix=".trace") as file:
        file.write(data)
        file.flush()
        for workers in ("1", "2", "5"):
            check(f"{name}, by {workers} workers", cops("audit", file.name, "--workers", workers), wanted)


def lines_of_each_kind(which, rounds):
    """The lines of a trace of a format: in each round a put, the get of what was put, and a get that finds nothing."""
    lines = [f"clients 3 format {which}"]
    for number in range(rounds):
        client, key, version = number % 3, f"k{number % 1_000}", f"{number + 1}.{number % 3}"
        value = "v" * (number * 37 % LIMITS[which].value) + "w"
        lines += [f"{client} put {key} {value} {version}", f"{(client + 1) % 3} got {key} {value} {version}", f"{client} missed no{number}"]
    return lines


def many_suspects():
    """Many gets that might be stale. Two clients get each put of client 1 at once, and the puts of client 0 a hundred and nine thousand rounds later: none of
    these gets is stale, since client 1 knows of no operation of client 0. Then client 1 gets a put of client 0, and a client that gets its next put knows of
    that too."""
    rounds, lags = 12_000, {2: 100, 3: 9_000}
    lines = ["clients 4"]
    for number in range(rounds):
        lines += [f"0 put k{number % 50} 1 {2 * number + 1}.0", f"1 put c{number % 10} 1 {2 * number + 2}.1"]
        for client, lag in lags.items():
            lines.append(f"{client} got c{number % 10} 1 {2 * number + 2}.1")
            if number >= lag:
                lines.append(f"{client} got k{(number - lag) % 50} 1 {2 * (number - lag) + 1}.0")
    audited("many gets that may be stale", trace(lines), f"accepted: {len(lines) - 1} operations, {2 * rounds} puts\n", 0)
    # The last put on k7 is that of round 11,957.
    lines += ["1 got k7 1 23915.0", "1 put c0 1 24001.1", "3 got c0 1 24001.1", "3 got k7 1 5915.0"]
    names = f"(0,11957) (1,{rounds}) (1,{rounds + 1}) (3,{2 * rounds - 9_000}) (3,{2 * rounds - 8_999})"
    text = f"refused: {len(lines) - 1} operations, {2 * rounds + 1} puts, 1 faults\n"
    text += f"stale (3,{2 * rounds - 8_999}) returned 5915.0, newer (0,11957) at 23915.0, chain {names}\n"
    audited("a stale get among many that may be", trace(lines), text, 1)
    check("the same by 3 workers", cops("audit", "-", "--workers", "3", stdin=trace(lines)), (1, text.encode(), b""))


def little_memory():
    """When the program is out of memory it reports that, and writes nothing else; with enough memory it answers."""
    value = "v" * 4000
    data = trace(["clients 2"] + [f"0 put k{i} {value} {i + 1}.0" for i in range(5000)] + ["1 got k9 " + value + " 10.0"])
    enough = (0, b"accepted: 5001 operations, 5000 puts\n", b"")
    refused = (3, b"", b"failed: memory\n")
    answers = []
    with tempfile.NamedTemporaryFile(suffix=".trace") as file:
        file.write(data)
        file.flush()
        for megabytes in (16, 20, 24, 28, 32, 40, 64, 256):
            limit = megabytes << 20
            answers.append(cops("audit", file.name, limit=limit))
            shown = cops("show", file.name, limit=limit)
            check(f"show with {megabytes} MB", shown[0] == 0 or shown == (3, shown[1], b"failed: memory\n"), True)
    for answer in answers:
        check("audit with little memory", answer in (enough, refused), True)
    check("the least memory is too little", answers[0], refused)
    check("the most memory is enough", answers[-1], enough)
