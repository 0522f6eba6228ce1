"""Tests of `cops import`, which makes a trace of JSON Lines: it is compared with a plain importer in Python, a reference implementation."""
import json
import os
import random
import re
import resource
import signal
import struct
import subprocess
import tempfile

from traces import BUILT, LIMITS, ROOT, check, cops, example, trace as trace_of
from write_trace import TRACE_DEL, TRACE_END, TRACE_GONE, TRACE_GOT, TRACE_HEAD, TRACE_MISSED, TRACE_PUT, frame

MAX_CLIENTS, MAX_CLIENT_OPS = 65_535, 1_000_000
MAX_KEY, MAX_CLOCK, MAX_NODE, MAX_DEPTH = 64, 2**48 - 1, 1_023, 127
BLANK = b" \t\r"
WHOLE = re.compile(r"0|[1-9][0-9]*")
VERSION = re.compile(r"(0|[1-9][0-9]*)\.(0|[1-9][0-9]*)", re.ASCII)
PLAIN = b"ABCDEFGHIJKLMNOPQRSTUVWXYZabcdefghijklmnopqrstuvwxyz0123456789-._"

FIRST = b'{"client":1,"get":"k","value":null}\n'

# What a member that is absent is compared with.
ABSENT = object()

# Lines, and the fault of the last one in both formats.
WRONG = [
    (b"x", "no JSON"),
    (b"\n\n\xff\n", "no JSON"),
    (b'{"client":1,"get":"k"} {}', "no JSON"),
    (b'{"client":1,"get":"k"', "no JSON"),
    (b'{"client":1,"get":"\\ud800"}', "no JSON"),
    (b"[" * 128 + b"]" * 128, "no JSON"),
    (b"[1]", "no client"),
    (b"null", "no client"),
    (b"{}", "no client"),
    (b'{"client":-1,"put":3}', "no client"),
    (b'{"client":1.0,"get":"k"}', "no client"),
    (b'{"client":1e2,"get":"k"}', "no client"),
    (b'{"client":-0,"get":"k"}', "no client"),
    (b'{"client":18446744073709551616,"get":"k"}', "no client"),
    (b'{"client":null,"get":"k"}', "no client"),
    (b'{"client":1,"version":3}', "no operation"),
    (b'{"client":1,"delete":"k","version":3}', "no operation"),
    (b'{"client":1,"put":null,"get":"x"}', "both operations"),
    (b'{"client":1,"put":"x","del":"x"}', "both operations"),
    (b'{"client":1,"del":null,"get":null}', "both operations"),
    (b'{"client":1,"put":"x","get":"x","del":"x"}', "both operations"),
    (b'{"client":1,"del":""}', "bad key"),
    (b'{"client":1,"del":["k"],"version":1}', "bad key"),
    (b'{"client":1,"del":"' + b"k" * 65 + b'","version":1}', "bad key"),
    (b'{"client":1,"get":""}', "bad key"),
    (b'{"client":1,"get":null}', "bad key"),
    (b'{"client":1,"get":1}', "bad key"),
    (b'{"client":1,"put":"' + b"k" * 65 + b'","value":"","version":1}', "bad key"),
    (b'{"client":1,"put":"k","version":1}', "bad value"),
    (b'{"client":1,"put":"k","value":1,"version":1}', "bad value"),
    (b'{"client":1,"put":"k"}', "bad value"),
    (b'{"client":1,"get":"k"}', "bad value"),
    (b'{"client":1,"get":"k","version":null}', "bad value"),
    (b'{"client":1,"get":"k","version":1}', "bad value"),
    (b'{"client":1,"put":"k","value":null,"version":1}', "bad value"),
    (b'{"client":1,"del":"k","value":"","version":1}', "bad value"),
    (b'{"client":1,"del":"k","value":"1","version":0}', "bad value"),
    (b'{"client":1,"del":"k","value":false,"version":1}', "bad value"),
    (b'{"client":1,"put":"k","value":"' + b"v" * 16_385 + b'","version":1}', "bad value"),
    (b'{"client":1,"get":"k","value":""}', "bad version"),
    (b'{"client":1,"get":"k","value":"","version":null}', "bad version"),
    (b'{"client":1,"get":"k","value":null,"version":false}', "bad version"),
    (b'{"client":1,"get":"k","value":null,"version":0}', "bad version"),
    (b'{"client":1,"del":"k"}', "bad version"),
    (b'{"client":1,"del":"k","value":null,"version":null}', "bad version"),
    (b'{"client":1,"del":"k","version":"1.1024"}', "bad version"),
    *[
        (b'{"client":1,"put":"k","value":"","version":' + version + b"}", "bad version")
        for version in (
            b"0", b"281474976710656", b"1.0", b'"1"', b'"01.0"', b'"1.00"', b'"1.1024"', b'"0.1"', b'"+1.0"', b'"1."', b'"1.0 "', b'" 1.0"', b'"1.0.0"',
            b"[1]", b"[1,1024]", b"[0,1]", b"[1,0,0]", b"[1.0,0]", b'["1",0]', b"{}", b"true",
        )
    ],
]

# Lines that are right in format 2 alone, and what is wrong with them in format 1.
OF_FORMAT_2 = [
    (b'{"client":1,"del":"k","version":1}', "needs format 2"),
    (b'{"client":1,"del":"k","value":null,"version":"1.0"}', "needs format 2"),
    (b'{"client":1,"get":"k","value":null,"version":[1,0]}', "needs format 2"),
    (b'{"client":1,"put":"k","value":"' + b"v" * 4_097 + b'","version":1}', "bad value"),
    (b'{"client":1,"get":"k","value":"' + b"v" * 16_384 + b'","version":1}', "bad value"),
]


class Number(str):
    """The text of a JSON number."""


def has_surrogate(of):
    if isinstance(of, Number):
        return False
    if isinstance(of, str):
        return any("\ud800" <= c <= "\udfff" for c in of)
    parts = [*of.keys(), *of.values()] if isinstance(of, dict) else of if isinstance(of, list) else []
    return any(map(has_surrogate, parts))


def depth_of(of):
    """How deep lists and objects are nested."""
    if isinstance(of, (dict, list)):
        return 1 + max(map(depth_of, of.values() if isinstance(of, dict) else of), default=0)
    return 0


class Wrong(Exception):
    pass


def json_of(line):
    try:
        of = json.loads(line.decode(), parse_int=Number, parse_float=Number, parse_constant=lambda _: 1 / 0)
    except (ValueError, ZeroDivisionError, RecursionError) as fault:
        raise Wrong("no JSON") from fault
    if has_surrogate(of) or depth_of(of) > MAX_DEPTH:
        raise Wrong("no JSON")
    return of


def whole(of):
    return int(of) if isinstance(of, Number) and WHOLE.fullmatch(of) and int(of) < 2**64 else None


def text(of, words, least, most):
    if not isinstance(of, str) or isinstance(of, Number) or not least <= len(of.encode()) <= most:
        raise Wrong(words)
    return of.encode()


def name_of(of):
    name = of.get("client") if isinstance(of, dict) else None
    if isinstance(name, str) and not isinstance(name, Number):
        return name
    if whole(name) is None:
        raise Wrong("no client")
    return str(whole(name))


def version_of(of):
    parts = None, None
    if isinstance(of, Number):
        parts = whole(of), 0
    elif isinstance(of, str) and VERSION.fullmatch(of):
        parts = map(int, of.split("."))
    elif isinstance(of, list) and len(of) == 2:
        parts = map(whole, of)
    clock, node = parts
    if clock is None or node is None or not 1 <= clock <= MAX_CLOCK or node > MAX_NODE:
        raise Wrong("bad version")
    return struct.pack(">Q", clock * 65536 + node)


def content_of(of, asked, number):
    """What an operation put or got, as a record's value: none for a deletion and for a get that found one."""
    given = of.get("value", ABSENT)
    if asked == "del":
        if given is not ABSENT and given is not None:
            raise Wrong("bad value")
        return b""
    if asked == "get" and given is None and of.get("version") is not None:
        return b""
    value = text(of.get("value"), "bad value", 0, LIMITS[number].value)
    return struct.pack(">H", len(value)) + value


def record_of(line, number):
    """What a line says in a format: the name of the client, the kind of the record, and the bytes of its key, value and version."""
    of = json_of(line)
    name = name_of(of)
    asked = [word for word in ("put", "get", "del") if word in of]
    if len(asked) != 1:
        raise Wrong("both operations" if asked else "no operation")
    key = text(of[asked[0]], "bad key", 1, MAX_KEY)
    key = struct.pack(">B", len(key)) + key
    if asked[0] == "get" and of.get("value", ABSENT) is None and of.get("version") is None:
        return name, TRACE_MISSED, key
    value = content_of(of, asked[0], number)
    version = version_of(of.get("version"))
    if not value and number == 1:
        raise Wrong("needs format 2")
    kinds = (TRACE_PUT, TRACE_DEL) if asked[0] != "get" else (TRACE_GOT, TRACE_GONE)
    return name, kinds[not value], key + value + version


def escaped(name):
    return "".join(chr(byte) if byte in PLAIN else f"%{byte:02x}" for byte in name.encode())


def plain_import(data, number=1):
    """The expected result of an import of these lines to a format: its status, its output, and the trace, or None."""
    indices, records = {}, []
    for at, line in enumerate(data.split(b"\n"), 1):
        if not line.strip(BLANK):
            continue
        try:
            name, kind, fields = record_of(line, number)
            if name not in indices and len(indices) == MAX_CLIENTS:
                raise Wrong("too many clients")
            client, index = indices.get(name, (len(indices), 0))
            if index == MAX_CLIENT_OPS:
                raise Wrong("too many operations")
        except Wrong as fault:
            return 2, f"faulty: line {at}: {fault}\n".encode(), None
        indices[name] = client, index + 1
        records.append(frame(kind, struct.pack(">HI", client, index) + fields))
    trace = [frame(TRACE_HEAD, struct.pack(">HH", number, len(indices))), *records, frame(TRACE_END, struct.pack(">I", len(records)))]
    lines = [f"client {client} {escaped(name)}\n" for name, (client, _) in indices.items()]
    lines.append(f"imported: {len(records)} operations, {len(indices)} clients\n")
    return 0, "".join(lines).encode(), b"".join(trace)


def write(path, data):
    with open(path, "wb") as file:
        file.write(data)


def read(path):
    with open(path, "rb") as file:
        return file.read()


def read_if_there(path):
    return read(path) if os.path.exists(path) else None


def imported(data, *words):
    """The answer of `cops import` for these lines, and the trace that it writes: by files, and by standard input and output. If a line is wrong, a prefix of
    the trace goes to standard output, and there is no file."""
    with tempfile.TemporaryDirectory() as folder:
        lines, trace = os.path.join(folder, "lines"), os.path.join(folder, "trace")
        write(lines, data)
        status, out, errors = cops("import", *words, lines, trace)
        written = read_if_there(trace)
        from_input = cops("import", *words, "-", trace, stdin=data)
        also_written = read_if_there(trace)
        to_output = cops("import", lines, "-", *words)
        both = cops("import", "-", "-", *words, stdin=data)
    trace = to_output[1]
    same = from_input == (status, out, errors) and also_written == written and to_output == both == (status, trace, out + errors)
    is_whole = written == (trace if status == 0 else None)
    return (status, out, errors, trace) if same and is_whole else ("the four ways differ", from_input, to_output, both, written, also_written)


def words_of(number):
    """The words that ask for a format: none for format 1."""
    return ("--format", "2") if number == 2 else ()


def as_plain(name, data, number=1):
    """The import to a format gives the answer of the plain importer. If a line is wrong, it has written some records before that line, and no end."""
    status, out, trace = plain_import(data, number)
    got = imported(data, *words_of(number))
    check(name, got if trace is not None else got[:3], (status, out, b"") if trace is None else (status, out, b"", trace))
    if trace is None and isinstance(got[3], bytes):
        cut = f"faulty: cut at {whole_frames(got[3])}\n".encode()
        check(f"{name}: no whole trace", cops("audit", "-", stdin=got[3])[:2], (2, cut))


def whole_frames(trace):
    """Where the first frame begins that is not whole."""
    at = 0
    while at + 4 <= len(trace) and at + 4 + struct.unpack(">I", trace[at : at + 4])[0] <= len(trace):
        at += 4 + struct.unpack(">I", trace[at : at + 4])[0]
    return at


def worked():
    """The trace of docs/FORMATS.md that was written by hand, from lines that describe it in several ways."""
    trace, counts = example("put_and_get.trace"), b"imported: 2 operations, 2 clients\n"
    check("import of put_and_get.jsonl", imported(example("put_and_get.jsonl")), (0, b"client 0 writer\nclient 1 reader\n" + counts, b"", trace))
    ways = [
        b'{"client":1,"put":"x","value":"1","version":1}\n{"client":2,"get":"x","value":"1","version":1}\n',
        b'{"client":"1","put":"x","value":"1","version":[1,0]}\n\n \t\r\n{"client":2,"get":"x","value":"1","version":"1.0","at":3}',
        b'{"at":[{}],"version":9,"client":"1","put":"y","put":"x","value":"1","version":"1.0"}\r\n{"client":"2","get":"\\u0078","value":"1","version":1}\n',
    ]
    for data in ways:
        check(f"import of {data}", imported(data), (0, b"client 0 1\nclient 1 2\n" + counts, b"", trace))
    check("an audit of what was imported", cops("audit", "-", stdin=imported(ways[0])[3]), (0, b"accepted: 2 operations, 1 puts\n", b""))
    empty = example("empty.trace")[:7] + b"\0\0" + example("empty.trace")[9:]
    for data in (b"", b"\n", b" \t\r\n\r\n"):
        check(f"import of blank lines {data}", imported(data), (0, b"imported: 0 operations, 0 clients\n", b"", empty))
    names = "".join('{"client":"%s","get":"k","value":null}\n' % name for name in ("", "a b/%\\n\\u0000", "ü-._Z9")).encode()
    shown = b"client 0 \nclient 1 a%20b%2f%25%0a%00\nclient 2 %c3%bc-._Z9\nimported: 3 operations, 3 clients\n"
    check("names that are escaped", imported(names)[:3], (0, shown, b""))


def wrong_lines():
    """The first wrong line is reported, and no whole trace is written."""
    for number, wrong in ((1, WRONG + OF_FORMAT_2), (2, WRONG)):
        for last, words in wrong:
            at, name = last.rstrip(b"\n").count(b"\n") + 1, f"{last[:60]} to format {number}"
            check(f"the plain importer of {name}", plain_import(last, number)[:2], (2, f"faulty: line {at}: {words}\n".encode()))
            as_plain(f"import of {name}", last, number)
            later = FIRST + b"\r\n" + last + b"\n" + b"also wrong"
            wanted = 2, f"faulty: line {at + 2}: {words}\n".encode(), b""
            check(f"import of {name}, later", imported(later, *words_of(number))[:3], wanted)


# Lines of format 2, and the operations of their trace.
DELETIONS = [
    (b'{"client":1,"del":"k","version":1}', "0 del k 1.0"),
    (b'{"client":1,"del":"k","value":null,"version":"77.64"}', "0 del k 77.64"),
    (b'{"version":[2,1023],"value":null,"del":"\\u006b","client":"1","at":0}\r', "0 del k 2.1023"),
    (b'{"client":1,"del":"k","value":"x","value":null,"version":1}', "0 del k 1.0"),
    (b'{"client":1,"get":"k","value":null,"version":1}', "0 gone k 1.0"),
    (b'{"client":1,"get":"k","value":null,"version":[281474976710655,0]}', "0 gone k 281474976710655.0"),
    (b'{"client":1,"get":"k","value":null,"version":null}', "0 missed k"),
    (b'{"client":1,"get":"k","value":null}', "0 missed k"),
    (b'{"client":1,"put":"k","value":"","version":1}', "0 put k  1.0"),
    (b'{"client":1,"get":"k","value":"null","version":1}', "0 got k null 1.0"),
]


def deletions():
    """Deletions, and gets that found one, have their own records, which differ from those of an empty value and of a get that found nothing."""
    wanted = b"client 0 1\nimported: 1 operations, 1 clients\n"
    for line, operation in DELETIONS:
        # An empty value is two spaces, between which there is no word.
        expected = trace_of(["clients 1 format 2", operation]) if "  " not in operation else plain_import(line, 2)[2]
        check(f"import of {line} to format 2", imported(line, "--format", "2"), (0, wanted, b"", expected))
        as_plain(f"import of {line} to format 2, by the plain importer", line, 2)
    lines = b"\n".join(line for line, _ in OF_FORMAT_2)
    counts = b"client 0 1\nimported: 5 operations, 1 clients\n"
    check("lines that only format 2 has", imported(lines, "--format", "2")[:3], (0, counts, b""))
    session = b'''{"client":"a","put":"x","value":"1","version":1}
{"client":"a","del":"x","version":2}
{"client":"b","get":"x","value":null,"version":2}
{"client":"b","get":"x","value":"1","version":1}
'''
    status, out, errors, trace = imported(session, "--format", "2")
    check("import of a stale get behind a deletion", (status, out, errors), (0, b"client 0 a\nclient 1 b\nimported: 4 operations, 2 clients\n", b""))
    report = b"refused: 4 operations, 2 puts, 1 faults\nstale (1,1) returned 1.0, newer (0,1) at 2.0, chain (0,1) (1,0) (1,1)\n"
    check("its audit", cops("audit", "-", stdin=trace), (1, report, b""))
    answer = 2, b"faulty: line 2: needs format 2\n", b""
    check("the lines in format 1", imported(session)[:3], answer)
    check("the lines in format 1 by its name", imported(session, "--format", "1")[:3], answer)


def formats():
    """Format 1 is that of an import without words. Lines that are right in format 1 have the same operations in format 2. There is no other format."""
    lines = example("stale.jsonl")
    check("an import to format 1 by its name", imported(lines, "--format", "1"), imported(lines))
    check("an import of stale.jsonl", imported(lines)[3], example("stale.trace"))
    in_format_2 = trace_of(example("stale.ops").decode().replace("clients 2", "clients 2 format 2").split("\n"))
    check("an import of stale.jsonl to format 2", imported(lines, "--format=2"), (*imported(lines)[:3], in_format_2))
    for words in (["--format", "0"], ["--format", "3"], ["--format", "x"], ["--format"], ["--format", "1", "--format", "2"], ["--format", "01x"]):
        status, out, errors = cops("import", os.path.join(ROOT, "examples", "stale.jsonl"), os.devnull, *words)
        check(f"usage of {words}", (status, out, errors != b""), (2, b"", True))


def replaced():
    """If a line is wrong, even after many correct ones, an existing trace stays unchanged, and a file that does not exist is not created. If no line is
    wrong, an existing trace is replaced as a whole."""
    old = b"what was there\n" * 100_000
    with tempfile.TemporaryDirectory() as folder:
        lines, trace = os.path.join(folder, "lines"), os.path.join(folder, "trace")
        for data, answer in (
            (b"wrong", (2, b"faulty: line 1: no JSON\n", b"")),
            (FIRST * 100_000 + b"wrong", (2, b"faulty: line 100001: no JSON\n", b"")),
        ):
            write(trace, old)
            write(lines, data)
            check("an import of a line that is wrong", cops("import", lines, trace), answer)
            check("the trace that was there", read(trace) == old, True)
            os.remove(trace)
            check("an import for a new trace", cops("import", lines, trace), answer)
            check("no trace where there was none", os.listdir(folder), ["lines"])
        write(lines, FIRST)
        write(trace, old)
        check("an import over a longer file", cops("import", lines, trace), (0, b"client 0 1\nimported: 1 operations, 1 clients\n", b""))
        check("the trace in its place", cops("audit", trace), (0, b"accepted: 1 operations, 0 puts\n", b""))
        check("what is left in the folder", sorted(os.listdir(folder)), ["lines", "trace"])


def limits():
    """The maximum number of clients, and one more; the maximum number of operations of a client, and one more."""
    clients = b"".join(b'{"client":%d,"get":"k","value":null}\n' % n for n in range(MAX_CLIENTS))
    names = b"".join(b"client %d %d\n" % (n, n) for n in range(MAX_CLIENTS))
    all_clients, one_client = names + b"imported: 65535 operations, 65535 clients\n", b"client 0 1\nimported: 1000000 operations, 1 clients\n"
    another = b'{"client":"more","get":"k","value":null}'
    cases = [
        ("clients", clients, all_clients, another, b"faulty: line 65536: too many clients\n"),
        ("operations", FIRST * MAX_CLIENT_OPS, one_client, FIRST, b"faulty: line 1000001: too many operations\n"),
    ]
    for name, most, expected, more, faulty in cases:
        with tempfile.NamedTemporaryFile() as file:
            file.write(most)
            file.flush()
            check(f"the most {name}", cops("import", file.name, os.devnull), (0, expected, b""))
            file.write(more)
            file.flush()
            check(f"more {name} than the most", cops("import", file.name, os.devnull), (2, faulty, b""))


def devices():
    """Files that do not exist, reads and writes that fail, and lines that arrive by a pipe."""
    path = os.path.join(ROOT, "examples", "put_and_get.jsonl")
    lines = b"client 0 writer\nclient 1 reader\nimported: 2 operations, 2 clients\n"
    with tempfile.TemporaryDirectory() as folder:
        none = os.path.join(folder, "trace")
        check("no such lines", cops("import", "/nothing/there", none), (4, b"", b"failed: open\n"))
        check("lines that are a folder", cops("import", ROOT, none), (4, b"", b"failed: read\n"))
        check("lines that were not read leave no file", os.path.exists(none), False)
        same = os.path.join(folder, "same")
        with open(path, "rb") as file, open(same, "wb") as copy:
            copy.write(file.read())
        os.link(same, os.path.join(folder, "other name"))
        for name in ("same", "other name"):
            check(f"a trace over its own lines, {name}", cops("import", same, os.path.join(folder, name)), (4, b"", b"failed: same file\n"))
        check("lines that were to be written over", cops("import", same, none), (0, lines, b""))
        check("an import in no folder", cops("import", path, "/nothing/there"), (4, b"", b"failed: open\n"))
        check("an import to a full device", cops("import", path, "/dev/full"), (4, b"", b"failed: write\n"))
        with open("/dev/full", "wb") as full:
            check("an import to standard output that is full", cops("import", path, "-", stdout=full), (4, None, b"failed: write\n"))
            check("names to standard output that is full", cops("import", path, os.devnull, stdout=full), (4, None, b"failed: write\n"))
        pipe = os.path.join(folder, "pipe")
        os.mkfifo(pipe)
        feeding = subprocess.Popen(["cp", path, pipe])
        check("lines by a pipe of a name", cops("import", pipe, os.devnull), (0, lines, b""))
        feeding.wait()
        copies(folder, path, lines)
    for words in (["import"], ["import", path], ["import", path, "-", "-"], ["import", "--all", path, "-"]):
        status, out, errors = cops(*words)
        check(f"usage of {words}", (status, out, errors != b""), (2, b"", True))
    status, out, errors = cops("import", "--help")
    check("help of import", (status, b"Usage: cops import [OPTIONS] <LINES> <TRACE>" in out, b"--format <N>" in out, errors), (0, True, True, b""))


def copies(folder, path, lines):
    """The copy of standard input is in the folder that TMPDIR names, and nothing is left there."""
    kept = os.path.join(folder, "kept")
    os.mkdir(kept)

    def ran(where, data, trace=os.devnull):
        answer = subprocess.run([BUILT, "import", "-", trace], input=data, capture_output=True, env={"TMPDIR": where})
        return (answer.returncode, answer.stdout, answer.stderr), os.listdir(kept)

    with open(path, "rb") as file:
        data = file.read()
    check("a copy of lines", ran(kept, data), ((0, lines, b""), []))
    check("a copy of wrong lines", ran(kept, b"x"), ((2, b"faulty: line 1: no JSON\n", b""), []))
    check("a copy for a full device", ran(kept, data, "/dev/full"), ((4, b"", b"failed: write\n"), []))
    check("a copy in no folder", ran("/nothing/there", data), ((4, b"", b"failed: create\n"), []))
    for name, lines_by, given in (("lines", "-", data), ("a trace", path, b"")):
        few = subprocess.run([BUILT, "import", lines_by, os.devnull], input=given, capture_output=True, preexec_fn=short_files)
        check(f"a copy of {name} that may not grow", (few.returncode, few.stdout, few.stderr), (4, b"", b"failed: temporary copy\n"))


def short_files():
    """Limits the files of this process to 10 bytes, so that longer writes fail."""
    signal.signal(signal.SIGXFSZ, signal.SIG_IGN)
    resource.setrlimit(resource.RLIMIT_FSIZE, (10, 10))


def generated(seed, number=1):
    """Random lines of a format, some of them wrong."""
    pick = random.Random(seed)
    names = [1, 7, "7", "b", "a b", "ü", "", 2**64 - 1, "client"]
    keys, values = ["x", "y", "k" * 64, "ü", " "], ["", "1", "v" * LIMITS[number].value, "a\nb", "\u0000", "ü"]

    def version():
        clock, node = pick.choice((1, 2, 77, 2**48 - 1)), pick.choice((0, 1, 64, 1023))
        return pick.choice((f"{clock}.{node}", [clock, node], clock))

    def operation():
        of = {"client": pick.choice(names), pick.choice(("put", "get")): pick.choice(keys)}
        if "put" in of or pick.random() < 0.7:
            of.update(value=pick.choice(values), version=version())
        else:
            of.update(value=None)
            if pick.random() < 0.5:
                of.update(version=None)
            if pick.random() < 0.01:
                del of["value"]
        # Format 1 has such operations rarely, since they are wrong there.
        if pick.random() < (0.3 if number == 2 else 0.005):
            of.update(value=None, version=version())
            if "put" in of:
                of["del"] = of.pop("put")
                if pick.random() < 0.5:
                    del of["value"]
        return of

    def line():
        of = operation()
        if pick.random() < 0.2:
            of[pick.choice(("at", "time", ""))] = pick.choice((1.5, None, [], {"put": 1}))
        if pick.random() < 0.02:
            of[pick.choice(("client", "put", "get", "del", "value", "version"))] = pick.choice((None, 1, "x", [1, 2], {}, "", "1.0"))
        if pick.random() < 0.01:
            return json.dumps(of)[: pick.randrange(10)]
        text = json.dumps(of, ensure_ascii=pick.random() < 0.5, separators=pick.choice(((",", ":"), (" , ", " : "))))
        return pick.choice(("", "", " ", "\t")) + text + pick.choice(("", "", "\r", " "))

    lines = [line() if pick.random() < 0.9 else pick.choice(("", " ", "\t\r")) for _ in range(pick.randrange(60))]
    return "\n".join(lines).encode() + pick.choice((b"", b"\n"))


def imports():
    worked()
    wrong_lines()
    deletions()
    formats()
    replaced()
    limits()
    devices()
    for seed in range(300):
        number = 1 + seed % 2
        as_plain(f"generated lines of format {number}, {seed}", generated(seed, number), number)
