"""Tests of `cops check --follow`, which judges JSON Lines while they are written. The states of random lines are compared with those that the plain auditor
finds once each put that a get awaits is added as the one operation of a client of its own."""
import os
import queue
import random
import signal
import subprocess
import tempfile
import threading
from collections import Counter
from concurrent.futures import ThreadPoolExecutor

import plain
from checks import deleted, gone, got, lines_of, missed, put
from plain import Operation
from traces import BUILT, check, cops, example

RANDOM_FILES = 400
LEAST_OF_A_KIND = 25

# How long a test waits for a line that has to come, and for one that must not, in seconds.
PATIENCE, SILENCE = 20, 1.5

CONFLICT = b"""error: the argument '--follow' cannot be used with one or more of the other specified arguments

Usage: cops check --follow <LINES>

For more information, try '--help'.
"""

CLASSES = (("doubled", plain.doubled), ("no source", plain.without_source), ("not above", plain.not_above), ("stale", plain.stale))


class Follower:
    """A `cops check --follow` whose output is read line by line while it runs."""

    def __init__(self, lines, *words):
        self.process = subprocess.Popen(
            [BUILT, "check", "--follow", lines, *words], stdin=subprocess.PIPE, stdout=subprocess.PIPE, stderr=subprocess.PIPE
        )
        self.printed = queue.Queue()
        self.reading = threading.Thread(target=self.read)
        self.reading.start()

    def read(self):
        for line in self.process.stdout:
            self.printed.put(line)

    def line(self, patience=PATIENCE):
        """The next line that is printed, None if none comes."""
        try:
            return self.printed.get(timeout=patience)
        except queue.Empty:
            return None

    def after(self, data):
        """The next line that is printed after this is written."""
        self.process.stdin.write(data)
        self.process.stdin.flush()
        return self.line()

    def ended(self):
        """Status, the rest of the output, and errors, once the input has ended."""
        self.process.stdin.close()
        return self.stopped()

    def stopped(self):
        status = self.process.wait()
        self.reading.join()
        rest = b"".join(iter(lambda: self.printed.get_nowait() if not self.printed.empty() else b"", b""))
        return status, rest, self.process.stderr.read()


def explained(lines):
    """What a check prints of the first fault of these lines, from the empty line on."""
    text = cops("check", "-", "--fault", "1", stdin=lines)[1]
    return text[text.index(b"\n\n") + 1 :]


def step_by_step():
    """Each state is printed when it changes, and the end gives the status."""
    stale = example("stale.jsonl")
    lines = stale.splitlines(keepends=True)
    follower = Follower("-")
    check("a first line", follower.after(lines[0]), b"so far: clean\n")
    check("a get that waits", follower.after(lines[3]), b"so far: waiting 1\n")
    check("its put", follower.after(lines[1] + lines[2]), b"so far: clean\n")
    follower.process.stdin.write(lines[4][:10])
    follower.process.stdin.flush()
    check("half a line changes nothing", follower.line(SILENCE), None)
    check("a stale get", follower.after(lines[4][10:]), b"so far: refused\n")
    status, rest, errors = follower.ended()
    check("the end of refused lines", (status, rest, errors), (1, explained(lines[0] + lines[3] + lines[1] + lines[2] + lines[4]), b""))
    check("lines at once", last_state("-", stale), (1, b"so far: refused\n" + explained(stale), b""))
    check("no lines", last_state("-", b""), (0, b"so far: clean\n", b""))
    check("a last line without a line feed", last_state("-", stale[:-1]), (1, b"so far: refused\n" + explained(stale), b""))


def last_state(name, data, *words):
    """Status, the state that was printed last, and errors, of lines that are given at once."""
    ran = subprocess.run([BUILT, "check", "--follow", name, *words], input=data, stdout=subprocess.PIPE, stderr=subprocess.PIPE)
    place = ran.stdout.rfind(b"so far: ")
    return ran.returncode, ran.stdout[max(place, 0) :], ran.stderr


def awaited_puts():
    """Faults that every put that may still come leaves there."""
    older = lines_of(put("ann", "x", "1", 1), got("bob", "x", "2", 2), got("bob", "x", "1", 1))
    text = b"""so far: refused

fault 1: stale bob, line 3
bob got x=1 at 1.0, though it had to know of the newer put the put that bob got, line 2
the put that bob got, line 2: put x=2 at 2.0
bob, line 2: got x=2 at 2.0: returned that put
bob, line 3: got x=1 at 1.0: the same client's later operation
"""
    status, out, errors = last_state("-", older)
    check("older than a put that is awaited", (status, out[: len(text)], errors), (1, text, b""))
    for name, data, wanted in (
        ("a put below an awaited one", lines_of(got("bob", "x", "2", 2), put("bob", "x", "1", 1)), (1, b"not above bob, line 2")),
        ("two values of one version", lines_of(got("ann", "x", "1", 1), got("bob", "x", "2", 1)), (1, b"no source bob, line 2")),
        ("a deletion that is awaited", lines_of(put("ann", "x", "1", 1), gone("bob", "x", 2), got("bob", "x", "1", 1)), (1, b"stale bob, line 3")),
        ("missed after an awaited put", lines_of(got("bob", "x", "2", 2), missed("bob", "x")), (1, b"stale bob, line 2")),
        ("another value than the put", lines_of(put("ann", "x", "1", 1), got("bob", "x", "2", 1)), (1, b"no source bob, line 2")),
    ):
        status, out, errors = last_state("-", data)
        place = out.find(b"fault 1: ")
        check(name, (status, out[place + 9 : out.find(b"\n", place)], errors), (*wanted, b""))
    check("two gets of an awaited put", last_state("-", lines_of(got("ann", "x", "1", 1), got("bob", "x", "1", 1))), (0, b"so far: waiting 2\n", b""))
    unknown = lines_of({"client": "ann", "put": "x", "value": "1", "ok": None}, got("bob", "x", "1", 1), got("bob", "y", "1", 2))
    check("a put of unknown outcome is not awaited", last_state("-", unknown), (0, b"so far: waiting 1\n", b""))
    many = lines_of(*(got("ann", "x", str(n), n) for n in range(1, 65_600)), missed("ann", "x"))
    check("more puts than there are clients", last_state("-", many), (0, b"so far: waiting 65599\n", b""))


def ranks():
    lines = lines_of(put("ann", "x", "1", "b"), got("bob", "x", "0", "a"))
    check("followed by ranks", last_state("-", lines, "--rank"), (0, b"so far: waiting 1\n", b""))
    lines += lines_of(got("cleo", "x", "1", "b"), got("cleo", "x", "0", "a"))
    check("refused by ranks", last_state("-", lines, "--rank")[0], 1)
    check("texts without --rank", last_state("-", lines), (2, b"faulty: line 1: bad version\n", b""))


def wrong_lines():
    """A wrong line ends it at once, though the input goes on."""
    follower = Follower("-")
    check("before a wrong line", follower.after(lines_of(put("ann", "x", "1", 1))), b"so far: clean\n")
    check("a wrong line", follower.after(b"{}\n"), b"faulty: line 2: no client\n")
    follower.process.stdin.write(b"\n")
    check("the end after a wrong line", follower.ended(), (2, b"", b""))
    for words in (["--all"], ["--fault", "1"], ["--json"], ["--picture", "/tmp/none.svg"], ["--json", "--all"]):
        check(f"--follow with {words}", cops("check", "-", "--follow", *words), (2, b"", CONFLICT))
    check("no such file", cops("check", "/nothing/there", "--follow"), (4, b"", b"failed: open\n"))
    check("a folder", cops("check", "/", "--follow"), (4, b"", b"failed: read\n"))
    with open("/dev/full", "wb") as full:
        check("a full device", cops("check", "-", "--follow", stdin=example("stale.jsonl"), stdout=full), (4, None, b"failed: write\n"))


def growing_files():
    """A plain file is followed past its end until the program is interrupted; a pipe with a name ends."""
    # A shell has what it starts in the background ignore interrupts, and a program inherits that. A handler is not inherited.
    signal.signal(signal.SIGINT, signal.default_int_handler)
    with tempfile.TemporaryDirectory() as folder:
        path = os.path.join(folder, "lines.jsonl")
        with open(path, "wb") as file:
            file.write(lines_of(put("ann", "x", "1", 1)))
            file.flush()
            follower = Follower(path)
            check("the beginning of a file", follower.line(), b"so far: clean\n")
            for name, line, wanted in (
                ("a get", got("bob", "x", "1", 1), None),
                ("a get that waits", got("bob", "y", "2", 2), b"so far: waiting 1\n"),
                ("its put", put("ann", "y", "2", 2), b"so far: clean\n"),
                ("a stale get", missed("bob", "x"), b"so far: refused\n"),
            ):
                file.write(lines_of(line))
                file.flush()
                check(f"{name} at the end of a file", follower.line(PATIENCE if wanted else SILENCE), wanted)
            follower.process.send_signal(signal.SIGINT)
            status, _, errors = follower.stopped()
            check("an interrupt", (status, errors), (-signal.SIGINT, b""))
            check("the file is as it was", open(path, "rb").read().count(b"\n"), 5)
        with open(path, "r+b") as file:
            ran = subprocess.run([BUILT, "check", "--follow", path], stdout=file, stderr=subprocess.PIPE)
            check("over the file that is read", (ran.returncode, ran.stderr, os.path.getsize(path) > 0), (4, b"failed: same file\n", True))
        pipe = os.path.join(folder, "pipe")
        os.mkfifo(pipe)
        follower = Follower(pipe)
        with open(pipe, "wb") as file:
            file.write(lines_of(got("bob", "x", "1", 1)))
        check("a pipe with a name", follower.ended(), (0, b"so far: waiting 1\n", b""))


# ---- random lines


def random_lines(random_):
    """Operations of three clients, some of which return what was not put yet, or an older value."""
    given, puts = [], [(key, version) for version, key in enumerate(random_.choices("xyz", k=8), 1)]
    ahead, done = random_.choice((0, 1, 2)), 0
    for _ in range(random_.randint(1, 9)):
        client, act = f"c{random_.randint(0, 2)}", random_.random()
        key, version = puts[min(random_.randint(0, done + ahead), len(puts) - 1)]
        is_deletion = version % 4 == 0
        if act < 0.45 and done < len(puts):
            key, version = puts[done]
            done += 1
            given.append(deleted(client, key, version) if version % 4 == 0 else put(client, key, str(version), version))
        elif act < 0.52:
            given.append(missed(client, key))
        else:
            value = str(version) if random_.random() < 0.97 else "other"
            given.append(gone(client, key, version) if is_deletion else got(client, key, value, version))
    return given


def operation(line):
    """The operation of a line's object."""
    version = (line["version"], 0) if "version" in line else None
    if "put" in line or "del" in line:
        kind, key = ("put", line["put"]) if "put" in line else ("del", line["del"])
        return Operation(kind, key, line.get("value"), version)
    kind = "missed" if version is None else "gone" if line["value"] is None else "got"
    return Operation(kind, line["get"], line["value"], version)


def state(given):
    """The state of these lines by the plain auditor, and what its first fault is called."""
    numbers, lengths, history, called = {}, Counter(), {}, {}
    for at, line in enumerate(given, 1):
        client = numbers.setdefault(line["client"], len(numbers))
        name = client, lengths[client]
        lengths[client] += 1
        history[name], called[name] = operation(line), f"{line['client']}, line {at}"
    versions = {history[name].version for name in plain.of_kind(history, *plain.PUTS)}
    waiting = [name for name in plain.of_kind(history, *plain.GETS) if history[name].version not in versions]
    firsts = {}
    for name in waiting:
        firsts.setdefault(history[name].version, name)
    for own, name in enumerate(firsts.values(), len(numbers)):
        _, key, value, version = history[name]
        history[own, 0] = Operation("del" if value is None else "put", key, value, version)
        client, line = called[name].split(", line ")
        called[own, 0] = f"the put that {client} got, line {line}"
    for kind, faults in CLASSES:
        found = faults(history)
        if found:
            first = found[0] if kind in ("doubled", "no source") else found[0][0]
            return "refused", f"so far: refused\n\nfault 1: {kind} {called[first]}\n"
    return ("waiting", f"so far: waiting {len(waiting)}\n") if waiting else ("clean", "so far: clean\n")


def random_files():
    random_ = random.Random(68)
    files = [random_lines(random_) for _ in range(RANDOM_FILES)]
    with ThreadPoolExecutor(8) as pool:
        answers = [*pool.map(lambda given: last_state("-", lines_of(*given)), files)]
    kinds = Counter()
    for given, (status, out, errors) in zip(files, answers):
        kind, text = state(given)
        kinds[kind] += 1
        check(f"the state of {given}", (status, out[: len(text)].decode(), errors), (1 if kind == "refused" else 0, text, b""))
    check("each state came", all(kinds[kind] >= LEAST_OF_A_KIND for kind in ("clean", "waiting", "refused")), True)


def following():
    step_by_step()
    awaited_puts()
    ranks()
    wrong_lines()
    growing_files()
    random_files()
