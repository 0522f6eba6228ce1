#!/usr/bin/env python3
"""Makes allocations, reads and writes fail in the test vectors of `crates/cops_vectors`, in commands of the program and in calls of the library: first the
first call, then the second and so on, each in its own run, until a run makes no further call. A run in which nothing fails must give the expected result. A
run with a failure must give that result too, or report by its status that it is out of memory or that a device failed; then its output is a prefix of the
expected output.

The test vectors retry: an event of a world, an operation of a client and an operation that is fed to an auditor are tried once more. A run of scripts without
retries may also end with status 0 and a client that stopped because it was out of memory, and at least one run must end so.

Prints how many calls failed, a line for each run with another result, and at the end `N passed, M failed`.
"""
import concurrent.futures
import os
import re
import subprocess
import sys
import tempfile
import typing

sys.dont_write_bytecode = True
from checks import STALE, STALE_JSON, json_line  # noqa: E402

ROOT = os.path.dirname(os.path.dirname(os.path.abspath(__file__)))
VECTORS = os.path.join(ROOT, "crates", "cops_vectors")
SECONDS = 60
# The output for two clients of which at least one stopped because it was out of memory.
STOPPED = re.compile(
    rb"client 0 (?:stopped 9\nclient 1 (?:done|stopped 9)|done\nclient 1 stopped 9)\naccepted: [0-3] operations, [0-2] puts\n\Z")
MAX_REPORTED = 20
AT_ONCE = os.cpu_count() or 2
MEMORY, DEVICE = 3, 4


def example(name):
    return os.path.join(ROOT, "examples", name)


def data(name):
    return os.path.join(VECTORS, "data", name)


class Case(typing.NamedTuple):
    """A command, its expected status and output if nothing fails, and the statuses that it may end with otherwise."""

    name: str
    words: list
    wanted: tuple
    failures: tuple = (MEMORY, DEVICE)
    # What its standard input has.
    given: bytes = b""
    # Another output that it may give with status 0 if an allocation fails, and must give in at least one run.
    other: typing.Optional[re.Pattern] = None


def cases():
    program = os.path.join(ROOT, "crates", "cops", "out", "cops")
    vectors, report_path = [os.path.join(VECTORS, "out", "cops_vectors"), "allocations"], data("stale.lines")
    puts = [*vectors, example("newer_put_elsewhere.json"), data("events.lines"), example("stale.trace"), report_path]
    # The report on the stale get is the same if the newer put is a deletion.
    deletions = [*vectors, example("deleted_elsewhere.json"), data("deleted.lines"), example("stale_deleted.trace"), report_path]
    with open(report_path, "rb") as file:
        report = file.read()
    with open(data("stale.explained"), "rb") as file:
        explained = file.read()
    with open(example("stale.jsonl"), "rb") as file:
        stale = file.read()
    follow_text = f"so far: refused\n{STALE[STALE.index(chr(10) * 2) + 1 :]}".encode()
    imported = b"client 0 writer\nclient 1 reader\nimported: 2 operations, 2 clients\n"
    unknown = b"unknown outcomes: 1 took effect, 1 left out\n"
    timed_out = b"client 0 ann\nclient 1 bob\nclient 2 ann, line 2\nimported: 3 operations, 3 clients\n" + unknown
    ran = b"client 0 done\nclient 1 done\naccepted: 4 operations, 2 puts\n"
    return [
        Case("test vectors", puts, (0, b"as wanted\n"), (1,)),
        Case("test vectors with deletions", deletions, (0, b"as wanted\n"), (1,)),
        Case("audit", [program, "audit", example("stale.trace")], (1, report)),
        Case("audit by two workers", [program, "audit", example("stale.trace"), "--workers", "2"], (1, report)),
        Case("audit so far", [program, "audit", example("stale.trace"), "--so-far"], (1, report)),
        Case("explain", [program, "explain", example("stale.trace"), "--picture", os.devnull], (1, explained)),
        Case("check", [program, "check", example("stale.jsonl"), "--picture", os.devnull], (1, STALE.encode())),
        Case("check, as JSON", [program, "check", example("stale.jsonl"), "--json"], (1, json_line(STALE_JSON))),
        Case("check of lines that are written", [program, "check", "-", "--follow"], (1, follow_text), given=stale),
        Case("import", [program, "import", example("put_and_get.jsonl"), os.devnull], (0, imported)),
        Case("import to format 2", [program, "import", "--format", "2", example("put_and_get.jsonl"), os.devnull], (0, imported)),
        Case("import of unknown outcomes", [program, "import", example("timed_out.jsonl"), os.devnull], (0, timed_out)),
        Case("check of unknown outcomes", [program, "check", example("timed_out.jsonl")], (0, b"accepted: 3 operations, 2 puts\n" + unknown)),
        # Standard input has no lines.
        Case("import of standard input", [program, "import", "-", os.devnull], (0, b"imported: 0 operations, 0 clients\n")),
        # An operation is tried once more, so that both clients are done whichever of their allocations fails.
        Case("run", [program, "run", data("scripts.json"), os.devnull], (0, ran)),
        Case("run without another try", [program, "run", data("scripts_once.json"), os.devnull], (0, ran), other=STOPPED),
    ]


def library_cases(folder):
    """The functions of the library, called by a program that allocates nothing itself."""
    calling, archive = os.path.join(folder, "calling"), os.path.join(ROOT, "crates", "cops_c_interface", "out", "libcops.a")
    subprocess.run(["cc", "-O1", "-I", os.path.join(ROOT, "release"), os.path.join(ROOT, "tests", "calling.c"), archive, "-o", calling], check=True)
    with open(data("stale.lines"), "rb") as file:
        report = file.read()
    return [
        Case("the library's audit", [calling, "audit", example("stale.trace")], (1, report)),
        Case("the library's audit so far", [calling, "so_far", example("stale.trace")], (1, report)),
        Case("the library's check of lines", [calling, "check_lines", example("stale.jsonl")], (1, json_line(STALE_JSON))),
    ]


class Refusing:
    """Runs commands with a preloaded library that makes one call of the C library fail."""

    def __init__(self, folder):
        self.library = os.path.join(folder, "refusing.so")
        source = os.path.join(ROOT, "tests", "refusing.c")
        subprocess.run(["cc", "-shared", "-fPIC", "-O1", "-o", self.library, source], check=True)

    def ran(self, words, kind, number, stdin=b""):
        """Runs a command in which the call of that kind and number fails."""
        environment = {"LD_PRELOAD": self.library, "REFUSED": f"{kind} {number}"}
        return subprocess.run(words, env=environment, input=stdin, capture_output=True, timeout=SECONDS)

    def run(self, case, kind, number):
        """The status and the output of a test case in which that call fails, and whether there was such a call."""
        ran = self.ran(case.words, kind, number, case.given)
        return (ran.returncode, ran.stdout), b"refused\n" in ran.stderr


def is_other(case, ended):
    return case.other is not None and ended[0] == 0 and case.other.match(ended[1]) is not None


def is_well(case, ended, call_failed):
    status, out = ended
    return ended == case.wanted or call_failed and (is_other(case, ended) or status in case.failures and case.wanted[1].startswith(out))


def refused(refusing, case, kind):
    """Makes each call of a kind fail, one in each run. Returns how many calls failed, and how many runs had a wrong result. If no run gave the other output
    that at least one must give, this counts as one more wrong result."""
    number, failed, others = 1, 0, 0
    with concurrent.futures.ThreadPoolExecutor(AT_ONCE) as pool:
        while True:
            numbers = range(number, number + 8 * AT_ONCE)
            for at, (ended, call_failed) in zip(numbers, pool.map(lambda at: refusing.run(case, kind, at), numbers)):
                others += is_other(case, ended)
                if not is_well(case, ended, call_failed):
                    failed += 1
                    print(f"{case.name}, {kind} {at} refused: {ended}")
                if not call_failed or failed > MAX_REPORTED:
                    if case.other and kind == "allocation" and not others:
                        failed += 1
                        print(f"{case.name}: no run ended with a client that stopped for memory")
                    return at - 1, failed
            number = numbers.stop


def is_import_well(ran, kind, trace, older, whole):
    """Whether an import has written its whole file, or has left it unchanged and reports why: it is out of memory if an allocation failed, and the temporary
    copy could not be written if a write failed before the file was touched. While the file is written a device may fail, but no allocation."""
    call_failed = b"refused\n" in ran.stderr
    ended = ran.returncode, ran.stderr.replace(b"refused\n", b"")
    copy = DEVICE, b"failed: temporary copy\n"
    if ran.returncode == 0:
        return trace == whole
    if trace == older:
        return call_failed and ended in {"allocation": [(MEMORY, b"failed: memory\n")], "read": [(DEVICE, b"failed: read\n"), copy], "write": [copy]}[kind]
    return call_failed and whole.startswith(trace) and ended == {"read": copy, "write": (DEVICE, b"failed: write\n")}.get(kind)


def imports_into(refusing, folder, kind, stdin):
    """Imports lines, from a named file or from standard input, into a file that has an older trace. One call of a kind fails in each run, until a run makes
    no further call. Returns the numbers of correct and of wrong results."""
    program, name = os.path.join(ROOT, "crates", "cops", "out", "cops"), os.path.join(folder, "imported.trace")
    with open(example("put_and_get.trace"), "rb") as file:
        whole = file.read()
    passed = failed = 0
    for number in range(1, 10_000):
        with open(name, "wb") as file:
            file.write(b"older")
        ran = refusing.ran([program, "import", "-" if stdin else example("put_and_get.jsonl"), name], kind, number, stdin)
        with open(name, "rb") as file:
            trace = file.read()
        is_well = is_import_well(ran, kind, trace, b"older", whole)
        passed, failed = passed + is_well, failed + (not is_well)
        if not is_well:
            print(f"import into a file, {kind} {number} refused: {ran.returncode}, {ran.stderr}, {trace}")
        if b"refused\n" not in ran.stderr or failed > MAX_REPORTED:
            break
    return passed, failed


def imports(refusing, folder):
    with open(example("put_and_get.jsonl"), "rb") as file:
        lines = file.read()
    found = [imports_into(refusing, folder, kind, stdin) for kind in ("allocation", "read", "write") for stdin in (b"", lines)]
    print(f"import into a file with an older trace: {sum(it[0] for it in found)} runs ended well")
    return [sum(it) for it in zip(*found)]


def main():
    passed = failed = 0
    with tempfile.TemporaryDirectory() as folder:
        refusing = Refusing(folder)
        for case in (*library_cases(folder), *cases()):
            counts = {kind: refused(refusing, case, kind) for kind in ("allocation", "read", "write")}
            print(f"{case.name}: refused in turn {', '.join(f'{count} {kind}s' for kind, (count, _) in counts.items())}")
            # One more run of each kind has no failure.
            passed += sum(count + 1 - wrong for count, wrong in counts.values())
            failed += sum(wrong for _, wrong in counts.values())
        passed, failed = map(sum, zip((passed, failed), imports(refusing, folder)))
    print(f"{passed} passed, {failed} failed")
    return 0 if passed and not failed else 1


if __name__ == "__main__":
    sys.exit(main())
