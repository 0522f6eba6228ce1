#!/usr/bin/env python3
"""Tests of the library libcops and of the module python/cops.py over it: what they say is what the program says, and nothing else of the caller's memory
changes.

Prints a line for each test that fails, and at the end `N passed, M failed`.
"""
import ctypes
import glob
import os
import shutil
import subprocess
import sys
import tempfile
import threading

sys.dont_write_bytecode = True
from traces import BUILT, ROOT, check, ended, skip, trace  # noqa: E402

LIBRARY = os.path.join(ROOT, "crates", "cops_c_interface", "out")
os.environ["COPS_LIBRARY"] = os.path.join(LIBRARY, "libcops.so")
sys.path.insert(0, os.path.join(ROOT, "python"))
import cops  # noqa: E402

EXAMPLES = sorted(glob.glob(os.path.join(ROOT, "examples", "*.trace")))
LINES = sorted(glob.glob(os.path.join(ROOT, "examples", "*.jsonl")))
TOO_SMALL, FILL = 5, 0xA5
STALE = """refused: 5 operations, 3 puts, 1 faults
stale (1,1) returned 1.0, newer (0,1) at 2.0, chain (0,1) (0,2) (1,0) (1,1)
"""


def content(path):
    with open(path, "rb") as file:
        return file.read()


def program(*words, stdin):
    ran = subprocess.run([BUILT, *words], input=stdin, stdout=subprocess.PIPE, stderr=subprocess.DEVNULL)
    return ran.returncode, ran.stdout.decode()


def says_what_the_program_says():
    """On all examples, and on each of their cuts."""
    for path in EXAMPLES:
        data = content(path)
        for end in range(len(data) + 1):
            name = f"{os.path.basename(path)}, {end} bytes"
            check(f"audit: {name}", cops.audit(data[:end]), program("audit", "-", stdin=data[:end]))
            check(f"so far: {name}", cops.so_far(data[:end]), program("audit", "-", "--so-far", stdin=data[:end]))
    for path in LINES:
        data = content(path)
        for end in (*range(0, len(data), 7), len(data)):
            name = f"{os.path.basename(path)}, {end} bytes"
            check(f"lines: {name}", cops.check_lines(data[:end]), program("check", "-", "--json", stdin=data[:end]))
        check(f"lines: {path}, ranked", cops.check_lines(data, ranked=True), program("check", "-", "--json", "--rank", stdin=data))


class Called:
    """A call with a buffer of a size: the status, the buffer with 16 bytes behind it, and the size that was written."""

    def __init__(self, library, name, data, size, *flags):
        buffer, self.written = (ctypes.c_uint8 * (size + 16))(*[FILL] * (size + 16)), ctypes.c_size_t(99)
        function = library[name]
        function.restype = ctypes.c_uint8
        self.status = function(ctypes.c_char_p(data), ctypes.c_size_t(len(data)), *flags, buffer, ctypes.c_size_t(size), ctypes.byref(self.written))
        self.buffer = bytes(buffer)

    def parts(self):
        return self.status, self.written.value, self.buffer


def leaves_the_rest_as_it_was():
    """For each size of the buffer, from none to more than the text needs."""
    library = ctypes.CDLL(os.environ["COPS_LIBRARY"])
    stale, lines = content(os.path.join(ROOT, "examples", "stale.trace")), content(os.path.join(ROOT, "examples", "stale.jsonl"))
    json = program("check", "-", "--json", stdin=lines)
    calls = [
        ("cops_audit", stale, (), (1, STALE)),
        ("cops_audit", b"no trace", (), program("audit", "-", stdin=b"no trace")),
        ("cops_audit_so_far", stale[:-9], (), (1, "cut at 129\nso far: refused\n")),
        ("cops_check_lines", lines, (ctypes.c_bool(False),), json),
    ]
    for name, data, flags, (status, text) in calls:
        text = text.encode()
        for size in {*range(min(len(text), 200)), len(text) - 1, len(text), len(text) + 1, len(text) + 40}:
            fits = size >= len(text)
            wanted = text + bytes([FILL] * (size + 16 - len(text))) if fits else bytes([FILL] * (size + 16))
            found = Called(library, name, data, size, *flags).parts()
            check(f"{name}: a buffer of {size} bytes", found, (status if fits else TOO_SMALL, len(text), wanted))


def is_large_enough():
    """The size that the header gives is enough for the longest texts but reports and explanations."""
    size = 64
    longest = 2**64 - 1
    accepted, faulty = "accepted: 16000000 operations, 16000000 puts\n", f"faulty: client out of range at {longest}\n"
    for text in (accepted, faulty, f"cut at {longest}\nso far: waiting 16000000\n"):
        check(f"a buffer of {size} bytes: {text!r}", len(text) <= size, True)
    check("the header's size", f"COPS_SIZE_UNLESS_REFUSED = {size} " in content(os.path.join(ROOT, "release", "cops.h")).decode(), True)


def runs_in_threads():
    """Four threads judge different traces at once."""
    traces = [content(path) for path in EXAMPLES]
    wanted, found = [cops.audit(data) for data in traces], {}

    def judge(number):
        turned = traces[number:] + traces[:number]
        found[number] = [[cops.audit(data) for data in turned] for _ in range(200)]

    threads = [threading.Thread(target=judge, args=(number,)) for number in range(4)]
    for thread in threads:
        thread.start()
    for thread in threads:
        thread.join()
    for number in range(4):
        turned = wanted[number:] + wanted[:number]
        check(f"thread {number}", all(run == turned for run in found.get(number, [None])), True)


def runs_out_of_memory():
    """With an address space that is too small the module raises MemoryError, for each function, and judges again when there is memory."""
    code = """if True:
        import resource, sys
        import cops
        recorder, lines = cops.Recorder(), []
        for number in range(20000):
            recorder.put(number % 7, str(number), b"a value", number)
            lines.append(f'{{"client":{number % 7},"put":"{number}","value":"a value","version":{number + 1}}}\\n')
        given = "".join(lines).encode() if sys.argv[1] == "check_lines" else recorder.trace()
        call = getattr(cops, sys.argv[1])
        call(b"")
        used = int(open("/proc/self/statm").read().split()[0]) * resource.getpagesize()
        resource.setrlimit(resource.RLIMIT_AS, (used + 300_000, resource.RLIM_INFINITY))
        try:
            print(call(given).status.name)
        except MemoryError:
            print("out of memory")
        resource.setrlimit(resource.RLIMIT_AS, (resource.RLIM_INFINITY, resource.RLIM_INFINITY))
        print(call(given).status.name)
    """
    environment = {**os.environ, "PYTHONPATH": os.path.join(ROOT, "python"), "MALLOC_ARENA_MAX": "1"}
    for name in ("audit", "so_far", "check_lines"):
        ran = subprocess.run([sys.executable, "-c", code, name], env=environment, stdout=subprocess.PIPE, stderr=subprocess.STDOUT, text=True)
        check(f"{name}: out of memory", ran.stdout, "out of memory\nACCEPTED\n")


class Store:
    """A toy store of two copies, in which a planted fault has a client read an old value."""

    def __init__(self, recorder, is_wrong):
        self.recorder, self.is_wrong, self.clock = recorder, is_wrong, 0
        self.values, self.old = {}, {}

    def put(self, client, key, value):
        self.clock += 1
        self.old.setdefault(key, (value, self.clock))
        self.values[key] = value, self.clock
        self.recorder.put(client, key, value, self.clock)

    def get(self, client, key):
        value, version = (self.old if self.is_wrong else self.values)[key]
        self.recorder.got(client, key, value, version)


def records():
    """A recorder judges what a toy store's clients see, with and without a planted fault."""
    for is_wrong in (False, True):
        recorder = cops.Recorder()
        store = Store(recorder, is_wrong)
        store.put("alice", "photo", "old")
        store.put("alice", "photo", "new")
        store.put("alice", "link", "here")
        store.get("bob", "link")
        store.get("bob", "photo")
        wanted = (1, STALE) if is_wrong else (0, "accepted: 5 operations, 3 puts\n")
        check(f"a store, planted {is_wrong}", (recorder.verdict(), recorder.clients()), (wanted, ["alice", "bob"]))
    check("accepted", (cops.Recorder().verdict().accepted, cops.audit(b"").accepted), (True, False))


def records_each_operation():
    """The bytes are those that another writer of traces writes."""
    recorder = cops.Recorder()
    recorder.put("a", b"x", b"1", (5, "n1"))
    recorder.missed("b", "y")
    recorder.deleted("a", "x", (5, "n2"))
    recorder.got("b", "x", "1", version=(5, "n1"))
    recorder.gone("b", "x", version=(5, "n2"))
    lines = ["clients 2 format 2", "0 put x 1 1.0", "1 missed y", "0 del x 2.0", "1 got x 1 1.0", "1 gone x 2.0"]
    check("a trace", recorder.trace(), trace(lines))
    check("its verdict", recorder.verdict(), (0, "accepted: 5 operations, 2 puts\n"))
    check("no operations", cops.Recorder().verdict(), (0, "accepted: 0 operations, 0 puts\n"))


def raised(call, *given):
    try:
        call(*given)
    except Exception as fault:  # The name of the exception is what is tested.
        return type(fault).__name__
    return None


def refuses_what_no_trace_has():
    """Such an operation is not recorded, and neither is its client."""
    recorder = cops.Recorder()
    wrong = [
        (recorder.put, "c", "", "v", 1),
        (recorder.put, "c", "k" * 65, "v", 1),
        (recorder.put, "c", "é" * 33, "v", 1),
        (recorder.put, "c", "k", "v" * 16_385, 1),
        (recorder.put, "c", "k", "v", None),
        (recorder.got, "c", "k", "v" * 16_385, 1),
        (recorder.got, "c", "k", "v", None),
        (recorder.missed, "c", ""),
        (recorder.deleted, "c", "k", None),
        (recorder.gone, "c", "k", None),
    ]
    for call, *given in wrong:
        check(f"{call.__name__} {str(given)[:40]}", raised(call, *given), "BadRecord")
    check("a client that is no key of a dict", raised(recorder.missed, [], "k"), "TypeError")
    check("nothing is recorded", (recorder.clients(), recorder.trace()), ([], trace(["clients 0 format 2"])))
    recorder.put("c", "k" * 64, "v" * 16_384, 1)
    check("the longest key and value", recorder.verdict(), (0, "accepted: 1 operations, 1 puts\n"))
    recorder.put("c", "k", "v", "a version of another kind")
    check("versions of two kinds", raised(recorder.trace), "TypeError")


def records_in_threads():
    """Each of eight threads records the operations of a client."""
    recorder = cops.Recorder()

    def work(number):
        for turn in range(500):
            recorder.put(number, f"k{turn}", str(number), turn * 8 + number)

    threads = [threading.Thread(target=work, args=(number,)) for number in range(8)]
    for thread in threads:
        thread.start()
    for thread in threads:
        thread.join()
    check("eight threads", recorder.verdict(), (0, "accepted: 4000 operations, 4000 puts\n"))


def is_missing():
    """Without the library, and with another one in its place."""
    for library, words in (("/nowhere/libcops.so", "there is no libcops.so"), (os.path.join(ROOT, "README.md"), "README.md: ")):
        code = "import cops\ntry:\n    cops.audit(b'')\nexcept cops.LibraryFault as fault:\n    print(fault)"
        environment = {**os.environ, "PYTHONPATH": os.path.join(ROOT, "python"), "COPS_LIBRARY": library}
        ran = subprocess.run([sys.executable, "-c", code], env=environment, stdout=subprocess.PIPE, text=True)
        check(f"the library {library}", words in ran.stdout, True)


def exports_three_names():
    names = subprocess.run(["nm", "-D", "--defined-only", os.environ["COPS_LIBRARY"]], stdout=subprocess.PIPE, text=True).stdout
    check("exported names", sorted(line.split()[-1] for line in names.splitlines()), ["cops_audit", "cops_audit_so_far", "cops_check_lines"])


def compared(name, judge):
    """A compiled example says what the program says."""
    for path in EXAMPLES:
        ran = subprocess.run([judge, path], stdout=subprocess.PIPE, text=True)
        check(f"{name}: {os.path.basename(path)}", (ran.returncode, ran.stdout), program("audit", path, stdin=b""))
    with tempfile.NamedTemporaryFile() as empty:
        ran = subprocess.run([judge, empty.name], stdout=subprocess.PIPE, text=True)
        check(f"{name}: no bytes", (ran.returncode, ran.stdout), (2, "faulty: cut at 0\n"))


def is_called_from_other_languages():
    header, archive, examples = (os.path.join(ROOT, "release"), os.path.join(LIBRARY, "libcops.a"), os.path.join(ROOT, "examples", "library"))
    with tempfile.TemporaryDirectory() as folder:
        judge = os.path.join(folder, "judge")
        for compiler in ("cc", "g++"):
            if not shutil.which(compiler):
                skip(f"the example in C by {compiler}", "there is no such compiler")
                continue
            flags = ["-Wall", "-Wextra", "-Werror"] if compiler == "cc" else ["-fpermissive", "-w"]
            subprocess.run([compiler, *flags, "-I", header, os.path.join(examples, "judge.c"), archive, "-o", judge], check=True)
            compared(f"the example in C by {compiler}", judge)
        if not shutil.which("go"):
            return skip("the example in Go", "there is no compiler of Go")
        environment = {**os.environ, "CGO_CFLAGS": f"-I{header}", "CGO_LDFLAGS": archive, "GOCACHE": os.path.join(folder, "cache"), "GO111MODULE": "off"}
        subprocess.run(["go", "build", "-o", judge, os.path.join(examples, "judge.go")], env=environment, check=True)
        compared("the example in Go", judge)


if __name__ == "__main__":
    for test in (
        says_what_the_program_says,
        leaves_the_rest_as_it_was,
        is_large_enough,
        runs_in_threads,
        runs_out_of_memory,
        records,
        records_each_operation,
        refuses_what_no_trace_has,
        records_in_threads,
        is_missing,
        exports_three_names,
        is_called_from_other_languages,
    ):
        test()
    sys.exit(ended())
