"""The judge of the program cops on bytes in memory: is what the clients of a store saw causally convergent?

Judge traces with `audit` and `so_far`, JSON Lines with `check_lines`, or record what clients see with a `Recorder` and ask for its `verdict`:

    recorder = cops.Recorder()
    recorder.put("alice", "photo", b"old", version=1)
    recorder.got("bob", "photo", b"old", version=1)
    assert recorder.verdict().accepted

The module is for Python 3.8 or later on Linux on x86-64, and depends on nothing but the shared library libcops.so, in which the judge is proved. It looks for
that library at the path in the environment variable COPS_LIBRARY, then beside this file, and then in ../release. docs/FORMATS.md describes the bytes of a
trace, the lines and the texts.
"""
import ctypes
import enum
import json
import os
import struct
import threading
import typing

__all__ = ["BadRecord", "LibraryFault", "Recorder", "Status", "Verdict", "audit", "check_lines", "so_far"]

_HERE = os.path.dirname(os.path.abspath(__file__))
_OUT_OF_MEMORY, _TOO_SMALL = 3, 5
_FIRST_BUFFER = 4096


class Status(enum.IntEnum):
    """How a judgement ends, with the exit status of the program for it."""

    ACCEPTED = 0
    REFUSED = 1
    FAULTY = 2


class LibraryFault(Exception):
    """The library libcops.so is not there, or is not one of these functions."""


class BadRecord(ValueError):
    """An operation that no trace can have: see `Recorder`."""


class Verdict(typing.NamedTuple):
    """What the judge says: the status, and its text, which for traces is that of `cops audit` and for lines the JSON of `cops check --json`."""

    status: Status
    text: str

    @property
    def accepted(self) -> bool:
        """Whether the bytes are one history, and that is causally convergent. Of a cut trace: whether no fault lasts so far."""
        return self.status == Status.ACCEPTED

    def json(self) -> typing.Any:
        """The verdict on lines as an object. Raises ValueError for the text of a trace, which is no JSON."""
        return json.loads(self.text)


def _paths() -> typing.Iterator[str]:
    if "COPS_LIBRARY" in os.environ:
        yield os.environ["COPS_LIBRARY"]
        return
    yield os.path.join(_HERE, "libcops.so")
    yield os.path.join(_HERE, os.pardir, "release", "libcops.so")


def _library() -> ctypes.CDLL:
    found = next((path for path in _paths() if os.path.exists(path)), None)
    if found is None:
        raise LibraryFault("there is no libcops.so: set COPS_LIBRARY to its path")
    try:
        library = ctypes.CDLL(found)
        for name, flags in (("cops_audit", []), ("cops_audit_so_far", []), ("cops_check_lines", [ctypes.c_bool])):
            function = getattr(library, name)
            function.restype = ctypes.c_uint8
            # The bytes with their length, the flags, the buffer with its length, and where the length of the text goes.
            function.argtypes = [ctypes.c_char_p, ctypes.c_size_t, *flags, ctypes.c_void_p, ctypes.c_size_t, ctypes.POINTER(ctypes.c_size_t)]
    except (OSError, AttributeError) as fault:
        raise LibraryFault(f"{found}: {fault}") from fault
    return library


_lock, _loaded = threading.Lock(), None


def _loaded_library() -> ctypes.CDLL:
    global _loaded
    with _lock:
        if _loaded is None:
            _loaded = _library()
        return _loaded


def _judged(name: str, data: bytes, *flags: bool) -> Verdict:
    """Calls a function of the library, once more with a larger buffer if the text does not fit the first one."""
    call, data, size = getattr(_loaded_library(), name), bytes(data), _FIRST_BUFFER
    while True:
        buffer, written = ctypes.create_string_buffer(size), ctypes.c_size_t()
        status = call(data, len(data), *flags, buffer, size, ctypes.byref(written))
        if status == _OUT_OF_MEMORY:
            raise MemoryError("the judge ran out of memory")
        if status != _TOO_SMALL:
            return Verdict(Status(status), buffer.raw[: written.value].decode())
        size = written.value


def audit(data: bytes) -> Verdict:
    """Judges the bytes of a trace: accepted where they are those of one history that is causally convergent, refused where it has faults, and faulty where they
    are no trace's. Any bytes have an answer. Raises MemoryError if memory runs out, and LibraryFault without the library."""
    return _judged("cops_audit", data)


def so_far(data: bytes) -> Verdict:
    """Judges the bytes of a trace that may be cut, as those of a run that goes on. Where they are not cut it answers as `audit`. Where they are, the text says
    where, and `so far: clean`, `so far: waiting N` or `so far: refused`; only the last is refused. Raises as `audit`."""
    return _judged("cops_audit_so_far", data)


def check_lines(lines: typing.Union[bytes, str], ranked: bool = False) -> Verdict:
    """Judges JSON Lines, an operation each, and explains the faults by the lines' clients and numbers; `json()` of the verdict is the object. With `ranked`
    versions are any numbers below 2^64, texts, or pairs of both. Raises as `audit`."""
    return _judged("cops_check_lines", lines.encode() if isinstance(lines, str) else lines, ranked)


_HEAD, _PUT, _GOT, _MISSED, _END, _DEL, _GONE = 17, 18, 19, 20, 21, 26, 27
_FORMAT = 2
_MOST_CLIENTS, _MOST_OPS, _MOST_OPS_OF_ONE = 65_535, 16_000_000, 1_000_000
_LONGEST_KEY, _LONGEST_VALUE = 64, 16_384


def _frame(kind: int, fields: bytes) -> bytes:
    return struct.pack(">IB", len(fields) + 1, kind) + fields


def _as_bytes(text: typing.Union[bytes, str]) -> bytes:
    return text.encode() if isinstance(text, str) else bytes(text)


class _Operation(typing.NamedTuple):
    client: int
    kind: int
    # The key, and the value if the operation has one, each after its length.
    content: bytes
    # None for a get that found nothing.
    version: typing.Any


class Recorder:
    """Records what the clients of a store see. Any thread may record, but the operations of one client must be recorded in their order.

    Clients are any values that can be the keys of a dict. Keys have 1 to 64 bytes and values at most 16,384; a str stands for its bytes in UTF-8. Versions are
    any values of one kind that have an order, such as numbers or pairs of a time and the name of a node: the store's own, in which the last of two writes of a
    key has the greater one. Each write needs a version of its own. The trace has their ranks.

    Each call raises BadRecord, and records nothing, where a key is empty or too long, a value is too long, a version is None, or there are already 65,535 other
    clients, 1,000,000 operations of the client or 16,000,000 of all.
    """

    def __init__(self) -> None:
        self._lock = threading.Lock()
        self._clients: typing.Dict[typing.Hashable, int] = {}
        self._counts: typing.List[int] = []
        self._operations: typing.List[_Operation] = []

    def put(self, client: typing.Hashable, key: typing.Union[bytes, str], value: typing.Union[bytes, str], version: typing.Any) -> None:
        """The client wrote the value, and the store gave the write this version."""
        self._record(client, _PUT, key, value, version)

    def got(self, client: typing.Hashable, key: typing.Union[bytes, str], value: typing.Union[bytes, str], version: typing.Any) -> None:
        """The client read the key, and got this value with the version of its write."""
        self._record(client, _GOT, key, value, version)

    def missed(self, client: typing.Hashable, key: typing.Union[bytes, str]) -> None:
        """The client read the key, and found that it was never written."""
        self._record(client, _MISSED, key, None, None)

    def deleted(self, client: typing.Hashable, key: typing.Union[bytes, str], version: typing.Any) -> None:
        """The client deleted the key, and the store gave the deletion this version."""
        self._record(client, _DEL, key, None, version)

    def gone(self, client: typing.Hashable, key: typing.Union[bytes, str], version: typing.Any) -> None:
        """The client read the key, and found the deletion with this version."""
        self._record(client, _GONE, key, None, version)

    def trace(self) -> bytes:
        """The trace of what was recorded so far, in format 2. Raises TypeError where versions have no order among themselves."""
        with self._lock:
            operations, clients = self._operations[:], len(self._clients)
        ranks = {version: rank for rank, version in enumerate(sorted({it.version for it in operations if it.version is not None}), 1)}
        indices, frames = [0] * clients, [_frame(_HEAD, struct.pack(">HH", _FORMAT, clients))]
        for client, kind, content, version in operations:
            clock = b"" if version is None else struct.pack(">Q", ranks[version] << 16)
            frames.append(_frame(kind, struct.pack(">HI", client, indices[client]) + content + clock))
            indices[client] += 1
        frames.append(_frame(_END, struct.pack(">I", len(operations))))
        return b"".join(frames)

    def verdict(self) -> Verdict:
        """The audit of what was recorded so far. Its names are of clients by their numbers, in the order in which they first came. Raises as `audit` and
        `trace`."""
        return audit(self.trace())

    def clients(self) -> typing.List[typing.Hashable]:
        """The clients, each at the number by which the verdict names it."""
        with self._lock:
            return list(self._clients)

    def _record(self, client, kind, key, value, version) -> None:
        content = _key(key) + (b"" if value is None else _value(value))
        if version is None and kind != _MISSED:
            raise BadRecord("an operation without a version")
        with self._lock:
            number = self._number(client)
            self._counts[number] += 1
            self._operations.append(_Operation(number, kind, content, version))

    def _number(self, client: typing.Hashable) -> int:
        """The client's number, if there may be one more operation of it."""
        if len(self._operations) == _MOST_OPS:
            raise BadRecord("16,000,000 operations are recorded already")
        number = self._clients.get(client)
        if number is None:
            if len(self._clients) == _MOST_CLIENTS:
                raise BadRecord("there are 65,535 clients already")
            number = self._clients[client] = len(self._clients)
            self._counts.append(0)
        elif self._counts[number] == _MOST_OPS_OF_ONE:
            raise BadRecord("1,000,000 operations of the client are recorded already")
        return number


def _key(key: typing.Union[bytes, str]) -> bytes:
    data = _as_bytes(key)
    if not 1 <= len(data) <= _LONGEST_KEY:
        raise BadRecord(f"a key of {len(data)} bytes")
    return struct.pack(">B", len(data)) + data


def _value(value: typing.Union[bytes, str]) -> bytes:
    data = _as_bytes(value)
    if len(data) > _LONGEST_VALUE:
        raise BadRecord(f"a value of {len(data)} bytes")
    return struct.pack(">H", len(data)) + data
