"""Tests of deletions in traces: their records, which only format 2 has, how they are shown, and gets that found a deletion."""
from traces import audited, check, cops, example, trace

# The only client deletes x, and then finds that deletion.
DELETED = ["clients 1 format 2", "0 del x 1.0", "0 gone x 1.0"]


WHOLE = trace(DELETED)
HEAD, DEL, GONE, END = WHOLE[:9], WHOLE[9:30], WHOLE[30:51], WHOLE[51:]
IN_FORMAT_1 = WHOLE[:6] + b"\1" + WHOLE[7:]

# Changed bytes, and their faults.
FAULTS = [
    ("a deletion in format 1", IN_FORMAT_1, "unknown kind at 9"),
    ("a get that found a deletion in format 1", IN_FORMAT_1[:9] + GONE + END, "unknown kind at 9"),
    ("format 3", WHOLE[:6] + b"\3" + WHOLE[7:], "bad format at 0"),
    ("a deletion first", DEL + WHOLE, "unknown kind at 0"),
    ("a deletion of version 0", WHOLE[:22] + bytes(8) + WHOLE[30:], "bad field at 22"),
    ("a deletion of no key", WHOLE[:20] + b"\0" + WHOLE[21:], "bad field at 20"),
    ("a deletion and a byte", HEAD + bytes.fromhex("00000012") + DEL[4:] + b"\0" + GONE + END, "trailing bytes at 9"),
    ("a deletion by another client", WHOLE[:15] + b"\1" + WHOLE[16:], "client out of range at 9"),
    ("a deletion out of turn", WHOLE[:19] + b"\1" + WHOLE[20:], "index out of turn at 9"),
    ("a deletion that a client asks for", HEAD + bytes.fromhex("0000000716000000010178") + GONE + END, "not a record at 9"),
    ("kind 28", WHOLE[:13] + b"\x1c" + WHOLE[14:], "unknown kind at 9"),
    ("a deletion behind the end", WHOLE + DEL, "bytes after end at 60"),
]


def end_of_records(count):
    """Where the last whole record of the first `count` bytes ends."""
    return max(end for end in (0, 9, 30, 51) if end <= count)


def audits():
    text = "000000051100020001" "000000111a00000000000001780000000000010000" "000000111b00000000000101780000000000010000" "000000051500000002"
    check("a deletion by hand", WHOLE.hex(), text)
    audited("a deletion by hand", WHOLE, "accepted: 2 operations, 1 puts\n", 0)
    for name, data, words in FAULTS:
        check(name, cops(stdin=data), (2, f"faulty: {words}\n".encode(), b""))
    for count in range(len(WHOLE)):
        at = end_of_records(count)
        check(f"the first {count} bytes of a deletion", cops(stdin=WHOLE[:count]), (2, f"faulty: cut at {at}\n".encode(), b""))
        wanted = (0, f"cut at {at}\nso far: clean\n".encode(), b"")
        check(f"what is said of the first {count} bytes of a deletion", cops("audit", "-", "--so-far", stdin=WHOLE[:count]), wanted)
    waiting = trace(["clients 1 format 2", "0 gone x 1.0"])[:-9]
    check("a get before its deletion", cops("audit", "-", "--so-far", stdin=waiting), (0, b"cut at 30\nso far: waiting 1\n", b""))


def shown():
    head = b"TraceHead format=2 clients=1\n"
    lines = b"TraceDel client=0 index=0 key=x version=1.0\nTraceGone client=0 index=1 key=x version=1.0\nTraceEnd ops=2\n"
    check("show of a deletion", cops("show", "-", stdin=WHOLE), (0, head + lines, b""))
    wanted = (2, head.replace(b"=2 ", b"=1 ") + b"faulty: unknown kind at 9\n", b"")
    check("show of a deletion in format 1", cops("show", "-", stdin=IN_FORMAT_1), wanted)


def without_deletions():
    """Traces without deletions have the same audit in both formats."""
    one, two = (example("stale.ops").decode().replace("clients 2", f"clients 2 format {number}").split("\n") for number in (1, 2))
    check("format 1 by its name", trace(one), example("stale.trace"))
    check("a trace of format 2 without deletions", cops(stdin=trace(two)), cops(stdin=example("stale.trace")))


def without_source():
    """A deletion is no source of a get that returned a value, and a put of a value is no source of a get that found a deletion."""
    before = example("deleted.ops").decode().strip().split("\n")[:-1]
    for operation, version in (("gone x", "1.0"), ("got x 1", "2.0"), ("gone y", "2.0"), ("gone x", "9.0")):
        text = f"refused: 5 operations, 3 puts, 1 faults\nno source (1,1) at {version}\n"
        lines = [*before, f"1 {operation} {version}"]
        check(f"{operation} at {version} behind a deletion", cops(stdin=trace(lines)), (1, text.encode(), b""))


def deletions():
    audits()
    shown()
    without_deletions()
    without_source()
