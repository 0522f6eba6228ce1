"""Tests of the pictures of faults that the running program draws."""
import os
import shutil
import struct
import subprocess
import tempfile
import xml.etree.ElementTree as ElementTree

from traces import BUILT, ROOT, check, cops, example, skip, trace
from write_trace import TRACE_END, TRACE_GOT, TRACE_HEAD, TRACE_PUT, frame

SVG = "{http://www.w3.org/2000/svg}"
NOT_DRAWN = b"nothing was drawn: there is no such fault\n"

# The label of each example's picture, and the operations that it shows, from left to right, each with the class of its card.
PICTURES = [
    ("doubled", "doubled (0,0)", [("card fault", "(0,0) client 0 put x=1 at 1.0"), ("card", "(1,0) client 1 put x=2 at 1.0")]),
    ("no_source", "no source (1,0)", [("card fault", "(1,0) client 1 got x=1 at 1.0")]),
    ("not_above", "not above (0,1)", [("card", "(0,0) client 0 got a=2 at 1.64"), ("card fault", "(0,1) client 0 put b=1 at 1.0")]),
    (
        "stale",
        "stale (1,1)",
        [
            ("card returned", "(0,0) client 0 put x=1 at 1.0"),
            ("card newer", "(0,1) client 0 put x=2 at 2.0"),
            ("card", "(0,2) client 0 put y=3 at 3.0"),
            ("card", "(1,0) client 1 got y=3 at 3.0"),
            ("card fault", "(1,1) client 1 got x=1 at 1.0"),
        ],
    ),
    (
        "stale_missed",
        "stale (1,1)",
        [
            ("card newer", "(0,1) client 0 put x=2 at 2.0"),
            ("card", "(0,2) client 0 put y=3 at 3.0"),
            ("card", "(1,0) client 1 got y=3 at 3.0"),
            ("card fault", "(1,1) client 1 got nothing at x"),
        ],
    ),
]


def drawn(data, number=1):
    """The picture of the fault of that number in a trace, counted from 1, or `<nothing/>` if there is none."""
    with tempfile.TemporaryDirectory() as folder:
        path = os.path.join(folder, "fault.trace")
        with open(path, "wb") as file:
            file.write(data)
        picture = os.path.join(folder, "fault.svg")
        cops("explain", path, "--fault", str(number), "--picture", picture)
        if not os.path.exists(picture):
            return b"<nothing/>"
        with open(picture, "rb") as file:
            return file.read()


def label_and_cards(picture):
    """The label of a picture, and its cards, each with its class and the operation that it shows, or the number of operations that are left out."""
    svg = ElementTree.fromstring(picture)
    shown = []
    for group in svg.findall(f"{SVG}g"):
        title = group.find(f"{SVG}title")
        shown.append((group.get("class"), "".join((group if title is None else title).itertext())))
    return svg.get("aria-label"), shown


def hostile():
    """Traces with a stale get whose keys and values have bytes with a meaning in XML, and every other byte."""
    texts = [b"]]><script>alert('&\"');</script><!-- ", bytes(range(64)), b"\"/><x a='", b"%" * 64, b"-->"]
    texts += [bytes(range(start, start + 64)) for start in (64, 128, 192)]
    for text in texts:
        size = struct.pack(">B", len(text)) + text + struct.pack(">H", 256) + bytes(range(256))
        names = [struct.pack(">HI", client, index) for client, index in ((0, 0), (0, 1), (1, 0), (1, 1))]
        versions = [struct.pack(">Q", clock * 65536) for clock in (1, 2, 2, 1)]
        kinds = (TRACE_PUT, TRACE_PUT, TRACE_GOT, TRACE_GOT)
        frames = [frame(kind, name + size + version) for kind, name, version in zip(kinds, names, versions)]
        yield b"".join([frame(TRACE_HEAD, struct.pack(">HH", 1, 2)), *frames, frame(TRACE_END, struct.pack(">I", 4))])


def many_clients(clients):
    """The trace of a stale get with a chain through this number of clients."""
    lines = [f"clients {clients}", "0 put x 1 1.0", "0 put x 2 2.0", "0 put c0 1 3.0"]
    for client in range(1, clients):
        lines += [f"{client} got c{client - 1} 1 {client + 2}.0", f"{client} put c{client} 1 {client + 3}.0"]
    return trace([*lines, f"{clients - 1} got x 1 1.0"])


def pictures():
    """Each picture is well-formed, has the label of its fault, and shows what it should. The pictures are also rendered if that is possible."""
    all_drawn = []
    for name, label, shown in PICTURES:
        picture = drawn(example(f"{name}.trace"))
        check(f"the picture of {name}", label_and_cards(picture), (label, shown))
        all_drawn.append((name, picture))
    check("the second doubled put", label_and_cards(drawn(example("doubled.trace"), 2))[0], "doubled (1,0)")
    with open(os.path.join(ROOT, "docs", "stale.svg"), "rb") as file:
        check("docs/stale.svg is the picture of examples/stale.trace", file.read(), dict(all_drawn)["stale"])
    for number, data in enumerate(hostile()):
        picture = drawn(data)
        check(f"a picture of hostile bytes, {number}", (label_and_cards(picture)[0], picture.isascii(), picture.count(b"<script")), ("stale (1,1)", True, 0))
        all_drawn.append((f"hostile bytes, {number}", picture))
    picture = drawn(many_clients(100))
    label, shown = label_and_cards(picture)
    check("a picture of a long chain", (label, len(shown), shown[7]), ("stale (99,2)", 14, ("left", ".. 188 more")))
    left_out = [[card for card in label_and_cards(drawn(many_clients(clients)))[1] if card[0] == "left"] for clients in (6, 7)]
    check("pictures of chains of 12 and of 14", left_out, [[], [("left", ".. 2 more")]])
    all_drawn.append(("a long chain", picture))
    rendered(all_drawn)
    many_others()
    over_inputs()
    to_standard_output()
    not_drawn()


def over_inputs():
    """A file that is read is not overwritten: it stays unchanged."""
    scenario = os.path.join(ROOT, "examples", "two_clients.json")
    with tempfile.TemporaryDirectory() as folder:
        for words, path in ((("explain", "--picture"), os.path.join(ROOT, "examples", "stale.trace")), (("run",), scenario)):
            same, other = os.path.join(folder, words[0]), os.path.join(folder, f"{words[0]}, another name")
            shutil.copyfile(path, same)
            os.link(same, other)
            for name in (same, other):
                check(f"{words[0]} over its own input", cops(words[0], same, *words[1:], name), (4, b"", b"failed: same file\n"))
            with open(same, "rb") as file, open(path, "rb") as source:
                check(f"the input of {words[0]} is as it was", file.read() == source.read(), True)


def to_standard_output():
    """A picture named `-` is written to standard output, and the text to standard error."""
    path = os.path.join(ROOT, "examples", "stale.trace")
    words = cops("explain", path)
    with open(os.path.join(ROOT, "docs", "stale.svg"), "rb") as file:
        picture = file.read()
    with tempfile.TemporaryDirectory() as folder:
        ran = subprocess.run([BUILT, "explain", path, "--picture", "-"], stdout=subprocess.PIPE, stderr=subprocess.PIPE, cwd=folder)
        check("a picture for -", (ran.returncode, ran.stdout, ran.stderr, os.listdir(folder)), (1, picture, words[1], []))
    accepted = subprocess.run([BUILT, "explain", "-", "--picture", "-"], input=example("empty.trace"), stdout=subprocess.PIPE, stderr=subprocess.PIPE)
    expected = b"accepted: 0 operations, 0 puts\n" + NOT_DRAWN
    check("no picture for -", (accepted.returncode, accepted.stdout, accepted.stderr), (0, b"", expected))


def not_drawn():
    """If there is no such fault the file is left empty. If the trace is faulty, an existing file stays unchanged and no new file is created."""
    old = b"<svg/>" * 1_000
    with tempfile.TemporaryDirectory() as folder:
        picture, none = os.path.join(folder, "picture"), os.path.join(folder, "none")
        for name, words, status, left, errors in (
            ("empty.trace", [], 0, b"", NOT_DRAWN),
            ("stale.trace", ["--fault", "2"], 1, b"", NOT_DRAWN),
            ("two_clients.json", [], 2, old, b"this looks like JSON Lines, which `cops import` reads\n"),
        ):
            with open(picture, "wb") as file:
                file.write(old)
            path = os.path.join(ROOT, "examples", name)
            got = cops("explain", path, *words, "--picture", picture)
            with open(picture, "rb") as file:
                check(f"nothing drawn of {name}", (got[0], got[2], file.read() == left), (status, errors, True))
            check(f"nothing drawn of {name} in a new file", cops("explain", path, *words, "--picture", none), got)
            check(f"the new file of {name}", os.path.exists(none), status != 2)
            if os.path.exists(none):
                os.remove(none)
        path = os.path.join(ROOT, "examples", "stale.trace")
        check("a picture in no folder", cops("explain", path, "--picture", "/nothing/there"), (4, b"", b"failed: open\n"))
        check("a picture to a full device", cops("explain", path, "--picture", "/dev/full")[::2], (4, b"failed: write\n"))


def many_others():
    """For 22 puts of one version the first paragraph shows the put, 20 others and the number of the rest; for 21 it shows all of them."""
    for count, last in ((21, b"(20,0) client 20 put k20=1 at 1.0"), (22, b"and 1 more of that version"), (30, b"and 9 more of that version")):
        data = trace([f"clients {count}", *(f"{client} put k{client} 1 1.0" for client in range(count))])
        lines = cops("explain", "-", "--fault", "1", stdin=data)[1].split(b"\n")
        shown = [f"({client},0) client {client} put k{client}=1 at 1.0".encode() for client in range(1, 21)]
        check(f"{count} puts of one version", (lines[5:25], lines[24 if count == 21 else 25]), (shown, last))


def rendered(all_drawn):
    """The rendered size of each picture is the size that it states."""
    if not shutil.which("rsvg-convert"):
        skip("pictures, rendered", "rsvg-convert is not installed")
        return
    for name, picture in all_drawn:
        ran = subprocess.run(["rsvg-convert", "--format", "png"], input=picture, stdout=subprocess.PIPE, stderr=subprocess.PIPE)
        svg = ElementTree.fromstring(picture)
        size = ran.stdout[16:24] if ran.stdout.startswith(b"\x89PNG") else b""
        wanted = struct.pack(">II", int(svg.get("width", "0")), int(svg.get("height", "0")))
        check(f"rendered: {name}", (ran.returncode, size, ran.stderr), (0, wanted, b""))
