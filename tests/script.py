#!/usr/bin/env python3
"""Tests of the script `./cops`, in a small tree in which a shell script replaces the program: in a checkout that cannot be written, through symbolic
links, with each shell, and with a program that cannot run.

Prints a line for each test that fails, and at the end `N passed, M failed`.
"""
import hashlib
import os
import shutil
import subprocess
import sys
import tempfile

sys.dont_write_bytecode = True
from traces import ROOT, check, ended, skip  # noqa: E402

NOBODY = 65534

# The program of the tree. It has a version, and prints its arguments; its exit status is one that the script itself does not use.
PROGRAM = """#!/bin/sh
if [ "$*" = --version ]; then echo "cops of the tests"; exit 0; fi
echo "asked for: $*"
exit 3
"""
REFUSED_BY_THE_LOADER = """#!/bin/sh
echo "version GLIBC_2.34 not found" >&2
exit 1
"""
ANSWER = (3, b"asked for: audit a trace\n", b"")
NOT_OF_THESE = b"cops: release/cops is not the program of these sources: it is proved and built anew, in minutes at the first time\n"


def write(path, text, mode=0o644):
    os.makedirs(os.path.dirname(path), exist_ok=True)
    with open(path, "w", encoding="utf-8") as file:
        file.write(text)
    os.chmod(path, mode)


class Tree:
    """A checkout with one source, and a release that is built from it."""

    def __init__(self, folder, program=PROGRAM):
        os.chmod(folder, 0o755)
        self.root, self.links = os.path.join(folder, "a tree"), os.path.join(folder, "links")
        os.mkdir(self.links)
        for name, text in (("HANDLES", "none\n"), ("crates.txt", "a:\n"), ("crates/a/src/lib.rt", "//! A source.\n")):
            write(self.file(name), text)
        write(self.file("release/cops"), program, 0o755)
        shutil.copy(os.path.join(ROOT, "cops"), self.file("cops"))
        names = ("release/cops", "HANDLES", "crates.txt", "crates/a/src/lib.rt")
        write(self.file("release/SOURCES"), "# SHA-256\n" + "".join(f"{self.hash(name)}  {name}\n" for name in names))

    def file(self, name):
        return os.path.join(self.root, name)

    def hash(self, name):
        with open(self.file(name), "rb") as file:
            return hashlib.sha256(file.read()).hexdigest()

    def answer(self, *before, script=None, folder=None, words=("audit", "a trace")):
        """Status, output and errors of the script, with the words `before` in front of the command. The tree has no `build`."""
        command = [*before, script or self.file("cops"), *words]
        ran = subprocess.run(command, capture_output=True, cwd=folder or "/", env={"PATH": "/usr/local/bin:/usr/bin:/bin"})
        return ran.returncode, ran.stdout, ran.stderr

    def has_stamp(self):
        return any(name.startswith("stamp") for name in os.listdir(self.file("release")))


def on_a_tree(test, *given, **more):
    with tempfile.TemporaryDirectory() as folder:
        test(Tree(folder, **more), *given)


def shells():
    """A name and a prefix for `./cops` as a command, which its first line gives a shell, and for each shell that is installed."""
    yield "as a command", []
    for name in ("dash", "bash"):
        path = shutil.which(name)
        if path:
            yield name, [path]
        else:
            skip(f"./cops under {name}", "it is not installed")


def in_a_plain_tree(tree):
    for name, shell in shells():
        check(f"{name}: the program is run", tree.answer(*shell), ANSWER)
    check("a stamp is left", os.listdir(tree.file("release")).count("stamp"), 1)
    check("nothing else is left", sorted(os.listdir(tree.file("release"))), ["SOURCES", "cops", "stamp"])
    check("a second time", tree.answer(), ANSWER)


def by_links(tree):
    """Through links in another folder: an absolute one, a relative one, and a link to a link."""
    link = os.path.join(tree.links, "cops")
    os.symlink(tree.file("cops"), link)
    os.symlink("../a tree/cops", os.path.join(tree.links, "relative"))
    os.symlink("cops", os.path.join(tree.links, "twice"))
    for name, shell in shells():
        for given in ("cops", "relative", "twice"):
            check(f"{name}: by the link {given}", tree.answer(*shell, script=os.path.join(tree.links, given)), ANSWER)
        check(f"{name}: by a link in the current folder", tree.answer(*shell, script="./relative", folder=tree.links), ANSWER)
    path = f"{tree.links}:/usr/bin:/bin"
    ran = subprocess.run(["cops", "audit", "a trace"], capture_output=True, env={"PATH": path}, cwd="/")
    check("by a link on PATH", (ran.returncode, ran.stdout, ran.stderr), ANSWER)


def as_another_user(tree):
    """The prefix for commands that are to run as a user who does not own the tree. It is empty if the tests do not run as root, since the mode of a folder is
    then enough, and None if this machine does not allow it."""
    if os.geteuid() != 0:
        return []
    words = ["setpriv", f"--reuid={NOBODY}", f"--regid={NOBODY}", "--clear-groups"]
    if shutil.which("setpriv") and not subprocess.run([*words, "test", "-r", tree.file("cops")], capture_output=True).returncode:
        return words
    return None


def mounted_read_only(tree):
    """The prefix for commands that are to see the tree mounted read-only, or None if this machine does not allow it."""
    script = 'mount --bind "$0" "$0" && mount -o remount,bind,ro "$0" && exec "$@"'
    words = ["unshare", "--mount", "sh", "-c", script, tree.root]
    if shutil.which("unshare") and not subprocess.run([*words, "true"], capture_output=True).returncode:
        return words
    return None


def not_written(tree, name, words):
    """In a tree that cannot be written the program is run. A release of other sources is not run, and the status is 4."""
    if words is None:
        skip(f"./cops in a tree {name}", "this machine does not allow it")
        return
    link = os.path.join(tree.links, "cops")
    if not os.path.islink(link):
        os.symlink(tree.file("cops"), link)
    for shell_name, shell in shells():
        for time in ("first", "second"):
            check(f"{shell_name}: in a tree {name}, the {time} time", tree.answer(*words, *shell), ANSWER)
        check(f"{shell_name}: by a link to a tree {name}", tree.answer(*words, *shell, script=link), ANSWER)
    check(f"a tree {name} has no stamp", tree.has_stamp(), False)
    write(tree.file("crates/a/src/more.rt"), "")
    for shell_name, shell in shells():
        status, out, errors = tree.answer(*words, *shell)
        check(f"{shell_name}: other sources in a tree {name}", (status, out, errors.startswith(NOT_OF_THESE)), (4, b"", True))
    os.remove(tree.file("crates/a/src/more.rt"))


def of_another_user(tree):
    words = as_another_user(tree)
    if words == []:
        os.chmod(tree.file("release"), 0o555)
    not_written(tree, "of another user", words)
    os.chmod(tree.file("release"), 0o755)


def read_only(tree):
    not_written(tree, "that is mounted read-only", mounted_read_only(tree))


def does_not_run(tree):
    """A program that the loader rejects, whose status would be that of a refused trace, and one that cannot be executed."""
    why = f"cops: {tree.file('release/cops')} does not run on this machine: it needs x86-64 Linux with glibc 2.34 or newer\n".encode()
    for name, shell in shells():
        check(f"{name}: the loader refuses the program", tree.answer(*shell), (4, b"", why))
    os.chmod(tree.file("release/cops"), 0o644)
    for name, shell in shells():
        check(f"{name}: the program cannot be executed", tree.answer(*shell), (4, b"", why))


def lacks_a_tool(tree):
    """If a tool that the script needs is missing, the script reports that."""
    bin_folder = os.path.join(tree.links, "bin")
    os.mkdir(bin_folder)
    for tool in ("dirname", "find", "sed", "sort"):
        os.symlink(shutil.which(tool), os.path.join(bin_folder, tool))
    for name, shell in (("sh", ["/bin/sh"]), *((name, shell) for name, shell in shells() if shell)):
        ran = subprocess.run([*shell, tree.file("cops"), "audit"], capture_output=True, env={"PATH": bin_folder})
        wanted = (4, b"", b"cops: the command sha256sum is not on PATH\n")
        check(f"{name}: without sha256sum", (ran.returncode, ran.stdout, ran.stderr), wanted)


for tests in (in_a_plain_tree, by_links, of_another_user, read_only, lacks_a_tool):
    on_a_tree(tests)
on_a_tree(does_not_run, program=REFUSED_BY_THE_LOADER)
sys.exit(ended())
