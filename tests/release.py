#!/usr/bin/env python3
"""Tests of the release, with nothing but the tools of a shell on PATH. The program and the library in release/ are those that were proved and built here.
release/cops is run if the sources are those that it was built from. If they are not, or if it is another program, it is not run.

Prints a line for each test that fails, and at the end `N passed, M failed`.
"""
import filecmp
import os
import shutil
import subprocess
import sys
import tempfile

sys.dont_write_bytecode = True
from traces import ROOT, VERSION, check, ended, skip  # noqa: E402

TOOLS = ("sh", "dirname", "find", "mv", "rm", "sed", "sha256sum", "sort", "touch")
ANSWER = (0, b"accepted: 2 operations, 1 puts\n", b"")
NOT_OF_THESE = b"cops: release/cops is not the program of these sources: it is proved and built anew, in minutes at the first time\n"
NO_TOOLCHAIN = (4, b"", NOT_OF_THESE + b"cops: the command rt of the Rattle kit is not on PATH\n")
MADE_WITH = "# Proved and built with "
PAGES = ("cops.1", "cops.bash", "_cops", "cops.fish")
# What is released, from which crate.
MADE = {"cops": "cops", "libcops.a": "cops_c_interface", "libcops.so": "cops_c_interface"}
BUILD = """#!/bin/sh
mkdir -p "$(dirname "$0")/crates/cops/out" && cp "$(dirname "$0")/release/cops" "$(dirname "$0")/crates/cops/out/cops"
"""


def written(path, text):
    with open(path, "w", encoding="utf-8") as file:
        file.write(text)
    os.chmod(path, 0o755)


def one_byte_changed(path):
    with open(path, "r+b") as file:
        file.seek(1000)
        byte = file.read(1)[0]
        file.seek(1000)
        file.write(bytes([byte ^ 1]))


class Copy:
    """A copy of the tree as in a fresh clone, and a PATH with only the shell's tools."""

    def __init__(self, folder):
        self.root, self.path = os.path.join(folder, "tree"), os.path.join(folder, "tools")
        made_here = shutil.ignore_patterns("out", ".git", "stamp*", "__pycache__")
        shutil.copytree(ROOT, self.root, ignore=made_here)
        os.mkdir(self.path)
        self.add(*TOOLS)

    def add(self, *tools):
        for tool in tools:
            os.symlink(shutil.which(tool), os.path.join(self.path, tool))

    def file(self, *names):
        return os.path.join(self.root, *names)

    def answer(self):
        """Status, output and errors of an audit."""
        trace = self.file("examples", "put_and_get.trace")
        ran = subprocess.run([self.file("cops"), "audit", trace], env={"PATH": self.path}, capture_output=True)
        return ran.returncode, ran.stdout, ran.stderr


def on_a_copy(test):
    with tempfile.TemporaryDirectory() as folder:
        test(Copy(folder))


def logic_of(toolchain):
    """The logic of a release of the toolchain, for which `rt version` prints `TOOLCHAIN logic LOGIC`."""
    return toolchain.rpartition(" logic ")[2]


def toolchain_of(root):
    """The toolchain that a tree's release names."""
    with open(os.path.join(root, "release", "SOURCES"), encoding="utf-8") as file:
        return next(line for line in file if line.startswith(MADE_WITH)).removeprefix(MADE_WITH).strip()


def differences(root, toolchain):
    """What is wrong with the release of a tree, given that this toolchain built the program and the library from the tree. All toolchains with the same logic
    build the same bytes."""
    hashes = subprocess.run(["sha256sum", "-c", "--status", "release/SOURCES"], cwd=root)
    for name, crate in MADE.items():
        if not filecmp.cmp(os.path.join(ROOT, "crates", crate, "out", name), os.path.join(root, "release", name), shallow=False):
            yield f"release/{name} is not what was proved: release/make has to run after a change of what it is made of"
    if hashes.returncode:
        yield "release/SOURCES names other files than there are: release/make has to run"
    if logic_of(toolchain_of(root)) != logic_of(toolchain):
        yield "release/SOURCES names another logic"


def is_what_was_proved():
    program = os.path.join(ROOT, "crates", "cops", "out", "cops")
    toolchain = subprocess.run(["rt", "version"], stdout=subprocess.PIPE, text=True).stdout.strip()
    check("the release", list(differences(ROOT, toolchain)), [])
    printed = subprocess.run([program, "--version"], stdout=subprocess.PIPE, text=True).stdout
    check("the version names the toolchain and the logic", printed, f"cops {VERSION} ({toolchain_of(ROOT).replace(' logic', ', logic')})\n")

    def changed(name):
        def report(copy):
            one_byte_changed(copy.file("release", name))
            check(f"a changed byte of {name} is reported", len(list(differences(copy.root, toolchain))), 2)

        return report

    def other_logic(copy):
        check("another logic is reported", len(list(differences(copy.root, "rattle-kit-0 logic 0"))), 1)

    for name in MADE:
        on_a_copy(changed(name))
    on_a_copy(other_logic)


def has_its_pages():
    """The man page and the completions are those of this program, and the shells that are here can read them."""
    program = os.path.join(ROOT, "crates", "cops", "out", "cops")
    with tempfile.TemporaryDirectory() as folder:
        subprocess.run([sys.executable, os.path.join(ROOT, "release", "pages"), program, folder], check=True)
        for name in PAGES:
            released = os.path.join(ROOT, "release", name)
            check(f"release/{name}", os.path.exists(released) and filecmp.cmp(os.path.join(folder, name), released, shallow=False), True)
    for shell, name in (("bash", "cops.bash"), ("zsh", "_cops"), ("fish", "cops.fish")):
        if shutil.which(shell):
            ran = subprocess.run([shell, "-n", os.path.join(ROOT, "release", name)], capture_output=True)
            check(f"{shell} reads release/{name}", (ran.returncode, ran.stderr), (0, b""))
        else:
            skip(f"{shell} reads release/{name}", f"{shell} is not installed")
    for words, wanted in ((["cops", "ch"], "check"), (["cops", "audit", "--w"], "--workers"), (["cops", "serve", "7070", "--s"], "--sessions")):
        code = f"source release/cops.bash; COMP_WORDS=({' '.join(words)}); COMP_CWORD={len(words) - 1}; _cops; echo ${{COMPREPLY[@]}}"
        ran = subprocess.run(["bash", "-c", code], cwd=ROOT, stdout=subprocess.PIPE, text=True)
        check(f"bash completes {words}", ran.stdout, f"{wanted}\n")


def is_run(copy):
    check("the first command", copy.answer(), ANSWER)
    check("the stamp", os.path.exists(copy.file("release", "stamp")), True)
    check("the second command", copy.answer(), ANSWER)


def is_not_run_when_changed(copy):
    check("a command before", copy.answer(), ANSWER)
    one_byte_changed(copy.file("release", "cops"))
    check("the program is changed", copy.answer(), NO_TOOLCHAIN)


def is_not_run_of_other_sources(copy):
    source = copy.file("crates", "cops_command_line", "src", "lib.rt")
    with open(source, encoding="utf-8") as file:
        text = file.read()
    check("a command before an edit", copy.answer(), ANSWER)
    written(source, text + "\n")
    check("a source is edited", copy.answer(), NO_TOOLCHAIN)
    written(source, text)
    check("it is as it was", copy.answer(), ANSWER)
    written(copy.file("crates", "cops_command_line", "src", "more.rt"), "")
    check("a source is added", copy.answer(), NO_TOOLCHAIN)
    os.remove(copy.file("crates", "cops_command_line", "src", "more.rt"))
    check("it is removed", copy.answer(), ANSWER)
    os.remove(copy.file("crates", "cops_types", "specs", "Lib.antt"))
    check("a definition is removed", copy.answer(), NO_TOOLCHAIN)


def is_built_of_other_sources(copy):
    """With the toolchain on PATH, the program of the edited sources is built and run. Stubs replace the command `rt` and the build, which would take
    minutes."""
    copy.add("cp", "mkdir")
    written(os.path.join(copy.path, "rt"), "#!/bin/sh\n")
    written(copy.file("build"), BUILD)
    written(copy.file("crates", "cops_command_line", "src", "more.rt"), "")
    check("it is built", copy.answer(), (0, ANSWER[1], NOT_OF_THESE + b"cops: built\n"))
    check("once", copy.answer(), ANSWER)
    written(copy.file("build"), "#!/bin/sh\nexit 1\n")
    check("until a source is edited again", copy.answer(), ANSWER)
    written(copy.file("crates", "cops_command_line", "src", "more.rt"), "\n")
    check("where it is not built", copy.answer(), (4, b"", NOT_OF_THESE + b"cops: the program was not built: see above\n"))


is_what_was_proved()
has_its_pages()
for tests in (is_run, is_not_run_when_changed, is_not_run_of_other_sources, is_built_of_other_sources):
    on_a_copy(tests)
sys.exit(ended())
