"""Access to the Rattle toolchain: the Python module behind its command `rt`, which knows a repository's crates."""
import importlib.machinery
import importlib.util
import os
import shutil
import subprocess
import sys
import tempfile

ROOT = os.path.dirname(os.path.dirname(os.path.abspath(__file__)))

# The files of the library libcops, and its functions.
LIBRARIES = ("libcops.a", "libcops.so")
EXPORTS = ("cops_audit", "cops_audit_so_far", "cops_check_lines")


def toolchain():
    """The module of the command `rt`, whose `rtlib` knows crates and how to build them. Exits if there is no such command."""
    command = shutil.which("rt")
    if not command:
        sys.exit("the command rt of the Rattle kit is not on PATH")
    sys.dont_write_bytecode = True
    loader = importlib.machinery.SourceFileLoader("rt", os.path.realpath(command))
    module = importlib.util.module_from_spec(importlib.util.spec_from_loader("rt", loader))
    loader.exec_module(module)
    # Crates as the toolchain's gate defines them: what a crate may do is limited to the repository's HANDLES.
    module.rtlib.Crate = module.Crate
    module.Crate.allowed = module.handles_of(ROOT)
    return module


def build_program(module, crate, flags):
    """Proves a program and compiles it in the same process, because loading its dependencies takes most of the time. Returns the status, 0 on success. The
    toolchain's gate uses three processes, the last of which compiles with a second compiler."""
    words, to = crate.words(flags, keeps=False), f"out/{crate.name}"
    status = crate.prove(["build", *words, "--toolchain", f"{module.KIT}/toolchain", "--backend", "llvm", "-o", f"{to}.o"])
    return status or crate.link(f"{to}.o", to)


def build_library(module, crate, flags):
    """Proves a static library, compiles it in the same process, and links it as libcops.a and libcops.so. Returns the status, 0 on success."""
    words, archive = crate.words(flags, keeps=False), f"out/{crate.name}.a"
    status = crate.prove(["build", *words, "--toolchain", f"{module.KIT}/toolchain", "--backend", "llvm", "-o", archive])
    return status or link_library(module.KIT, crate.folder)


def link_library(kit, folder):
    """Links the archive in a crate's out/ with the allocation functions of the toolchain: as an archive, and as a shared library that exports only `EXPORTS`.
    Returns the status, 0 on success."""
    tools, archives = f"{kit}/toolchain/bin", [f"{folder}/out/{os.path.basename(folder)}.a", f"{kit}/c/liblibc_c.a"]
    with tempfile.TemporaryDirectory() as objects:
        for archive in archives:
            subprocess.run([f"{tools}/llvm-ar", "x", os.path.abspath(archive)], cwd=objects, check=True)
        names = sorted(os.listdir(objects))
        subprocess.run([f"{tools}/llvm-ar", "rcsD", "libcops.a", *names], cwd=objects, check=True)
        with open(f"{objects}/exports", "w", encoding="utf-8") as file:
            file.write(f"{{ global: {' '.join(f'{name};' for name in EXPORTS)} local: *; }};\n")
        flags = ["-shared", "--gc-sections", "-soname", "libcops.so", "--version-script", "exports", "-o", "libcops.so"]
        subprocess.run([f"{tools}/ld.lld", *flags, *names, f"{kit}/toolchain/lib/libc.so.6"], cwd=objects, check=True)
        for made in LIBRARIES:
            shutil.copyfile(f"{objects}/{made}", f"{folder}/out/{made}")
    return 0


def crate_of(module, name):
    """The crate of that name, or None."""
    return next((it for it in module.rtlib.crates_below(ROOT) if it.name == name), None)
