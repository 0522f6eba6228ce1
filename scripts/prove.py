#!/usr/bin/env python3
"""The toolchain's gate, `rt ci`, with four differences. It leaves out the mutations of must-fail/: ./tried checks only the functions that they change, where
the gate proves the whole crate again. It compiles programs with one compiler instead of two. It compiles and links the static library too. It proves a crate
without dependencies, for which all others wait, with one process for each processor. The output and the exit status are those of the toolchain."""
import os
import sys

from toolchain import LIBRARIES, build_library, build_program, toolchain


def override_steps(module):
    """Overrides steps of the toolchain: programs and static libraries are proved and compiled as in `./build`, and a crate without dependencies is proved on
    all processors."""
    toolchain_ci = module.Crate.ci

    def ci(crate, flags, tests):
        if crate.is_program and not tests:
            return build_program(module, crate, flags)
        if crate.is_static and not tests:
            return build_library(module, crate, flags)
        if not crate.below():
            flags = ["--jobs", str(module.processors())]
        return toolchain_ci(crate, flags, tests)

    module.Crate.ci, module.BACKENDS = ci, {"llvm": ""}
    keep_static(module.Kept)


def keep_static(kept):
    """Has the toolchain keep the files of a static library, as it does those of a program, for later runs on this machine."""
    made, is_whole = kept.made, kept.is_whole

    def made_here(self, crate, tests):
        if tests or not crate.is_static:
            return made(self, crate, tests)
        return [name for name in LIBRARIES if os.path.isfile(f"{crate.folder}/out/{name}")]

    def is_whole_here(self, crate, tests, files):
        return files == [*LIBRARIES] if crate.is_static and not tests else is_whole(self, crate, tests, files)

    kept.made, kept.is_whole = made_here, is_whole_here


if __name__ == "__main__":
    module = toolchain()
    module.edits_of = lambda crate: ([], [])
    override_steps(module)
    # Some releases of the toolchain first check the free space on the disk.
    sys.exit(module.where_disk_lasts(module.ci, False) if hasattr(module, "where_disk_lasts") else module.ci())
