"""Prints the words with which rt has rattle build a program, one a line.

The words are KIT ROOT NAME: the folder of rt's kit, the top of a repository whose libraries `rt ci` has built, and the name
of the program's crate. They come from rt's own script, so that what tools/release builds is what the gate builds.
"""
import importlib.machinery
import importlib.util
import inspect
import os
import sys

sys.dont_write_bytecode = True


def rt_of(kit):
    """Returns the script rt of a kit as a module."""
    loader = importlib.machinery.SourceFileLoader("rt", f"{kit}/bin/rt")
    module = importlib.util.module_from_spec(importlib.util.spec_from_loader("rt", loader))
    loader.exec_module(module)
    return module


def crates_in(rt, root):
    """Returns the crates of the repository, which stay as they are: some kits' own list of them first sets aside what was built."""
    if len(inspect.signature(rt.crates_of).parameters) == 1:
        return rt.crates_of(root)
    rt.rtlib.Crate = rt.Crate
    return rt.rtlib.crates_below(root)


def main(kit, root, name):
    rt = rt_of(kit)
    os.chdir(root)
    # as `rt ci` has it: the crates above a library load its statements
    rt.Crate.cuts_libraries = True
    rt.Crate.allowed = rt.handles_of(root)
    crate = next(crate for crate in crates_in(rt, root) if crate.name == name)
    print(*crate.words(["--jobs", "1"], keeps=False), sep="\n")


if __name__ == "__main__":
    main(*sys.argv[1:])
