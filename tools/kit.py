"""The toolchain's own command `rt` as a module: what a crate stands on, the flags of a check, and lanes of tasks."""
import importlib.machinery
import importlib.util
import os
import shutil
import sys


def load():
    """The module behind the command `rt` of the PATH."""
    at = shutil.which("rt")
    if not at:
        print("the Rattle toolchain is missing: there is no command 'rt' on the PATH", file=sys.stderr)
        sys.exit(3)
    loader = importlib.machinery.SourceFileLoader("rt_of_kit", os.path.realpath(at))
    spec = importlib.util.spec_from_loader("rt_of_kit", loader)
    made = importlib.util.module_from_spec(spec)
    loader.exec_module(made)
    return made


rt = load()
rtlib = rt.rtlib


def crates_of_gate():
    """Each crate of the repository in this folder, lowest first, with libraries built as the gate builds them: statements alone."""
    rtlib.guarded()
    rtlib.Crate.cuts_libraries = True
    rtlib.Crate = rt.Crate
    return sorted(rtlib.crates_below(os.getcwd()), key=lambda it: len(it.below()))
