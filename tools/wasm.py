#!/usr/bin/env python3
"""Makes the library's WebAssembly of its proved module, by the toolchain's compiler and linker alone.

usage, at the top of a copy of the repository, over the libraries that earlier checks left in out/:  wasm.py TO

The module is what `rattle` hands its compiler for x86-64: the proved code, lowered. Of it the target and what is said of x86-64 alone
are taken out; it and lib/wasm/, a heap and moves of bytes, are compiled for wasm64 and linked. Calls are those of lib/luffaknife.h, as
C's convention has them there: a struct is answered through a pointer that is handed first.
"""
import os
import re
import shutil
import subprocess
import sys
import tempfile

sys.dont_write_bytecode = True
from kit import crates_of_gate, rt

CRATE = "fc_exports"
TARGET = "--target=wasm64-unknown-unknown"
# What says something of x86-64 alone.
OTHER_TARGET = re.compile(r'^target (?:datalayout|triple) = .*$| ?"(?:probe-stack|stack-probe-size|target-cpu)"="[^"]*"', re.MULTILINE)
CALLS = re.compile(r"^(?:struct luffaknife_call|uint32_t) (luffaknife_\w+)\(", re.MULTILINE)
# The greatest size of memory, and of the stack.
MEMORY, STACK = 8 << 30, 2 << 20


def run(*words, **named):
    subprocess.run(words, check=True, stdin=subprocess.DEVNULL, **named)


def spied_toolchain(room):
    """A toolchain whose compiler leaves the module that it is handed in the room."""
    made = f"{room}/toolchain"
    os.makedirs(f"{made}/bin")
    real = f"{rt.KIT}/toolchain"
    for name in os.listdir(real):
        if name != "bin":
            os.symlink(f"{real}/{name}", f"{made}/{name}")
    for name in os.listdir(f"{real}/bin"):
        if name != "clang":
            os.symlink(f"{real}/bin/{name}", f"{made}/bin/{name}")
    with open(f"{made}/bin/clang", "w", encoding="utf-8") as it:
        it.write(f'#!/bin/sh\nfor word; do case $word in *.bc) cp "$word" "{room}/module.bc" ;; esac; done\nexec "{real}/bin/clang" "$@"\n')
    os.chmod(f"{made}/bin/clang", 0o755)
    return made


def module_of(crate, room):
    """The module of the proved crate, as text."""
    words = crate.words(["--jobs", "1"], keeps=False)
    kind = ["--toolchain", spied_toolchain(room), "--backend", "llvm", "-o", f"{room}/lib{crate.name}.a"]
    run(rt.rtlib.RATTLE, "build", *words, *kind, cwd=crate.folder, stdout=sys.stderr)
    clang = f"{rt.KIT}/toolchain/bin/clang"
    run(clang, "--no-default-config", "-x", "ir", "-S", "-emit-llvm", "-Xclang", "-disable-llvm-passes", f"{room}/module.bc", "-o", f"{room}/module.ll")
    with open(f"{room}/module.ll", encoding="utf-8") as it:
        return OTHER_TARGET.sub("", it.read())


def calls():
    """The calls of the header."""
    with open("lib/luffaknife.h", encoding="utf-8") as it:
        return sorted(CALLS.findall(it.read()))


def compile_to(room, to, *words):
    clang = f"{rt.KIT}/toolchain/bin/clang"
    how = [TARGET, "--no-default-config", "-mbulk-memory", "-O3", "-fno-builtin", "-ffreestanding", "-nostdlibinc", "-c"]
    run(clang, *how, *words, "-o", f"{room}/{to}")


def make(to):
    crate = next(it for it in crates_of_gate() if it.name == CRATE)
    with tempfile.TemporaryDirectory() as room:
        with open(f"{room}/wasm.ll", "w", encoding="utf-8") as it:
            it.write('target triple = "wasm64-unknown-unknown"\n' + module_of(crate, room))
        compile_to(room, "module.o", "-x", "ir", f"{room}/wasm.ll")
        for name in "heap", "bytes":
            compile_to(room, f"{name}.o", f"lib/wasm/{name}.c")
        link = [f"{room}/wasm-ld", "-mwasm64", "--no-entry", "--strip-all", f"--max-memory={MEMORY}", "-z", f"stack-size={STACK}"]
        os.symlink(f"{rt.KIT}/toolchain/bin/ld.lld", link[0])
        exports = [f"--export={name}" for name in [*calls(), "luffaknife_room", "luffaknife_give_back"]]
        run(*link, *exports, *(f"{room}/{it}.o" for it in ("module", "heap", "bytes")), "-o", f"{room}/out.wasm")
        shutil.copyfile(f"{room}/out.wasm", to)


def main(words):
    if len(words) != 1:
        print("usage: tools/wasm.py TO", file=sys.stderr)
        return 2
    make(words[0])
    return 0


if __name__ == "__main__":
    sys.exit(main(sys.argv[1:]))
