#!/usr/bin/env python3
"""Proves and builds a program or a static library from nothing, with only what it stands on, crates that don't stand on each other side
by side.

usage, at the top of a copy of the repository:  build.py NAME
                                                build.py --over NAME    over the libraries that earlier checks left in out/

It says on standard error how far it is, and leaves the program in crates/NAME/out/NAME, or the library in
crates/NAME/out/libNAME.a. Where a crate is not proved, what the check said of it goes to standard output, and the status is 1.
"""
import os
import subprocess
import sys
import tempfile
import threading
from concurrent.futures import FIRST_COMPLETED, ThreadPoolExecutor, wait

sys.dont_write_bytecode = True
from kit import crates_of_gate, rt, rtlib


class Progress:
    """How many crates are done, told on standard error."""

    def __init__(self, program, count):
        self.program, self.count, self.done, self.turn = program, count, 0, threading.Lock()

    def tell(self, crate):
        with self.turn:
            self.done += 1
            print(f"{self.program}: proved crate {self.done} of {self.count}: {crate.name}", file=sys.stderr, flush=True)


def prove(crate, words):
    """Proves and builds a crate by the prover alone: what else `rt` asks of a crate, the gate asks. Returns the status."""
    how = {"cwd": crate.folder, "stdin": subprocess.DEVNULL, "stdout": crate.out, "stderr": subprocess.STDOUT}
    status = subprocess.run([*rtlib.guarded(), rtlib.RATTLE, "build", *words], check=False, **how).returncode
    again = rtlib.with_one_job(words, status, crate.out)
    return prove(crate, again) if again else status


def compile_to(crate, words, to):
    """Proves and compiles a program or a static library."""
    return prove(crate, [*words, "--toolchain", f"{rt.KIT}/toolchain", "--backend", "llvm", "-o", to])


def build_program(crate, words):
    """Proves and compiles a program, and links it to out/NAME."""
    to = f"out/{crate.name}"
    return compile_to(crate, words, f"{to}.o") or crate.link(f"{to}.o", to)


def build(crate, jobs, progress):
    """Proves and builds a crate over those below it, which are built. Returns whether it is proved."""
    words = crate.words(["--jobs", str(jobs)], keeps=False)
    os.makedirs(f"{crate.folder}/out/rlib", exist_ok=True)
    with tempfile.TemporaryFile("w+", errors="replace") as crate.out:
        if crate.is_program:
            status = build_program(crate, words)
        elif crate.is_static:
            status = compile_to(crate, words, f"out/lib{crate.name}.a")
        else:
            status = prove(crate, [*words, "--statements", "-o", crate.rlib])
        if status:
            crate.out.seek(0)
            print(f"{crate.name} is not proved:\n{crate.out.read()}", flush=True)
    if not status:
        progress.tell(crate)
    return not status


def longest_chains(crates):
    """How many lines stand in the longest chain of crates that begins with each."""
    lines = {}
    for crate in reversed(crates):
        above = [lines[it.name] for it in crates if crate in it.below()]
        lines[crate.name] = crate.count(rb"\n") + max(above, default=0)
    return lines


def build_all(crates, lanes, progress):
    """Builds each crate once those below it are built, first those with the longest chain above them. A check that no other waits
    beside has two jobs: they take two thirds of the time, and a seventh more work. The last one has all that there
    are: four take half of the time, and a third more work. Returns whether all are proved."""
    chains = longest_chains(crates)
    left, running, built = sorted(crates, key=lambda it: -chains[it.name]), {}, set()
    with ThreadPoolExecutor(lanes) as pool:
        while left or running:
            ready = [it for it in left if all(below.name in built for below in it.below())]
            for waiting, crate in enumerate(ready):
                idle = lanes - sum(jobs for _, jobs in running.values())
                if idle > 0:
                    jobs = idle if crates[-1] is crate else 2 if idle > len(ready) - waiting else 1
                    running[pool.submit(build, crate, jobs, progress)] = crate, jobs
                    left.remove(crate)
            for done in wait(running, return_when=FIRST_COMPLETED).done:
                crate, _ = running.pop(done)
                if not done.result():
                    return False
                built.add(crate.name)
    return True


def main(words):
    name = words[-1] if words else ""
    last = next((it for it in crates_of_gate() if it.name == name), None)
    if not last or not (last.is_program or last.is_static):
        print(f"build: crates.txt names no program and no static library {name}", file=sys.stderr)
        return 2
    crates = sorted([*last.below(), last], key=lambda it: len(it.below()))
    if words[:-1] == ["--over"]:
        return 0 if build(last, 1, Progress(name, 1)) else 1
    # A check holds at most 3 GB.
    lanes = max(1, min(rt.processors(), rt.free() // 3_000_000_000))
    return 0 if build_all(crates, lanes, Progress(name, len(crates))) else 1


if __name__ == "__main__":
    sys.exit(main(sys.argv[1:]))
