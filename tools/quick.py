#!/usr/bin/env python3
"""Proves and tests what changed since it last passed in this folder, and runs the program's cases where anything changed.

usage, at the top of the repository:  quick.py

It works over what earlier checks kept in out/ and tries no edits, so it is no verdict: that is ./test's alone. The last line is
'N passed, M failed'.
"""
import os
import subprocess
import sys

sys.dont_write_bytecode = True
from kit import rtlib

# Where a crate's out/ keeps the sum of all that it was made from when it last passed.
PASSED = "out/passed"


def has_passed(crate):
    return rtlib.text_of(f"{crate.folder}/{PASSED}") == crate.stamp()


def note_passed(crate):
    os.makedirs(f"{crate.folder}/out", exist_ok=True)
    with open(f"{crate.folder}/{PASSED}", "w", encoding="utf-8") as it:
        it.write(crate.stamp())


def run(crate, *words):
    """Runs rt in the crate's folder. Returns whether it ended well, and else prints what it said."""
    ran = subprocess.run(["rt", *words], cwd=crate.folder, stdin=subprocess.DEVNULL, capture_output=True, text=True, errors="replace")
    if ran.returncode:
        print(f"== {crate.name}: rt {words[0]}\n{ran.stdout}{ran.stderr}", flush=True)
    return ran.returncode == 0


def passes(crate):
    """Whether the crate is laid out, proved, and its tests pass; the program is built too."""
    if rtlib.fmt(crate.folder, "--check", sys.stdout):
        print(f"{crate.name}: run rt fmt in its folder", flush=True)
        return False
    well = run(crate, "check")
    if well and crate.has_tests():
        well = run(crate, "test")
    if well and crate.name == "fc_solve":
        well = run(crate, "run", "--", "--version")
        if well:
            with open(f"{crate.folder}/out/stamp", "w", encoding="utf-8") as it:
                subprocess.run(["tools/stamp.sh"], stdout=it, check=True)
    print(f"{crate.name}: {'passed' if well else 'FAILED'}", flush=True)
    return well


def run_cases():
    """How many of the program's cases passed and failed."""
    ran = subprocess.run(["tests/run-cases.sh"], stdin=subprocess.DEVNULL, capture_output=True, text=True, errors="replace")
    *told, last = ran.stdout.strip().split("\n")
    for line in told:
        print(line)
    passed, _, failed, *_ = last.replace(",", "").split()
    return int(passed), int(failed)


def main():
    rtlib.guarded()
    crates = sorted(rtlib.crates_below(os.getcwd()), key=lambda it: len(it.below()))
    failed, changed = [], False
    for crate in crates:
        if any(it in failed for it in crate.below()):
            print(f"{crate.name}: not run, since a library below it failed", flush=True)
            failed.append(crate)
        elif not has_passed(crate):
            changed = True
            if passes(crate):
                note_passed(crate)
            else:
                failed.append(crate)
    good, bad = run_cases() if changed and not failed else (0, 0)
    print(f"{len(crates) - len(failed) + good} passed, {len(failed) + bad} failed")
    return 1 if failed or bad else 0


if __name__ == "__main__":
    sys.exit(main())
