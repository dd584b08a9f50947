#!/usr/bin/env python3
"""Runs a command and tells what processor time each crate took beside it, by what the prover was doing.

usage:  minutes.py [--base SECONDS] COMMAND WORD..

Seconds of two days, or of two machines, don't compare. So each sum is told in bases too: a base is the processor seconds that the
proofs of six low crates took in the same run. Where they were kept from an earlier run, --base tells what they took then.
It looks at the processes of `rattle` twice a second, so a process's last half second isn't seen.
"""
import argparse
import os
import re
import subprocess
import sys
import time
from collections import defaultdict

TICKS = os.sysconf("SC_CLK_TCK")
KINDS = ["proof", "tests", "must-fail", "breaks"]
# The crates whose proofs are a base: they hardly change.
LOW = ["fc_cards", "fc_position", "fc_moves", "fc_io", "fc_text", "fc_deal"]


def task_of(words, folder):
    """The crate that a process of the prover works on, and for what: its proof, its tests or its edits."""
    name = re.search(r"--crate-name (\w+)", words)
    if "/rattle " not in words or not name:
        return None
    if "/breaks-" in folder:
        return name[1], "breaks"
    if "/rt-edit-" in folder:
        return name[1], "must-fail"
    return name[1], "tests" if " --test" in words else "proof"


def stat_of(pid):
    """What /proc tells of a process behind its name: its state, its parent, and numbers."""
    with open(f"/proc/{pid}/stat", encoding="utf-8", errors="replace") as it:
        return it.read().rpartition(")")[2].split()


def is_below(pid, top):
    """Whether a process was started by another one, or by one that was."""
    while pid not in ("0", "1", top):
        pid = stat_of(pid)[1]
    return pid == top


def look(top, seen):
    """Notes the processor seconds and the peak of memory of each process of the prover that runs now below another process."""
    for pid in filter(str.isdigit, os.listdir("/proc")):
        try:
            with open(f"/proc/{pid}/cmdline", "rb") as it:
                words = it.read().replace(b"\0", b" ").decode(errors="replace")
            task = task_of(words, os.readlink(f"/proc/{pid}/cwd"))
            if not task or not is_below(pid, top):
                continue
            fields = stat_of(pid)
            with open(f"/proc/{pid}/status", encoding="utf-8", errors="replace") as it:
                peak = re.search(r"VmHWM:\s+(\d+)", it.read())
        except OSError:
            continue
        seen[pid, fields[19]] = task, (int(fields[11]) + int(fields[12])) / TICKS, int(peak[1]) if peak else 0


def run(command):
    """Runs a command. Returns its status, and the seconds of each crate's tasks and the most memory of each crate."""
    seen = {}
    ran = subprocess.Popen(command)
    while ran.poll() is None:
        look(str(ran.pid), seen)
        time.sleep(0.5)
    seconds, peaks = defaultdict(float), defaultdict(int)
    for task, used, peak in seen.values():
        seconds[task] += used
        peaks[task[0]] = max(peaks[task[0]], peak)
    return ran.returncode, seconds, peaks


def told_in(base, seconds):
    """Seconds as so many bases, or '-' where there is no base."""
    return f"{seconds / base:10.2f}" if base else f"{'-':>10}"


def main():
    words = argparse.ArgumentParser(description="Tells what processor time each crate takes while a command runs.")
    words.add_argument("--base", type=float, default=0, help="the seconds of a base, where its proofs are kept from an earlier run")
    words.add_argument("command", nargs=argparse.REMAINDER)
    given = words.parse_args()
    began = time.time()
    status, seconds, peaks = run(given.command)
    base = given.base or (all(seconds[it, "proof"] for it in LOW) and sum(seconds[it, "proof"] for it in LOW))
    print(f"\n{'processor seconds':20}" + "".join(f"{it:>10}" for it in KINDS) + f"{'all':>10}{'most GB':>10}")
    for name in sorted(peaks):
        row = [seconds[name, it] for it in KINDS]
        print(f"{name:20}" + "".join(f"{it:10.0f}" for it in [*row, sum(row)]) + f"{peaks[name] / 2**20:10.1f}")
    sums = [sum(seconds[name, it] for name in peaks) for it in KINDS]
    print(f"{'all':20}" + "".join(f"{it:10.0f}" for it in [*sums, sum(sums)]))
    print(f"{'in bases':20}" + "".join(told_in(base, it) for it in [*sums, sum(sums)]))
    used = sum(os.times()[2:4])
    said = f"{used / base:.1f} bases of {base:.0f} seconds, " if base else "no base, since its proofs were kept, "
    print(f"all that the command used: {said}{used / 60:.1f} processor minutes, {(time.time() - began) / 60:.1f} by the clock")
    return status


if __name__ == "__main__":
    sys.exit(main())
