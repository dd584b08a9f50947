#!/usr/bin/env python3
"""Tries the wrong edits crates/NAME/breaks/*.edit, many in one check: the prover must refuse each in the function that it changes.

usage, at the top of the repository:  breaks.py [--lock | --anew] [--alone] [--sample N] [--after LOG] [--lanes N] [NAME..]

An edit is a file as `rt must-fail` reads it: a line 'file: src/lib.rt', then pairs of lines 'old: TEXT' and 'new: TEXT', each
old TEXT standing once in that file. A line 'fn: MODULE::NAME' names the function that must be refused, where the edit changes
no function's own text.

A wave is one check of a copy of the crate with many edits: a check goes on after a function that it refuses, and takes the
callers of that function over its contract. The first edit of a function changes it in place, each further one a copy of it that
stands beside it under a name of its own, with the same contract and proof, and one more copy without an edit must be proved. A
function that calls itself has no copies, nor has a trait's method unless its impl states the contract again; their further edits
go to further waves. An edit is refused where a goal of a function that it changes stays open; that the function calls one that
isn't proved does not count. What a wave does not settle is tried alone.
Edits of breaks/more/ are further ones of functions that have one. An edit that a line of breaks/judged.txt says was refused, over all
that its judgement reads today, counts as refused; each other one is tried, and so is a sample of twenty of those (--sample N: of N), five a
crate, drawn by a seed that is printed and that no two commits share. Where one of the sample isn't refused, all edits of its crate are tried.
--lock writes the lines of what it finds refused, and draws no sample. --anew trusts no line. --alone tries each edit by itself.
--after LOG tries those of the crates that the `rt ci` that wrote LOG says are proved, over the libraries that it built; else those that
have changed are built first. The last line is 'N passed, M failed'.
"""
import argparse
import os
import re
import shutil
import subprocess
import sys
import tempfile
from concurrent.futures import ThreadPoolExecutor
from dataclasses import dataclass, field

sys.dont_write_bytecode = True
from edits import BadEdit, in_waves, put_together, read_edit
from judged import LOCK, Judged, drawn, read, seed_of
from kit import crates_of_gate, rt, rtlib


def check(crate, texts, functions, kept):
    """Checks the functions and what they call in a copy of the crate with these texts, over what earlier checks kept.
    Returns the status, the lines, and the processor seconds."""
    with tempfile.TemporaryDirectory(prefix="breaks-") as room:
        for part in rtlib.PARTS:
            if os.path.isdir(f"{crate.folder}/{part}"):
                shutil.copytree(f"{crate.folder}/{part}", f"{room}/{part}")
        for path, text in texts.items():
            os.makedirs(os.path.dirname(f"{room}/{path}"), exist_ok=True)
            with open(f"{room}/{path}", "w", encoding="utf-8") as it:
                it.write(text)
        only = [word for name in sorted(functions) for word in ("--only", name)]
        words = [rtlib.RATTLE, "check", *crate.words(["--jobs", "1"], keeps=False), *only, "--incremental", kept]
        how = {"cwd": room, "stdin": subprocess.DEVNULL, "stdout": subprocess.PIPE, "stderr": subprocess.STDOUT}
        ran = subprocess.Popen([*rtlib.guarded(), *words], **how, text=True, errors="replace")
        said = ran.stdout.read()
        _, status, used = os.wait4(ran.pid, 0)
        ran.returncode = os.waitstatus_to_exitcode(status)
        return ran.returncode, said.rstrip("\n").split("\n"), used.ru_utime + used.ru_stime


def judged(crate, lines):
    """What a check says of each function: 'proved', 'calls' (only what it calls is open), 'refused', or its own words."""
    said = {}
    for line in lines:
        found = re.match(rf"fn {crate.name}::(\S+): (.*)", line)
        if not found:
            continue
        name, words = found[1], found[2]
        if words.startswith("proved"):
            said[name] = "proved"
        elif words.startswith("no proof: it calls "):
            said[name] = "calls"
        elif words.startswith("not proved") or "did not prove" in words:
            said[name] = "refused"
        else:
            said[name] = words
    return said


def is_of(name, function):
    """Whether a name that a check prints is the function's, or that of a closure in it."""
    module, _, last = function.rpartition("::")
    inside = f"{module}::fn::{last}::" if module else f"fn::{last}::"
    return name == function or name.endswith(f"::{function}") or name.startswith(inside)


def try_wave(crate, wave, kept):
    """Tries edits together. Returns what is wrong with each (None: it is refused), or why the check judged none, and its seconds."""
    texts, functions, as_they_are = put_together(crate, wave)
    status, lines, seconds = check(crate, texts, as_they_are.union(*functions.values()), kept)
    bad = next((it for it in lines if rt.unread(it, {path for edit in wave for path, _, _ in edit.changes})), None)
    if bad:
        return None, f"the prover cannot read an edited text: {bad[:200]}", seconds
    said = judged(crate, lines)
    if status not in (0, 1) or not said or not lines[-1].startswith("only="):
        return None, f"the check judged nothing (status {status}): {' / '.join(lines[:4])[:400]}", seconds
    wrong, edited = {}, set()
    for edit in wave:
        names = {function: [it for it in said if is_of(it, function)] for function in functions[edit.name]}
        own = [it for found in names.values() for it in found]
        edited.update(own)
        lost = [function for function, found in names.items() if not found]
        if lost:
            wrong[edit.name] = f"the check names no function {lost[0]}: name it by a line 'fn: MODULE::NAME'"
        elif all(said[it] != "refused" for it in own):
            wrong[edit.name] = f"NOT REFUSED: {', '.join(f'{it} is {said[it]}' for it in own)}"
    others = sorted(it for it, word in said.items() if it not in edited and word not in ("proved", "calls"))
    if others:
        return None, f"functions that no edit changes were refused too: {', '.join(others)}", seconds
    return {edit.name: wrong.get(edit.name) for edit in wave}, None, seconds


def names_of_edits(crate):
    """The names of a crate's edits, further ones of a function that has one too."""
    folder = f"{crate.folder}/breaks"
    found = [it for it in os.listdir(folder) if it not in ("more", LOCK)]
    if os.path.isdir(f"{folder}/more"):
        found += [f"more/{it}" for it in os.listdir(f"{folder}/more")]
    return sorted(found)


def read_edits(crate, names):
    """These edits of a crate, and what is wrong with each that doesn't apply by its name."""
    edits, failed = [], {}
    for name in names:
        try:
            if not name.endswith(".edit"):
                raise BadEdit("an edit's name ends in .edit")
            edits.append(read_edit(crate, name))
        except BadEdit as why:
            failed[name] = f"BAD EDIT: {why}"
    return edits, failed


def try_edits(crate, edits, is_alone):
    """Tries these edits of a crate. Returns what is wrong with each that isn't refused by its name."""
    waves = [[it] for it in edits] if is_alone else in_waves(crate, edits)
    failed, again, used = {}, [], 0.0
    with tempfile.TemporaryDirectory(prefix="breaks-kept-") as kept:
        for wave in waves:
            wrong, why, seconds = try_wave(crate, wave, kept)
            used += seconds
            lost = {it.name: why or wrong[it.name] for it in wave if why or wrong[it.name]}
            if len(wave) == 1:
                failed.update(lost)
            else:
                again += [(it, lost[it.name]) for it in wave if it.name in lost]
        for edit, first in again:
            wrong, why, seconds = try_wave(crate, [edit], kept)
            used += seconds
            if why or wrong[edit.name]:
                failed[edit.name] = why or wrong[edit.name]
            else:
                print(f"breaks {crate.name}/{edit.name}: refused alone, and not in its wave ({first})", flush=True)
    for name, why in failed.items():
        print(f"breaks {crate.name}/{name}: FAILED: {why}", flush=True)
    print(f"breaks {crate.name}: {len(edits) - len(failed)} of {len(edits)} refused, {len(waves)} waves, {used:.0f} s", flush=True)
    return failed


@dataclass
class Task:
    """A crate's edits: the lock, the names of all of them, of those that no line of the lock judges, and of a sample of the others."""

    crate: object
    lock: Judged
    names: list
    new: list
    sample: list = field(default_factory=list)

    def has_work(self):
        return bool(self.new or self.sample)


def task_of(crate, trusts):
    """What is to do for a crate's edits, where the lock is trusted or not."""
    names = names_of_edits(crate)
    lock = Judged(crate, names)
    return Task(crate, lock, names, [it for it in names if not (trusts and lock.has(it))])


def draw_sample(tasks, count):
    """Draws the sample of judged edits, and says by which seed."""
    judged = {(task.crate.name, name): task for task in tasks for name in task.names if name not in task.new}
    seed = seed_of(".")
    for key in drawn(judged, count, seed):
        judged[key].sample.append(key[1])
    sampled = sum(len(it.sample) for it in tasks)
    print(f"breaks: {len(judged)} edits are judged already; {sampled} of them are tried again, drawn by {seed}", flush=True)


def try_crate(task, is_alone=False, locks=False):
    """Tries what is to try of a crate's edits. Returns how many are refused or judged already, and what is wrong with each other by its name."""
    edits, failed = read_edits(task.crate, task.names)
    for name, why in failed.items():
        print(f"breaks {task.crate.name}/{name}: FAILED: {why}", flush=True)
    tried = [it for it in edits if it.name in task.new or it.name in task.sample]
    if tried:
        wrong = try_edits(task.crate, tried, is_alone)
        lost = [it for it in task.sample if it in wrong]
        if lost:
            print(f"breaks {task.crate.name}: {', '.join(lost)}: not refused, and the lock says so: all edits of the crate are tried", flush=True)
            wrong = {**try_edits(task.crate, edits, is_alone), **{it: wrong[it] for it in lost}}
        failed.update(wrong)
    if locks:
        task.lock.write({it.name: it.functions for it in tried if it.name not in failed})
    return len(task.names) - len(failed), failed


def is_built(crate):
    """Whether the libraries below a crate are built, over what earlier checks kept, where they have changed."""
    return not any(it.build_rlib(["--jobs", "1"], anew=False) for it in crate.below())


def built(tasks):
    """Each task, and whether the libraries below its crate are built, where it has work."""
    rtlib.Crate.cuts_libraries = False
    for task in tasks:
        yield task, not task.has_work() or is_built(task.crate)


def proved_by(tasks, log):
    """Each task, and whether the `rt ci` that wrote the log says that its crate is proved, then or in an earlier run that was kept."""
    said = read(log)
    for task in tasks:
        yield task, bool(re.search(rf"(?m)^rt: {task.crate.name} (proved$|is kept:)", said))


def tried(task, is_ready, is_alone, locks):
    """Tries a crate's edits, where what they stand on is built."""
    if is_ready:
        return try_crate(task, is_alone, locks)
    print(f"breaks {task.crate.name}: not tried, since it or a library below it is not proved", flush=True)
    return 0, dict.fromkeys(task.names, "not tried")


def given_words():
    words = argparse.ArgumentParser(description="Tries the wrong edits of breaks/, which the prover must refuse.")
    trust = words.add_mutually_exclusive_group()
    trust.add_argument("--lock", action="store_true", help="try what no line of breaks/judged.txt judges, and write the lines")
    trust.add_argument("--anew", action="store_true", help="trust no line of breaks/judged.txt")
    words.add_argument("--alone", action="store_true", help="try each edit by itself")
    words.add_argument("--sample", type=int, default=20, help="how many of the judged edits to try again (default: 20)")
    words.add_argument("--after", metavar="LOG", help="try the edits of the crates that the `rt ci` of this file says are proved, over the libraries that it built")
    words.add_argument("--lanes", type=int, default=0, help="how many crates at a time (default: one a processor, as memory allows)")
    words.add_argument("names", nargs="*", metavar="NAME", help="the crates to try (default: all)")
    return words.parse_args()


def main():
    given = given_words()
    crates = [it for it in crates_of_gate() if not given.names or it.name in given.names]
    tasks = [task_of(it, not given.anew) for it in crates if os.path.isdir(f"{it.folder}/breaks")]
    draw_sample(tasks, 0 if given.lock else given.sample)
    # The longest first, so that no lane ends late.
    tasks.sort(key=lambda it: -len(it.new) * sum(os.path.getsize(file) for file in rtlib.files_of(it.crate.folder)))
    lanes = max(1, min(rt.processors(), rt.free() // 3_500_000_000))
    with ThreadPoolExecutor(given.lanes or lanes) as pool:
        ready = proved_by(tasks, given.after) if given.after else built(tasks)
        runs = [pool.submit(tried, task, is_ready, given.alone, given.lock) for task, is_ready in ready]
        counts = [it.result() for it in runs]
    passed, failed = sum(it for it, _ in counts), sum(len(it) for _, it in counts)
    print(f"{passed} passed, {failed} failed")
    return 1 if failed else 0


if __name__ == "__main__":
    sys.exit(main())
