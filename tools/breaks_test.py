#!/usr/bin/env python3
"""Tests of breaks.py on a crate of a few functions that it makes, over one with a definition: what counts as refused, what is told of
other edits, and which edits the lock judges.

The last line is 'N passed, M failed'.
"""
import contextlib
import io
import os
import re
import shutil
import sys
import tempfile

sys.dont_write_bytecode = True
import breaks
import edits
import judged
from kit import crates_of_gate

CODE = """//! A sample.
#![tactic(auto)]

ghost use Rattle.std.specs.Prelude.{◌≡◌, ◌+◌, ◌≤◌, ◌<◌};
ghost use Rattle.sample.specs.Sums.{sum_of};

/// A small number.
pub struct Small(u8);

impl Small {
    /// The greater of two numbers.
    pub fn larger(a: u8, b: u8) -> u8
        ensures first { a ≤ result }
        ensures second { b ≤ result }
    {
        if a < b { b } else { a }
    }
}

/// The sum of two numbers.
pub fn sum(a: u8, b: u8) -> u16
    ensures { result ≡ sum_of a b }
{
    a as u16 + b as u16
}

/// The sum of a number with itself.
pub fn twice(a: u8) -> u16
    ensures { result ≡ a + a }
{
    sum(a, a)
}

/// A number, not more than the limit.
pub fn limited(a: u8) -> u8 {
    if a < LIMIT { a } else { LIMIT }
}

const LIMIT: u8 = 10;
"""
SUMS = "use Rattle.std.specs.Prelude.{ℕ, ◌+◌}\n\n-- the sum\nabbrev pub sum_of : ℕ → ℕ → ℕ\nsum_of a b = a + b\n"

# The crate below: a definition, a function that meets it, and a constant that a constant function gives.
LOW = """//! What the sample stands on.
#![tactic(auto)]

ghost use Rattle.std.specs.Prelude.{◌≡◌};
ghost use Rattle.low.specs.Units.{unit};

/// One.
pub fn one() -> u8
    ensures { result ≡ unit }
{
    1
}

/// A hundred.
pub const fn hundred() -> u8 {
    100
}
"""
UNITS = "use Rattle.std.specs.Prelude.{ℕ}\n\n-- one\nabbrev pub unit : ℕ\nunit = 1\n"
FILES = {
    "crates.txt": "low:\nsample: low\n",
    "crates/low/src/lib.rt": LOW,
    "crates/low/specs/Lib.antt": "pub mod Units\n",
    "crates/low/specs/Units.antt": UNITS,
    "crates/sample/src/lib.rt": CODE,
    "crates/sample/specs/Lib.antt": "pub mod Sums\n",
    "crates/sample/specs/Sums.antt": SUMS,
}

# The head of an impl, and how a check spells its type.
OWNERS = {
    "impl Draft ": "Draft",
    "impl<K: Key, F: Frontier> Book<K, F> ": "Book",
    "impl<R: io::Read> Source for FromReader<R> ": "FromReaderSource",
    "impl<T: Drop> From<AllocFailed<T>> for Full ": "FullFromAllocFailed",
    "impl<G: Game + Drop> Space<Code> for Positions<G> ": "PositionsSpaceCode",
    "impl<R: Read> Reading for R ": "AnyReading",
    "pub trait Frontier: Drop ": "Frontier",
}

# The head of an impl and what its method says, and where copies of the method can stand.
PLACES = {
    ("impl Draft ", ""): "",
    ("impl<R: Reading> Source for FromReader<R> ", "ensures"): "impl<R: Reading> FromReader<R>",
    ("impl<R: Reading> Source for FromReader<R> ", ""): None,
    ("impl<R: Read> Reading for R ", "ensures"): None,
    ("pub trait Frontier: Drop ", "ensures"): None,
}

# An edit's text, and what is wrong with it (None: it is refused). The second edit of a function changes a copy of it.
EDITS = {
    "larger_harmless": ("file: src/lib.rt\nold: if a < b { b }\nnew: if a <= b { b }\n", "NOT REFUSED: Small::larger is proved"),
    "larger_the_first": ("file: src/lib.rt\nold: { b } else { a }\nnew: { a } else { a }\n", None),
    "limit_of_no_function": ("file: src/lib.rt\nold: LIMIT: u8 = 10\nnew: LIMIT: u8 = 11\n", "changes no function's text"),
    "limited_says_nothing": ("file: src/lib.rt\nold: if a < LIMIT\nnew: if LIMIT < a\n", "NOT REFUSED: limited is proved"),
    "sum_by_its_statement": ("fn: sum\nfile: specs/Sums.antt\nold: sum_of a b = a + b\nnew: sum_of a b = a + a\n", None),
    "sum_stands_nowhere": ("file: src/lib.rt\nold: a - b\nnew: a + b\n", "0 times, and not once"),
    # In its wave the function that it calls is refused, which must not count.
    "twice_harmless": ("file: src/lib.rt\nold: sum(a, a)\nnew: sum(a, 0) + sum(0, a)\n", "NOT REFUSED: twice is"),
}

# Edits of the same crate, of which one doesn't compile.
MISSPELT = {
    "sum_misspelt": ("file: src/lib.rt\nold: a as u16 + b as u16\nnew: a as u16 + c as u16\n", "cannot find value `c`"),
    "sum_one_more": ("file: src/lib.rt\nold: a as u16 + b as u16\nnew: a as u16 + b as u16 + 1\n", None),
}

# A change of a file, and whether the crate's edits are judged anew after it.
CHANGES = {
    "a source": ("crates/sample/src/lib.rt", "LIMIT: u8 = 10", "LIMIT: u8 = 12", True),
    "a definition": ("crates/sample/specs/Sums.antt", "sum_of a b = a + b", "sum_of a b = b + a", True),
    "a comment": ("crates/sample/src/lib.rt", "/// The greater of two numbers.", "/// The greater one.", False),
    "a definition below": ("crates/low/specs/Units.antt", "unit = 1", "unit = 0 + 1", True),
    "a promise below": ("crates/low/src/lib.rt", "result ≡ unit }", "unit ≡ result }", True),
    "a constant function below": ("crates/low/src/lib.rt", "    100\n", "    101\n", True),
    "a body below": ("crates/low/src/lib.rt", "    1\n", "    0 + 1\n", False),
}

# Edits that are refused, and so locked.
JUDGED = {"larger_the_first": EDITS["larger_the_first"], "sum_one_more": MISSPELT["sum_one_more"]}

# What `rt ci` says of a crate, and whether its edits are tried.
VERDICTS = {
    "rt: sample proved\n": True,
    "rt: sample is kept: an earlier run on this machine proved the same files over the same libraries\n": True,
    "rt: sample NOT PROVED\n0 passed, 1 failed\n": False,
    "rt: samples proved\n1 passed, 0 failed\n": False,
}


def write(path, text):
    os.makedirs(os.path.dirname(path) or ".", exist_ok=True)
    with open(path, "w", encoding="utf-8") as it:
        it.write(text)


def forget():
    """Has sums of sources counted anew, as in another run."""
    judged.own_sum.cache_clear()
    judged.stated_sum.cache_clear()


def make_edits(texts):
    """Writes these edits of the sample, and no others."""
    shutil.rmtree("crates/sample/breaks", ignore_errors=True)
    for name, (text, _) in texts.items():
        write(f"crates/sample/breaks/{name}.edit", text)


def quietly(call, *given, **named):
    """What a call gives, and what it printed."""
    with contextlib.redirect_stdout(io.StringIO()) as out:
        return call(*given, **named), out.getvalue()


def tried(crate, texts):
    """How many of these edits of the sample were refused, and what was wrong with the others."""
    make_edits(texts)
    return quietly(breaks.try_crate, breaks.task_of(crate, True))[0]


def new_edits(crate):
    """The edits of the sample that no line judges."""
    forget()
    return breaks.task_of(crate, True).new


def check_lock(crate, expect):
    """What the lock judges after changes, and what is found of a forged line."""
    make_edits(JUDGED)
    quietly(breaks.try_crate, breaks.task_of(crate, True), locks=True)
    expect("what is refused is locked", new_edits(crate) == [])
    lock = breaks.task_of(crate, True).lock
    write(lock.path, judged.read(lock.path).replace(lock.kit, "another kit"))
    expect("another kit's lines judge nothing", new_edits(crate) == sorted(f"{it}.edit" for it in JUDGED))
    quietly(breaks.try_crate, breaks.task_of(crate, True), locks=True)
    expect("and stay where this kit judges", [len(it) for it in judged.parts_of(judged.read(lock.path)).values()] == [2, 2])
    expect("whose lines do", new_edits(crate) == [])
    for what, (path, old, new, is_anew) in CHANGES.items():
        write(path, FILES[path].replace(old, new))
        expect(f"{what} changed", new_edits(crate) == (sorted(f"{it}.edit" for it in JUDGED) if is_anew else []))
        write(path, FILES[path])
    text, _ = JUDGED["sum_one_more"]
    write("crates/sample/breaks/sum_one_more.edit", text.replace("+ 1", "+ 2"))
    expect("an edit changed", new_edits(crate) == ["sum_one_more.edit"])
    # The edit is put right, and the lock says still that it is refused.
    write("crates/sample/breaks/sum_one_more.edit", text.replace("+ 1", "+ 0"))
    task = breaks.task_of(crate, True)
    task.lock.write({"sum_one_more.edit": {"sum"}})
    task = breaks.task_of(crate, True)
    expect("a forged line is believed", task.new == [])
    (passed, failed), _ = quietly(breaks.try_crate, task)
    expect("unless it is drawn", passed == 2 and not failed)
    quietly(breaks.draw_sample, [task], 2)
    expect("a sample is drawn", sorted(task.sample) == task.names)
    task.sample = ["sum_one_more.edit"]
    (passed, failed), said = quietly(breaks.try_crate, task)
    expect("a forged line is found", passed == 1 and "NOT REFUSED: sum is proved" in failed["sum_one_more.edit"])
    expect("and all of its crate are tried", "breaks sample: 1 of 2 refused" in said)
    expect("no line is trusted anew", len(breaks.task_of(crate, False).new) == 2)


def main():
    failed = count = 0

    def expect(what, holds):
        nonlocal failed, count
        count += 1
        if not holds:
            print(f"breaks_test: {what}: FAILED", flush=True)
        failed += not holds

    with tempfile.TemporaryDirectory(prefix="breaks-test-") as room:
        os.chdir(room)
        for path, text in FILES.items():
            write(path, text)
        low, crate = crates_of_gate()
        with open(os.devnull, "w", encoding="utf-8") as low.out:
            expect("the crate below is proved", breaks.is_built(crate))
        names = [it.name for it in edits.functions_of("src/lib.rt", CODE)]
        expect("functions are found", names == ["Small::larger", "sum", "twice", "limited"])
        for head, name in OWNERS.items():
            expect(head, edits.owner_of(head) == name)
        for (head, code), place in PLACES.items():
            expect(f"copies of {head}", edits.place_of_copies(head, code) == place)
        for texts in (EDITS, MISSPELT):
            passed, wrong = tried(crate, texts)
            for name, (_, want) in texts.items():
                expect(name, re.search(want, wrong.get(f"{name}.edit", "")) if want else f"{name}.edit" not in wrong)
            expect("the refused ones are counted", passed == sum(want is None for _, want in texts.values()))
        for told, is_ready in VERDICTS.items():
            write("log", told)
            task = breaks.task_of(crate, True)
            expect(f"proved by: {told!r}", list(breaks.proved_by([task], "log")) == [(task, is_ready)])
        os.mkdir("crates/sample/breaks/more")
        os.rename("crates/sample/breaks/sum_one_more.edit", "crates/sample/breaks/more/sum_one_more.edit")
        expect("further edits are found", breaks.names_of_edits(crate) == ["more/sum_one_more.edit", "sum_misspelt.edit"])
        check_lock(crate, expect)
        seed = judged.seed_of(".")
        write("crates/sample/note", "another commit")
        expect("another tree has another seed", judged.seed_of(".") != seed)
        os.chdir("/")
    print(f"{count - failed} passed, {failed} failed")
    return 1 if failed else 0


if __name__ == "__main__":
    sys.exit(main())
