"""Builds a small library in two folders, by one job and by two, and says whether its bytes are the same.

usage, at the top of the repository:  same_bytes.py

The status is 77 where the toolchain is missing.
"""
import hashlib
import os
import shutil
import subprocess
import sys
import tempfile

sys.dont_write_bytecode = True
sys.path.insert(0, os.path.abspath("tools"))

SOURCE = """//! Sums and the like, of which a library is built.
#![tactic(auto)]

#[derive(Clone, Copy)]
pub enum Side {
    Left(u32),
    Right(u32, u32),
}

fn larger<T: Ord + Copy>(one: T, other: T) -> T {
    if one < other { other } else { one }
}

fn of(side: Side) -> u32 {
    match side {
        Side::Left(one) => one,
        Side::Right(one, other) => larger(one, other),
    }
}

#[unsafe(no_mangle)]
pub extern "C" fn small_sum(numbers: &[u32]) -> u32 {
    let mut sum = 0u32;
    for number in numbers {
        sum = sum.saturating_add(of(Side::Left(*number)));
    }
    larger(sum, of(Side::Right(3, 5)))
}

#[unsafe(no_mangle)]
pub extern "C" fn small_text(text: &[u8]) -> usize {
    text.iter().position(|byte| *byte == b' ').unwrap_or(text.len())
}
"""


def built(room, folder, jobs):
    """The library, built below this folder by so many jobs, in a process of its own."""
    top = f"{room}/{folder}"
    os.makedirs(f"{top}/crates/small/src")
    for path, text in {"crates.txt": "small staticlib:\n", "HANDLES": "Handles allowed: none.\n", "crates/small/src/lib.rt": SOURCE}.items():
        with open(f"{top}/{path}", "w", encoding="utf-8") as it:
            it.write(text)
    script = ("import os, sys; sys.path.insert(0, sys.argv[1]); import build; crate = build.crates_of_gate()[0]; os.makedirs(f'{crate.folder}/out'); "
              "crate.out = open('log', 'w'); sys.exit(build.compile_to(crate, crate.words(['--jobs', sys.argv[2]], keeps=False), 'out/libsmall.a'))")
    ran = subprocess.run([sys.executable, "-B", "-c", script, os.path.abspath("tools"), str(jobs)], cwd=top, capture_output=True, text=True, check=False)
    if ran.returncode:
        with open(f"{top}/log", encoding="utf-8", errors="replace") as it:
            sys.exit(f"it isn't built: {ran.stderr}{it.read()}")
    with open(f"{top}/crates/small/out/libsmall.a", "rb") as it:
        return hashlib.sha256(it.read()).hexdigest()


def main():
    if not shutil.which("rt"):
        print("there is no toolchain here")
        return 77
    with tempfile.TemporaryDirectory() as room:
        one, other = built(room, "one", 1), built(room, "some/other folder", 2)
    print("the same bytes" if one == other else "OTHER BYTES")
    return 0 if one == other else 1


if __name__ == "__main__":
    sys.exit(main())
