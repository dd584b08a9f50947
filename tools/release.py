#!/usr/bin/env python3
"""Makes release/ of what ./test, or a build, left in this folder, or compares what is built with what is released.

usage, at the top of the repository:  release.py           makes release/ anew, and page/solver.js of it
                                      release.py --check   over what the gate built: says where a released file isn't what is built

It takes the proved program of crates/fc_solve/out/, and from lib/out/ the library for other programs and its WebAssembly, each with the
stamp of its sources; what is missing in lib/out/ it makes over the libraries that checks left. Where the sources aren't those of the
release, --check says that it is behind, and passes it over. The last line of --check is 'N passed, M failed'.
"""
import gzip
import hashlib
import os
import subprocess
import sys

sys.dont_write_bytecode = True

FOLDER = "release"
SUMS, SOURCES, README = f"{FOLDER}/SHA256SUMS", f"{FOLDER}/sources.txt", f"{FOLDER}/README.md"
PROGRAM, LIBRARY, WASM = "program", "library", "wasm"
# What is released: of which sources, where it is built, and whether it is packed: browsers and Node read the last one as it is.
FILES = {
    "fc_solve": (PROGRAM, "crates/fc_solve/out/fc_solve", True),
    "libluffaknife.a": (LIBRARY, "lib/out/libluffaknife.a", True),
    "libluffaknife.so": (LIBRARY, "lib/out/libluffaknife.so", True),
    "luffaknife.wasm": (WASM, "lib/out/luffaknife.wasm", False),
}
MAKES = {LIBRARY: ["lib/make", "--over"], WASM: ["lib/make", "--wasm"]}

TEXT = """# Released files

What the gate proves and builds from these sources, so that it can be had in a second and without the toolchain.

| File | What it is |
|---|---|
| `fc_solve.gz` | the program, for x86-64 Linux with glibc 2.34 or newer; `./fc_solve` unpacks and runs it |
| `libluffaknife.a.gz`, `libluffaknife.so.gz` | the library of `lib/luffaknife.h`; `lib/install` and `pip install ./lib/python` take them |
| `luffaknife.wasm` | the same library for browsers and Node: `lib/luffaknife.mjs` |
| `SHA256SUMS` | the digests of the files, unpacked |
| `sources.txt` | the digests of the sources that they were built from, and the toolchain |

`tools/release.py` makes them of what `./test` built. `./test` builds them again, and fails where a byte differs from what is released of the same sources. So whoever believes the gate need believe no more; who doesn't builds by `FC_SOLVE_BUILD=1 ./fc_solve`. [What their word rests on](../docs/RELEASE.md).
"""


def read(path):
    with open(path, "rb") as it:
        return it.read()


def text_of(path):
    return read(path).decode() if os.path.exists(path) else ""


def told(*words):
    return subprocess.run(words, check=True, capture_output=True, text=True).stdout


def sources():
    """The digests of the sources of each, and the toolchain, a line each."""
    digests = {PROGRAM: told("tools/stamp.sh"), LIBRARY: told("tools/stamp.sh", "library"), WASM: told("tools/stamp.sh", "wasm")}
    return {**{name: f"{name} {digest}" for name, digest in digests.items()}, "toolchain": f"toolchain {told('rt', 'version')}"}


def built(of):
    """Each file that is built of such sources."""
    if of == PROGRAM:
        if text_of("crates/fc_solve/out/stamp") != told("tools/stamp.sh"):
            sys.exit("release: no program is built here of these sources: ./test leaves one")
    elif subprocess.run(MAKES[of], check=False).returncode:
        sys.exit(f"release: no {of} is built here of these sources: ./test leaves one")
    return {name: read(path) for name, (its, path, _) in FILES.items() if its == of}


def digests(files):
    return {name: f"{hashlib.sha256(data).hexdigest()}  {name}\n" for name, data in files.items()}


def path_of(name):
    return f"{FOLDER}/{name}.gz" if FILES[name][2] else f"{FOLDER}/{name}"


def released(name):
    data = read(path_of(name))
    return gzip.decompress(data) if FILES[name][2] else data


def write(path, data):
    with open(path, "wb") as it:
        it.write(data)


def make():
    files = {**built(PROGRAM), **built(LIBRARY), **built(WASM)}
    os.makedirs(FOLDER, exist_ok=True)
    for name, data in files.items():
        write(path_of(name), gzip.compress(data, 9, mtime=0) if FILES[name][2] else data)
        print(f"{path_of(name)}: {os.path.getsize(path_of(name))} bytes, {len(data)} unpacked")
    write(SUMS, "".join(digests(files).values()).encode())
    write(SOURCES, "".join(sources().values()).encode())
    write(README, TEXT.encode())
    subprocess.run(["tools/page_solver.py", "--write"], check=True)


def differing(of):
    """What of the release isn't what is built of the sources, which are the same; and how many files there are."""
    files = built(of)
    sums = text_of(SUMS)
    wrong = [path_of(name) for name, data in files.items() if released(name) != data]
    return wrong + [f"{SUMS}: {name}" for name, line in digests(files).items() if line not in sums], len(files)


def check():
    """How many files are what is built, and how many aren't."""
    was, now = text_of(SOURCES).splitlines(keepends=True), sources()
    good = failed = 0
    for of in (PROGRAM, LIBRARY, WASM):
        if now[of] not in was or now["toolchain"] not in was:
            print(f"release: the {of} is behind: the sources went on since it was made")
            continue
        wrong, count = differing(of)
        for name in wrong:
            print(f"release: {name} isn't what is built of the sources that it is told to be of")
        good, failed = good + count - min(count, len(wrong)), failed + len(wrong)
    return good, failed


def main(words):
    if words == ["--check"]:
        passed, failed = check()
        print(f"{passed} passed, {failed} failed")
        return 1 if failed else 0
    if words == ["--help"]:
        print(__doc__.strip())
        return 0
    if words:
        print("usage: tools/release.py [--check]", file=sys.stderr)
        return 2
    make()
    return 0


if __name__ == "__main__":
    sys.exit(main(sys.argv[1:]))
