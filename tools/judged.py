"""The lock of judged edits: which wrong edits the prover refused, and a sum of all that each judgement read.

A crate's file breaks/judged.txt has a part for each kit, and in it a line for each edit of breaks/ and breaks/more/: the sum, the
edit's name, and the functions that were refused. The sum is of the kit, the crate's line in crates.txt, its sources, definitions and
proofs, what its check reads of the crates below, and the edit's text. Rattle's own tokens are summed, so neither comments nor layout
count. What one kit judged stays when another judges, so that a machine with either takes what its own refused.

Of a crate below a check reads the public interface and the statements: here its definitions, its lemmas, and its sources without
the bodies of functions. What a constant function gives can decide another crate's constant, so its body counts. A static library
links the code of all below it, so of those all counts.
"""
import functools
import hashlib
import json
import os
import random
import re
import subprocess

from kit import rt, rtlib

LOCK = "judged.txt"
# Another number judges all edits anew: for a change of what counts as refused.
RULES = 1
# Of a crate one check tries several edits, which takes little more than one of them does.
OF_A_CRATE = 5
# Files of the proof of one function, which no other function's proof reads.
OF_ONE_FUNCTION = {"Answers.antt", "Invariants.antt", "Proof.antt"}
QUALIFIERS = {"pub", "crate", "super", "in", "(", ")", "const", "final", "unsafe", "extern"}


def bytes_of(path):
    with open(path, "rb") as it:
        return it.read()


def read(path):
    return bytes_of(path).decode("utf-8")


@functools.lru_cache(maxsize=None)
def kit_sum():
    """A sum of what names the toolchain, and of the prover itself."""
    total = hashlib.sha256(repr(RULES).encode())
    for file in ("KIT-ID", "WHAT", "bin/rattle"):
        total.update(bytes_of(f"{rt.KIT}/{file}"))
    return total.hexdigest()


def tokens_of(folder):
    """The tokens of each file of src/, specs/ and proofs/ as a check reads them, comments left out: their kinds and texts by path."""
    files = sorted(rtlib.files_of(folder))
    if not files:
        return {}
    ran = subprocess.run([rtlib.RATTLE, "fmt", "--tokens", *files], capture_output=True, text=True, check=False)
    if ran.returncode:
        rtlib.stop(f"rattle cannot read {folder}: {ran.stderr}")
    parts = re.split(r"(?m)^file \d+\n", ran.stdout)[1:]
    rows = [[row.split(" ", 4)[3:] for row in part.splitlines()] for part in parts]
    return {os.path.relpath(file, folder): row for file, row in zip(files, rows)}


def is_constant(tokens, at):
    """Whether the function whose `fn` stands there is a constant one."""
    for kind, text in reversed(tokens[:at]):
        if kind == "Code" and json.loads(text) == "const":
            return True
        if kind != "Literal" and json.loads(text) not in QUALIFIERS:
            return False
    return False


def without_bodies(tokens):
    """The tokens of a source but for the bodies of functions that aren't constant."""
    left, depth, head, body = [], 0, None, None
    for at, (kind, text) in enumerate(tokens):
        sign = json.loads(text) if kind == "Code" else ""
        if sign == "fn" and body is None and tokens[at + 1 : at + 2] and tokens[at + 1][1] != '"("':
            head = (depth, is_constant(tokens, at))
        depth += (sign in {"(", "[", "{"}) - (sign in {")", "]", "}"})
        if head and sign == ";" and depth == head[0]:
            head = None
        elif head and sign == "{" and depth == head[0] + 1:
            body = None if head[1] else head[0]
            head = None
        if body is None:
            left.append((kind, text))
        elif sign == "}" and depth == body:
            body = None
    return left


def sum_of(value):
    return hashlib.sha256(repr(value).encode()).hexdigest()


@functools.lru_cache(maxsize=None)
def own_sum(folder):
    """A sum of all of a crate's sources, definitions and proofs."""
    return sum_of(sorted(tokens_of(folder).items()))


@functools.lru_cache(maxsize=None)
def stated_sum(folder):
    """A sum of what the check of a library above reads of a crate."""
    stated = {}
    for path, tokens in tokens_of(folder).items():
        if os.path.basename(path) not in OF_ONE_FUNCTION or not path.startswith("proofs/"):
            stated[path] = without_bodies(tokens) if path.startswith("src/") else tokens
    return sum_of(sorted(stated.items()))


def sum_of_crate(crate):
    """A sum of what the judgement of each of a crate's edits reads beside the edit."""
    of_each = own_sum if crate.is_static or crate.is_program else stated_sum
    below = sorted((it.name, it.of_kit, of_each(it.folder)) for it in crate.below())
    return sum_of((kit_sum(), crate.name, crate.of_kit, crate.is_static, own_sum(crate.folder), below))


def parts_of(text):
    """The lines of a lock by the kit that judged them: of each edit's name the sum and the functions."""
    parts, rows = {}, {}
    for line in text.splitlines():
        head = re.fullmatch(r"# .*, by (.+)\.", line)
        row = re.fullmatch(r"([0-9a-f]{64}) (\S+) (.+)", line)
        if head:
            rows = parts.setdefault(head[1], {})
        elif row:
            rows[row[2]] = row[1], row[3]
    return parts


class Judged:
    """The lines of a crate's lock, and the sums that they would have today."""

    def __init__(self, crate, names):
        self.path, self.kit = f"{crate.folder}/breaks/{LOCK}", read(f"{rt.KIT}/KIT-ID").strip()
        base = sum_of_crate(crate)
        self.sums = {name: sum_of((base, name, read(f"{crate.folder}/breaks/{name}"))) for name in names}
        self.parts = parts_of(read(self.path)) if os.path.isfile(self.path) else {}
        self.known = self.parts.get(self.kit, {})

    def has(self, name):
        """Whether a line says that this kit refused the edit over all that is read today."""
        return self.known.get(name, ("", ""))[0] == self.sums[name]

    def write(self, refused):
        """Writes the lines: those that hold, and those of the edits that were refused now, by their functions. Those of other kits
        stay, but of edits that are gone."""
        lines = {name: self.known[name] for name in self.sums if self.has(name)}
        lines.update({name: (self.sums[name], ", ".join(sorted(functions))) for name, functions in refused.items()})
        parts = {kit: {name: row for name, row in rows.items() if name in self.sums} for kit, rows in self.parts.items()}
        parts[self.kit] = lines
        with open(self.path, "w", encoding="utf-8") as it:
            it.write("# tools/breaks.py --lock writes this.\n")
            for kit, rows in sorted(parts.items()):
                it.write(f"# The sum of all that a judgement read, the edit, and the functions in which the prover refused it, by {kit}.\n")
                it.write("".join(f"{rows[name][0]} {name} {rows[name][1]}\n" for name in sorted(rows)))


def seed_of(root):
    """A sum of all files of the tree, which no two commits share."""
    total = hashlib.sha256()
    for at, folders, names in os.walk(root):
        folders[:] = sorted(it for it in folders if it not in (".git", "out", "__pycache__"))
        for name in sorted(names):
            path = f"{at}/{name}"
            total.update(os.path.relpath(path, root).encode() + b"\0")
            if os.path.isfile(path):
                total.update(bytes_of(path))
    return total.hexdigest()[:16]


def drawn(judged, count, seed):
    """So many of the judged edits, by the seed: a crate is drawn by how many it has, and of each at most five, as long as others are left."""
    left, chosen, draw = set(judged), [], random.Random(seed)
    while left and len(chosen) < count:
        fresh = sorted(left - {it for it in left if it[0] in {crate for crate, _ in chosen}}) or sorted(left)
        crate = draw.choice(fresh)[0]
        own = sorted(it for it in left if it[0] == crate)
        chosen += draw.sample(own, min(OF_A_CRATE, len(own), count - len(chosen)))
        left -= set(chosen)
    return chosen
