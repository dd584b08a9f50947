#!/usr/bin/env python3
"""Writes docs/contracts/, a page a crate: what each public call promises, quoted from the sources.

usage, at the top of the repository:  contracts.py            writes the pages
                                      contracts.py --check    says which are stale, which definitions stand on the wrong side,
                                                              and what the tour quotes and no source says; the last line is
                                                              'N passed, M failed'

A public call stands with the first sentence of its doc comment and with its clauses. The contract of a law is a definition's
name, so the definition stands in its place.

Of the definitions in specs/, a reader must believe those that a public promise speaks of, in its own words or in words of words.
The others, and lemmas that the toolchain wants there, are of use to their crate's own functions and proofs: they stand in
specs/inner/.
"""
import os
import re
import sys
from dataclasses import dataclass, field

FOLDER = "docs/contracts"
INDEX = "README.md"
TOUR = "docs/TOUR.md"
OPENING = """# What each public call promises

Written by `tools/contracts.py` from the sources, a page a crate, lowest first; `./test` says where one is stale. Each call has the first sentence of its doc comment and its clauses as the prover reads them: `requires` is the caller's to show, `ensures` is proved. A law is the contract of a call that does nothing: its page says what it states. The words are those of `specs/` in the same crate or in one below. [PROVED.md](../PROVED.md) says the same for readers.

| Crate | What it is | Calls |
|---|---|---|
"""
# Crates whose public calls serve the repository alone.
OURS = re.compile(r"_tests$|^fc_bench$")
NAME = re.compile(r"[^\s(){}\[\],.;:]+")


def text_of(path):
    with open(path, encoding="utf-8") as it:
        return it.read()


def files_below(folder, ending):
    for at, folders, names in os.walk(folder):
        folders[:] = sorted(it for it in folders if it != "out")
        yield from (f"{at}/{it}" for it in sorted(names) if it.endswith(ending))


@dataclass
class Call:
    """A function of the sources that has a name outside its crate."""

    name: str
    doc: str
    clauses: list

    def sentence(self):
        """The first sentence of its doc comment, without the links to other items."""
        return re.sub(r"\[([^\]]+)\]\([\w:]+\)", r"\1", re.split(r"(?<=[.])\s", self.doc, maxsplit=1)[0])


@dataclass
class Definition:
    """A definition of specs/: the crate and the file that it stands in, its comment, its text, and what its file's names mean."""

    crate: str
    path: str
    name: str
    is_lemma: bool
    text: str
    uses: dict = field(repr=False)


@dataclass
class Source:
    """A file of src/: its public calls, the names that its ghost lines bring, and the ghost lines of its public types."""

    path: str
    calls: list
    uses: dict
    ghosts: list


def uses_of(text):
    """The names that the lines `use Rattle.CRATE...{..}` bring, each with the crate that it comes from and its name there."""
    found = {}
    for crate, names in re.findall(r"use Rattle\.(\w+)\.[^{\n]*\{([^}]*)\}", text):
        for it in names.split(","):
            theirs, _, ours = it.strip().partition(" as ")
            found[ours or theirs] = crate, theirs
    return found


def exported(crate):
    """What the crate's root lets out: names, and modules as a whole."""
    root = f"crates/{crate}/src/lib.rt"
    if not os.path.exists(root):
        return set(), set()
    text = text_of(root)
    names = set()
    for it in re.findall(r"^pub use ([^;]+);", text, re.M):
        names.update(re.findall(r"\w+", it.partition("::")[2]))
    return names, set(re.findall(r"^pub mod (\w+);", text, re.M))


def read_call(lines, at, owner):
    """The function whose line `fn` is the one at this place."""
    indent = len(lines[at]) - len(lines[at].lstrip())
    name = re.search(r"\bfn (\w+)", lines[at])[1]
    clauses, end = [], at
    if not lines[at].endswith("{"):
        for end in range(at + 1, len(lines)):
            line = lines[end]
            if re.match(rf" {{{indent + 4}}}(requires|ensures)\b", line):
                clauses.append(line.strip())
            elif clauses and line.strip() not in ("{", "{}"):
                clauses.append("    " + line.strip())
            if line.rstrip() == " " * indent + "{" or line.rstrip().endswith((";", "{}")) or (not clauses and line.endswith("{")):
                break
    if clauses and clauses[-1].endswith(";"):
        clauses[-1] = clauses[-1][:-1]
    doc = []
    for above in range(at - 1, -1, -1):
        words = lines[above].strip()
        if words.startswith("///"):
            doc.append(words[3:].strip())
        elif not words.startswith("#["):
            break
    paragraph = " ".join(reversed(doc)).partition("  ")[0]
    return Call(f"{owner}::{name}" if owner else name, paragraph, clauses)


def without_generics(words):
    """The words without all that stands in angle brackets."""
    depth, kept = 0, []
    for it in words.replace("->", ""):
        depth += (it == "<") - (it == ">")
        if depth == 0 and it != ">":
            kept.append(it)
    return "".join(kept)


def read_source(path, names, is_whole):
    """The public calls of a file, where the crate lets out these names, or the whole file."""
    text = text_of(path)
    lines = text.split("\n")
    calls, ghosts = [], []
    owner, is_open, takes_all = "", False, False
    for at, line in enumerate(lines):
        head, call = re.match(r"(pub trait|impl)\b.*\{$", line), re.match(r'pub (extern "C" )?fn (\w+)', line)
        if head:
            kind, _, of = without_generics(line[len(head[1]) : -1]).partition(" for ")
            owner = re.match(r"\w*", (of or kind).strip().lstrip("&"))[0]
            is_open = owner in names or is_whole
            takes_all = head[1] == "pub trait" or bool(of)
        elif line == "}":
            owner, is_open, takes_all = "", False, False
        elif re.match(r"    (pub |)fn ", line) and is_open and (takes_all or "pub fn" in line):
            calls.append(read_call(lines, at, owner))
        elif is_open and re.match(r"    ghost (?!use|invariant|laws|respects)", line):
            ghosts.append(line)
        elif call and (is_whole or call[1] or call[2] in names):
            calls.append(read_call(lines, at, ""))
    return Source(path, calls, uses_of(text), ghosts)


def sources_of(crate):
    names, modules = exported(crate)
    for path in files_below(f"crates/{crate}/src", ".rt"):
        module = os.path.basename(path)[:-3]
        yield read_source(path, names, module in modules)


def definitions_of(crate):
    """Each definition of the crate's specs/ by its name."""
    found = {}
    for path in files_below(f"crates/{crate}/specs", ".antt"):
        text = text_of(path)
        uses = uses_of(text)
        for block in re.split(r"\n\s*\n", text):
            for is_lemma, name in heads_of(block):
                found.setdefault(name, Definition(crate, path, name, is_lemma, block.strip("\n"), uses))
    return found


def heads_of(block):
    """The definitions and lemmas that a part of a file between blank lines gives, and which of them are lemmas."""
    lines = [it for it in block.split("\n") if it.strip() and not re.match(r"\s*(--|module\b|use\b|pub (use|mod)\b)", it)]
    lead = min(map(indent_of, lines), default=0)
    for line in lines:
        head = re.match(r"\s*((?:(?:pub|abbrev|record|data|unfoldable|opaque)\s+)*)([^\s(){}]+)\s(?:.*\s)?:(?:\s|$)", line)
        if head and indent_of(line) == lead and head[2] != "unfolding":
            yield not re.search(r"abbrev|record|data|unfoldable", head[1]), head[2]


def indent_of(line):
    return len(line) - len(line.lstrip())


def reached(sources, all_definitions):
    """The definitions of which public promises speak, in their own words or in those of others that they speak of."""
    seen, open_ = {}, []

    def meet(crate, words, uses):
        for word in NAME.findall(words):
            at = uses.get(word, (crate, word))
            it = all_definitions.get(at[0], {}).get(at[1])
            if it and not it.is_lemma and at not in seen:
                seen[at] = it
                open_.append(it)

    for crate, files in sources.items():
        for source in files:
            for words in [*source.ghosts, *(clause for call in source.calls for clause in call.clauses)]:
                meet(crate, words, source.uses)
    while open_:
        it = open_.pop()
        meet(it.crate, re.sub(r"--.*", "", it.text), it.uses)
    return seen


def statement(call, definitions):
    """The clauses of a call, or what a law states."""
    alone = re.fullmatch(r"ensures (?:\w+ )?\{ (\S+) \}", call.clauses[0]) if len(call.clauses) == 1 else None
    if alone and alone[1] in definitions:
        lines = [it for it in definitions[alone[1]].text.split("\n") if not it.lstrip().startswith("--") and not it.startswith("module")]
        lead = min(indent_of(it) for it in lines if it.strip())
        return [it[lead:] for it in lines]
    return call.clauses


def crates_in_order():
    with open("crates.txt", encoding="utf-8") as it:
        named = re.findall(r"^(\w+)(?: staticlib)?:", it.read(), re.M)
    return [it for it in named if not OURS.search(it)]


def about(crate):
    """What the first lines of the crate's root say of it."""
    root = text_of(f"crates/{crate}/src/lib.rt")
    lines = [it[3:].strip() for it in root.split("\n") if it.startswith("//!")]
    return re.split(r"(?<=[.])\s", " ".join(lines), maxsplit=1)[0]


def page(crate, calls, definitions):
    """The page of a crate whose public calls have clauses."""
    out = [f"# {crate}\n"]
    for call in calls:
        if call.clauses:
            told = f": {call.sentence()}" if call.doc else ""
            out.append("\n".join([f"`{call.name}`{told}", "```", *statement(call, definitions), "```", ""]))
    bare = [f"`{it.name}`" for it in calls if not it.clauses]
    if bare:
        out.append(f"With the clauses of their trait alone, or with none: {', '.join(bare)}.\n")
    return "\n".join(out)


def pages(sources, definitions):
    """Each page by its name, the index among them."""
    found, rows = {}, []
    for crate, files in sources.items():
        calls = [it for source in files for it in source.calls]
        if any(it.clauses for it in calls):
            found[f"{crate}.md"] = page(crate, calls, definitions[crate])
            rows.append(f"| [{crate}]({crate}.md) | {about(crate)} | {len(calls)} |\n")
    found[INDEX] = OPENING + "".join(rows)
    return found


def stale(found):
    """The pages that aren't as the sources have them, and those that nothing writes."""
    there = set(os.listdir(FOLDER)) if os.path.isdir(FOLDER) else set()
    for name in sorted(there | set(found)):
        if name not in there or name not in found or text_of(f"{FOLDER}/{name}") != found[name]:
            yield f"{FOLDER}/{name} is stale: run tools/contracts.py"


def write(found):
    os.makedirs(FOLDER, exist_ok=True)
    for name in os.listdir(FOLDER):
        if name not in found:
            os.remove(f"{FOLDER}/{name}")
    for name, text in found.items():
        with open(f"{FOLDER}/{name}", "w", encoding="utf-8") as it:
            it.write(text)


def misplaced(sources, definitions):
    """The definitions that stand in specs/inner/ though a public promise speaks of them, and those that don't, though none does."""
    seen = reached(sources, definitions)
    for crate, found in definitions.items():
        for it in found.values():
            is_inner = "/specs/inner/" in it.path
            if is_inner == ((crate, it.name) in seen):
                yield f"{it.path}: {it.name} {'is spoken of by a public promise' if is_inner else 'belongs in specs/inner/'}"


def plain_lines(text):
    """The lines of a text, without what only lays them out."""
    return [" ".join(it.split()) for it in text.rstrip("\n").split("\n")]


def misquoted():
    """What the tour quotes in its blocks that stands nowhere in the sources, line after line."""
    sources = [f"\n{chr(10).join(plain_lines(text_of(it)))}\n" for it in files_below("crates", (".antt", ".rt"))]
    for block in re.findall(r"(?ms)^```\w*\n(.*?)^```$", text_of(TOUR)):
        lines = plain_lines(block)
        if not any(f"\n{chr(10).join(lines)}\n" in it for it in sources):
            yield f"{TOUR} quotes what no source says: {lines[0]}"


def main(how):
    crates = crates_in_order()
    sources = {it: list(sources_of(it)) for it in crates}
    definitions = {it: definitions_of(it) for it in crates}
    found = pages(sources, definitions)
    if how == ["--check"]:
        wrong = [*misplaced(sources, definitions), *misquoted(), *stale(found)]
        print("\n".join([*wrong, f"{int(not wrong)} passed, {len(wrong)} failed"]))
        return 1 if wrong else 0
    write(found)
    return 0


if __name__ == "__main__":
    sys.exit(main(sys.argv[1:]))
