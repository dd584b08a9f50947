#!/usr/bin/env python3
"""Holds the tree to its limits of size, of names and of what stands on what, which docs/MAP.md states, and says what is past one.

usage, at the top of the repository:  limits.py

The last line is 'N passed, M failed'.
"""
import os
import re
import sys

sys.dont_write_bytecode = True
from contracts import files_below, heads_of, text_of

MOST_PARAMETERS = 6
MOST_LINES = 400
# Of a clause, with its blanks collapsed.
MOST_LETTERS = 240
# A definition is named for a thing, not for what was done to one: these and words that end in -ed are no names.
PARTICIPLES = set("begun built dealt drawn found given gone grown heard held kept known laid left lost made met put read said seen sent "
                  "shown spelt split spent stood taken told written".split())
# Of the README of a crate.
MOST_WORDS = 150
# The product's definition writes these calls out, with a game, a home rule and a budget one by one.
WRITTEN_OUT = {"run_solve", "run_batch"}
TESTS = re.compile(r"crates/\w+_tests/")
# What a search is made of, and the checker, which may stand on nothing that does.
OF_SEARCHES = {"fc_frontier", "fc_best_first"}
CHECKER = "fc_checker"
# A module has a name of its own among those of the crates below its crate, but for these; a crate of tests or measurements names its
# modules by what it looks at.
COMMON_MODULES = {"lib", "main", "laws", "faults", "written_out"}
BY_SUBJECT = re.compile(r"fc_(\w+_)?(tests|bench)$")


def parted(words, at):
    """The words parted at a sign, but for where it stands in brackets."""
    depth, parts = 0, [""]
    for it in words.replace("->", "  "):
        depth += (it in "([{<") - (it in ")]}>")
        if it == at and depth == 0:
            parts.append("")
        else:
            parts[-1] += it
    return [it.strip() for it in parts if it.strip()]


def enclosed(text, start, pair="()"):
    """What stands in the brackets of this kind that open at this place."""
    depth = 0
    for at in range(start, len(text)):
        depth += (text[at] == pair[0]) - (text[at] == pair[1])
        if depth == 0:
            return text[start + 1 : at]
    return text[start + 1 :]


def functions(path):
    """Each function of a source file with the number of its parameters, but for `self`."""
    text = text_of(path)
    for it in re.finditer(r"^ *(?:pub(?:\(crate\))? )?fn (\w+)(<.*>)?\(", text, re.M):
        given = parted(enclosed(text, it.end() - 1), ",")
        yield it[1], sum(not re.fullmatch(r"(&('\w+ )?)?(mut )?self", one) for one in given)


def definitions(path):
    """Each definition of a file of specs/ with the number of its parameters, but for those in braces."""
    for block in re.split(r"\n\s*\n", text_of(path)):
        names = {name for is_lemma, name in heads_of(block) if not is_lemma}
        lines = [it for it in block.split("\n") if not it.lstrip().startswith("--")]
        for at, line in enumerate(lines):
            head = re.match(r"\s*(?:(?:pub|abbrev|record|data|unfoldable|opaque) )+(\S+)\s(.*)", line)
            if head and head[1] in names:
                said = head[2]
                for more in lines[at + 1 :]:
                    if not more.startswith(" " * (len(line) - len(line.lstrip()) + 4)) or said.endswith("where"):
                        break
                    said += " " + more.strip()
                yield head[1], parameters(re.sub(r"\bwhere$", "", said))


def clauses(path):
    """Each clause of a source file that promises something, with the line where it begins and its length."""
    text = text_of(path)
    for it in re.finditer(r"^ *(?:ensures|requires|ghost \w+ =)[^\n{]*\{", text, re.M):
        said = it[0].strip() + enclosed(text, it.end() - 1, "{}") + "}"
        yield text.count("\n", 0, it.start()) + 1, len(re.sub(r"\s+", " ", said))


def is_participle(name):
    return name.isalpha() and name.islower() and (name.endswith("ed") or name in PARTICIPLES)


def parameters(said):
    """How many parameters stand before the colon of a definition's head and before its last arrow."""
    before, _, kind = said.partition(":") if not said.startswith("(") else split_at_colon(said)
    named = sum(len(it.split()) for it in re.findall(r"\(([^():]*) :", before))
    for part in parted(kind.replace("→", ";"), ";")[:-1]:
        bound = re.match(r"\(([^():]*) :", part)
        if not part.startswith("{"):
            named += len(bound[1].split()) if bound else 1
    return named


def split_at_colon(said):
    """The words before the colon that stands outside of brackets, and those behind it."""
    depth = 0
    for at, it in enumerate(said):
        depth += (it in "([{") - (it in ")]}")
        if it == ":" and depth == 0:
            return said[:at], ":", said[at + 1 :]
    return said, "", ""


def past_limits():
    for path in files_below("crates", ".rt"):
        for line, letters in clauses(path):
            if letters > MOST_LETTERS:
                yield f"{path}:{line}: a clause of {letters} letters"
        for name, count in functions(path):
            if count > MOST_PARAMETERS and name not in WRITTEN_OUT and not TESTS.match(path):
                yield f"{path}: the function {name} has {count} parameters"
    for path in files_below("crates", ".antt"):
        if "/specs/" in path:
            for name, count in definitions(path):
                if count > MOST_PARAMETERS:
                    yield f"{path}: the definition {name} has {count} parameters"
                if is_participle(name[0].lower() + name[1:]):
                    yield f"{path}: the definition {name} has a participle for a name"
    for path in [*files_below("crates", ".rt"), *files_below("crates", ".antt")]:
        lines = text_of(path).count("\n")
        if lines > MOST_LINES and not TESTS.match(path):
            yield f"{path}: {lines} lines"


def crates_below(stands_on, name):
    """The crates that a crate stands on, those that they stand on too."""
    found, left = set(), [name]
    while left:
        for it in stands_on.get(left.pop(), []):
            if it not in found:
                found.add(it)
                left.append(it)
    return found


def of_searches(lines):
    """Which crates that know of a search the checker stands on, by these lines of crates.txt."""
    stands_on = {}
    for line in lines:
        name, _, below = line.partition("#")[0].partition(":")
        if name.strip():
            stands_on[name.split()[0]] = below.split()
    for name in sorted(crates_below(stands_on, CHECKER)):
        if OF_SEARCHES & {name, *crates_below(stands_on, name)}:
            yield f"crates.txt: {CHECKER} stands on {name}, which knows of a search"


def of_readmes(lines):
    """Which crates of these lines of crates.txt have no README, or one that is too long."""
    for name in re.findall(r"^(\w+)(?: staticlib)?:", "\n".join(lines), re.M):
        path = f"crates/{name}/README.md"
        words = len(text_of(path).split()) if os.path.exists(path) else 0
        if not 0 < words <= MOST_WORDS:
            yield f"{path}: {words} words, where 1 to {MOST_WORDS} are to stand"


def of_names(lines):
    """Which crates of the repository these lines of crates.txt list for a crate that no file of it names."""
    for name, below in re.findall(r"^(\w+)(?: staticlib)?:(.*)$", "\n".join(lines), re.M):
        paths = [*files_below(f"crates/{name}", ".rt"), *files_below(f"crates/{name}", ".antt")]
        named = {it for path in paths for it in re.findall(r"\b(fc_\w+)(?:::|\.)", text_of(path))}
        for it in below.split():
            if it.startswith("fc_") and it not in named:
                yield f"crates.txt: {name} lists {it}, which none of its files names"


def modules_of(name):
    """The modules of a crate."""
    return {os.path.basename(it).removesuffix(".rt") for it in files_below(f"crates/{name}/src", ".rt")}


def of_modules(lines):
    """Which modules of these lines' crates have the name of one of a crate below."""
    stands_on = {name: below.split() for name, below in re.findall(r"^(\w+)(?: staticlib)?:(.*)$", "\n".join(lines), re.M)}
    for name in (it for it in stands_on if not BY_SUBJECT.match(it)):
        own = modules_of(name) - COMMON_MODULES
        for below in sorted(crates_below(stands_on, name) & set(stands_on)):
            for twice in sorted(own & modules_of(below)):
                yield f"crates/{name}/src/{twice}.rt: {below} below it has a module of this name"


def main():
    lines = text_of("crates.txt").splitlines()
    wrong = [*past_limits(), *of_searches(lines), *of_readmes(lines), *of_names(lines), *of_modules(lines)]
    print("\n".join([*wrong, f"{int(not wrong)} passed, {len(wrong)} failed"]))
    return 1 if wrong else 0


if __name__ == "__main__":
    sys.exit(main())
