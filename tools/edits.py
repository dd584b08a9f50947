"""Wrong edits of a crate: what they change, in which functions, and how many of them go into one text."""
import os
import re
import sys
from dataclasses import dataclass, field

sys.dont_write_bytecode = True
from judged import read
from kit import rt


@dataclass
class Function:
    """A function of a source file: the end of the name that a check gives it, the span of its text, and where a copy of it can
    stand with its proof: beside it, in an impl with this head, or nowhere."""

    path: str
    module: str
    name: str
    begin: int
    end: int
    copies: str | None

    def has(self, at):
        return self.begin <= at < self.end


@dataclass
class Edit:
    """A wrong edit of a crate: its changes of texts, the names of the functions that must be refused, and the functions whose own
    text it changes (none where it names them)."""

    name: str
    changes: list
    functions: set = field(default_factory=set)
    within: list = field(default_factory=list)

    def is_of_copy(self):
        """Whether it can change a copy of a function in the function's place."""
        return len(self.within) == 1 and self.within[0].copies is not None


class BadEdit(Exception):
    """Why an edit says nothing: it doesn't apply, or doesn't read."""


def bare(text):
    """A type without what stands in angle brackets."""
    while re.search(r"<[^<>]*>", text):
        text = re.sub(r"<[^<>]*>", "", text)
    return text


def last_name(text):
    """The last name of a type's path."""
    return re.sub(r"\W", "", bare(text).strip().split("::")[-1])


def parts_of(head):
    """The type parameters of an impl's head, the trait with its arguments ('' where there is none), the type, and what follows."""
    said, where, bounds = re.sub(r"^(pub +)?(impl|trait)\b", "", head.strip()).partition(" where ")
    depth = 0
    for at, letter in enumerate(f"{said} "):
        depth += (letter == "<") - (letter == ">")
        if not depth and letter != ">":
            break
    trait, _, kind = said[at:].rpartition(" for ")
    return said[:at].strip(), trait.strip(), kind.strip(), where + bounds


def owner_of(head):
    """How a check spells the type of an impl or a trait: 'impl<R: Read> Source for FromReader<R>' is FromReaderSource, and
    'impl From<AllocError> for Full' is FullFromAllocError; of a type parameter it is Any."""
    parameters, trait, kind, _ = parts_of(head)
    if not trait:
        return last_name(bare(kind).partition(":")[0])
    name, _, arguments = trait.partition("<")
    owner = "Any" if last_name(kind) in names_of(parameters) else last_name(kind)
    return owner + last_name(name) + "".join(last_name(it) for it in bare(arguments.rpartition(">")[0]).split(","))


def names_of(parameters):
    """The names of type parameters, as '<R: Read, W>'."""
    return [last_name(it.partition(":")[0]) for it in parameters[1:-1].split(",")]


def place_of_copies(head, code):
    """Where copies of a method can stand: '' beside it, else the head of an impl of the type alone, which needs the contract in
    the method's own text, or None."""
    parameters, trait, kind, where = parts_of(head)
    if head.startswith("impl") and not trait:
        return ""
    is_whole = head.startswith("impl") and "ensures" in code and "Self::" not in code
    return f"impl{parameters} {kind}{where}" if is_whole and last_name(kind) not in names_of(parameters) else None


def functions_of(path, text):
    """Each function of a formatted source file."""
    module = [] if path in ("src/lib.rt", "src/main.rt") else re.sub(r"(/mod)?\.rt$", "", path)[4:].split("/")
    found, at, impl, begun = [], 0, "", None
    for line in text.splitlines(True):
        head = re.match(r"( *)(?:pub(?:\([^)]*\))? +|const +|final +|unsafe +|extern +\"C\" +)*fn +(\w+)", line)
        if re.match(r"(pub +)?(impl|trait)\b", line):
            impl = text[at : text.find("{", at)]
        elif head:
            begun = (at, head[1], [*([owner_of(impl)] if head[1] else module), head[2]])
        elif begun and line.rstrip() == begun[1] + "}":
            code = text[begun[0] : at]
            itself = re.search(rf"(\bself\.|\bSelf::|(?<![\w.:])){begun[2][-1]}\(", code.partition("(")[2])
            copies = None if itself else place_of_copies(impl, code) if begun[1] else ""
            found.append(Function(path, "::".join(module), "::".join(begun[2]), begun[0], at + len(line), copies))
            begun = None
        at += len(line)
    return found


def changes_of(text):
    """The changes of an edit's text: the file, the old text and the new one."""
    path, old, found = "", None, []
    for line in text.split("\n"):
        if line.startswith("file: "):
            path = line[len("file: ") :].strip()
        elif line.startswith("old: "):
            old = line[len("old: ") :]
        elif line.startswith("new:"):
            found.append((path, old, line[len("new:") :].removeprefix(" ")))
    return found


def applied(folder, changes):
    """The texts of the files that the changes make, by their path, or None where an old text does not stand once."""
    texts = {}
    for path, old, new in changes:
        texts[path] = texts.get(path) or read(f"{folder}/{path}")
        if texts[path].count(old) != 1:
            return None
        texts[path] = texts[path].replace(old, new)
    return texts


def read_edit(crate, name):
    """An edit with the functions whose text it changes."""
    text = read(f"{crate.folder}/breaks/{name}")
    _, why = rt.edited(text, crate.folder)
    if why:
        raise BadEdit(why)
    edit = Edit(name, changes_of(text), {*re.findall(r"(?m)^fn: (\S+)", text)})
    if edit.functions:
        return edit
    texts, found = {}, {}
    for path, old, new in edit.changes:
        texts[path] = texts.get(path) or read(f"{crate.folder}/{path}")
        at = texts[path].find(old)
        inside = [it for it in functions_of(path, texts[path]) if it.has(at)] if path.startswith("src/") else []
        if not inside:
            raise BadEdit("it changes no function's text: name the function by a line 'fn: MODULE::NAME'")
        function = max(inside, key=lambda it: it.begin)
        # (the first change finds the function where it stands in the file)
        found.setdefault((path, function.name), function)
        texts[path] = texts[path].replace(old, new)
    edit.within = [*found.values()]
    edit.functions = {it.name for it in edit.within}
    return edit


def parted(wave):
    """The edits of a wave that change a function in place, and those that change a copy of it."""
    in_place, copies, taken = [], [], set()
    for edit in wave:
        (copies if edit.functions & taken else in_place).append(edit)
        taken |= edit.functions
    return in_place, copies


def in_waves(crate, edits):
    """Puts each edit into the first wave where it changes another function than the others, and where each old text stands once,
    or where it can change a copy."""
    waves = []
    for edit in edits:
        for wave in waves:
            in_place, copies = parted([*wave, edit])
            copied = {it for other in copies for it in other.functions}
            # (what changes more than a function's text would change its copies too)
            is_fit = all(it.is_of_copy() for it in copies) and all(it.within for it in in_place if it.functions & copied)
            if is_fit and applied(crate.folder, [it for other in in_place for it in other.changes]):
                wave.append(edit)
                break
        else:
            waves.append([edit])
    return waves


def module_of_proof(crate, method):
    """The module that a method's proof stands in: that of its type, which may be declared in another file than the method."""
    proofs = f"{crate.folder}/proofs"
    for folder, _, _ in os.walk(proofs):
        if folder.endswith(f"/{'/'.join(method)}"):
            return os.path.relpath(folder, proofs).split("/")[: -len(method)]
    return None


def add_copy(crate, texts, function, changes, number):
    """Adds a copy of a function to the texts, with its proof and these changes of its own text. Returns its name."""
    path = function.path
    code = read(f"{crate.folder}/{path}")[function.begin : function.end]
    for _, old, new in changes:
        code = code.replace(old, new)
    *owner, last = function.name.split("::")
    code = re.sub(rf"\bfn +{last}\b", f"fn {last}_copy{number}", code, count=1)
    text = texts.get(path) or read(f"{crate.folder}/{path}")
    if function.copies:
        texts[path] = f"{text}\n{function.copies} {{\n{code}}}\n"
        new_owner = [owner_of(function.copies)]
    else:
        end = next(it.end for it in functions_of(path, text) if it.name == function.name)
        texts[path] = f"{text[:end]}\n{code}{text[end:]}"
        new_owner = owner
    # (a method's name has no module, a function's has)
    module = [] if function.name.startswith(f"{function.module}::") else function.module.split("::") if function.module else []
    if module:
        module = module_of_proof(crate, [*owner, last]) or module
    was, now = [*module, *owner, last], [*module, *new_owner, f"{last}_copy{number}"]
    at = f"{crate.folder}/proofs/{'/'.join(was)}"
    own = rf"(Rattle\.{crate.name}\.(?:proofs|specs\.contracts)\.){re.escape('.'.join(was))}(?![\w-])"
    for file in os.listdir(at) if os.path.isdir(at) else []:
        texts[f"proofs/{'/'.join(now)}/{file}"] = re.sub(own, rf"\g<1>{'.'.join(now)}", read(f"{at}/{file}"))
    return "::".join([*new_owner, f"{last}_copy{number}"])


def put_together(crate, wave):
    """The texts of a wave, for each edit the names of the functions that must be refused, and the names of copies without an edit."""
    in_place, copies = parted(wave)
    texts = applied(crate.folder, [it for edit in in_place for it in edit.changes])
    functions = {edit.name: edit.functions for edit in in_place}
    copied = {it.name: it for edit in copies for it in edit.within}
    as_they_are = {add_copy(crate, texts, it, [], 0) for it in copied.values()}
    for number, edit in enumerate(copies, 1):
        functions[edit.name] = {add_copy(crate, texts, edit.within[0], edit.changes, number)}
    return texts, functions, as_they_are
