"""The table of options in crates/fc_words/src as a module: each subcommand with its words, read from the sources.

What the table says in a way that isn't understood here is a Fault.
"""
import glob
import re
from dataclasses import dataclass

TABLE = "crates/fc_words/src"
# The subcommands that a board alone means, the second where an option stands there that only it has.
ALONE, ALONE_SOLVED = "best", "solve"
# What is worth offering for texts that the program reads freely.
OFFERED = {
    "within": "1 1.1 1.2 1.3 1.5 2 3 4 5 6 7 8 9 10".split(),
    "budget": "100k 500k 1M 4M max".split(),
}
# A range of more numbers isn't listed.
MOST_LISTED = 10
FILES, FOLDERS = "files", "folders"

TOKEN = re.compile(r'(?:\s|//[^\n]*)*(?:("(?:[^"\\]|\\.)*")|(\d+)|(\w+)|(::|[&{}()\[\],:;.]))', re.S)
ITEM = re.compile(r"^( *)(?:pub(?:\(crate\))? )?(?:const|static) (\w+): [^=\n]+? =\s", re.M)
ESCAPES = {'\\"': '"', "\\\\": "\\", "\\n": "\n"}


class Fault(Exception):
    """The table isn't what this script understands."""


@dataclass
class Option:
    """An option of a subcommand; `value` is what help calls its value, `None` of a flag, and `offers` what is offered for it."""

    name: str
    help: str
    value: str = None
    offers: object = ()
    in_place_of: tuple = ()
    is_many: bool = False


@dataclass
class Subcommand:
    """A subcommand: its options, and the names of the words without dashes, which are files or else numbers."""

    name: str
    about: str
    options: list
    places: list
    has_files: bool

    def many(self):
        """The option that takes several files in place of numbers, if there is one."""
        return next((it.name for it in self.options if it.is_many), None)


class Module:
    """A source file: where its constants stand, and what its `use` lines bring."""

    def __init__(self, path):
        with open(path, encoding="utf-8") as it:
            self.text = it.read()
        self.path = path
        self.items = {self.owned(it): it.end() for it in ITEM.finditer(self.text)}
        self.brought = {}
        for it in re.finditer(r"^use (\w+)(?:::(\w+))?::(?:\{([^}]*)\}|(\w+));", self.text, re.M):
            for name in (it[3] or it[4]).replace(",", " ").split():
                self.brought[name] = (it[1], it[2])

    def owned(self, item):
        """The item's name, with its type's in front where it stands in an `impl`."""
        owners = re.findall(r"^impl (\w+)", self.text[: item.start()], re.M) if item[1] else []
        return f"{owners[-1]}::{item[2]}" if owners else item[2]


class Table:
    """The constants of all modules of the table, read as they are asked for."""

    def __init__(self):
        self.modules = {path: Module(path) for path in sorted(glob.glob(f"{TABLE}/*.rt"))}

    def module(self, name):
        path = f"{TABLE}/{name}.rt"
        if path not in self.modules:
            raise Fault(f"{path} is missing")
        return self.modules[path]

    def value(self, module, name):
        """What a constant is that a module calls by this name."""
        if name in module.items:
            return Reader(self, module, module.items[name]).item()
        crate, inner = module.brought.get(name.split("::")[0], (None, None))
        if crate == "crate" and inner:
            return self.value(self.module(inner), name)
        if crate and crate.startswith("fc_"):
            found = [it for it in map(Module, sorted(glob.glob(f"crates/{crate}/src/*.rt"))) if name in it.items]
            if len(found) == 1:
                return self.value(found[0], name)
        raise Fault(f"{module.path}: nothing is found by the name {name}")


class Reader:
    """Reads an expression of constants in a module's text."""

    def __init__(self, table, module, start):
        self.table, self.module, self.at = table, module, start
        self.token = None
        self.step()

    def step(self):
        """The token that stands here, passed over."""
        passed, found = self.token, TOKEN.match(self.module.text, self.at)
        self.token = found[found.lastindex] if found else ""
        self.at = found.end() if found else self.at
        return passed

    def wrong(self):
        line = self.module.text.count("\n", 0, self.at) + 1
        return Fault(f"{self.module.path}:{line}: isn't understood at {self.token!r}")

    def take(self, sign):
        """Passes over this sign, which must stand here."""
        if self.token != sign:
            raise self.wrong()
        return self.step()

    def item(self):
        """The value up to the end of its item."""
        value = self.value()
        if self.token != ";":
            raise self.wrong()
        return value

    def value(self):
        """A text, a number, a list or tuple, a struct as a dictionary, or a variant as a tuple of its path and what it holds."""
        if self.token == "&":
            self.step()
            return self.value()
        if self.token[:1] == '"':
            return unescaped(self.step())
        if self.token.isdecimal():
            return int(self.step())
        if self.token in ("[", "("):
            return self.several({"[": "]", "(": ")"}[self.step()])
        if re.fullmatch(r"\w+", self.token):
            return self.named()
        raise self.wrong()

    def several(self, end):
        """The values up to the closing bracket."""
        found = []
        while self.token != end:
            found.append(self.value())
            if self.token != end:
                self.take(",")
        self.take(end)
        return found

    def fields(self):
        """The fields of a struct, behind its opening bracket."""
        found = {}
        while self.token != "}":
            name = self.step()
            self.take(":")
            found[name] = self.value()
            if self.token != "}":
                self.take(",")
        self.take("}")
        return found

    def named(self):
        """What begins with a name: a struct, a variant, or a constant."""
        path = self.step()
        while self.token == "::":
            path += self.step() + self.step()
        if self.token == "{":
            self.step()
            held = self.fields()
            return (path, held) if "::" in path else held
        if self.token == "(":
            self.step()
            held = self.several(")")
            return held[0] if path == "Some" and len(held) == 1 else (path, *held)
        if path == "None":
            return None
        if path == "u8::MAX":
            return 255
        if path.startswith(("Kind::", "Task::")):
            return (path,)
        return self.table.value(self.module, path)


def unescaped(text):
    """The text of a string literal."""
    found = re.sub(r"\\\n\s*", "", text[1:-1])
    unknown = set(re.findall(r"\\.", found)) - set(ESCAPES)
    if unknown:
        raise Fault(f"an escape isn't understood: {unknown}")
    return re.sub(r"\\.", lambda it: ESCAPES[it[0]], found)


def numbers(least, most):
    """The numbers of a range, where they aren't many."""
    return [str(it) for it in range(least, most + 1)] if most - least < MOST_LISTED else []


def option_of(word):
    """A word of the table as an option; `None` where it has no dashes."""
    if not isinstance(word, dict) or set(word) != {"name", "kind", "help"}:
        raise Fault(f"a word isn't understood: {word}")
    told, *held = word["kind"]
    option = Option(word["name"], " ".join(word["help"].split()))
    kind, instead = re.fullmatch(r"(?:Kind::)?(.+?)(InPlaceOf|Unless)?", told).groups()
    if instead and held:
        others = held.pop()
        option.in_place_of = tuple([others] if isinstance(others, str) else others)
    match kind, held:
        case "Flag", []:
            pass
        case "Number", [{"value": value, "range": [least, most]}]:
            option.value, option.offers = value, numbers(least, most)
        case ("Name" | "NameByOthers"), [names]:
            option.value, option.offers = "NAME", names
        case "Text", [{"value": value}]:
            option.value = value
            option.offers = {"FILE": FILES, "FOLDER": FOLDERS}.get(value, OFFERED.get(option.name, ()))
        case ("Deal" | "Entry"), []:
            option.value = "N"
        case "Files", []:
            option.value, option.offers, option.is_many = "FILE", FILES, True
        case ("DealNumber" | "Needed" | "Optional"), []:
            return None
        case _:
            raise Fault(f"the kind of the word {word['name']} isn't understood: {word['kind']}")
    for it in [option.name, *([] if isinstance(option.offers, str) else option.offers)]:
        if not re.fullmatch(r"[\w.-]+", it):
            raise Fault(f"shells would read {it!r}, of the word {option.name}, as more than a word")
    return option


def subcommand_of(name, item):
    if not isinstance(item, dict) or set(item) != {"about", "after_help", "words"}:
        raise Fault(f"the subcommand {name} isn't understood")
    words = item["words"]
    options = [it for it in map(option_of, words) if it]
    places = [it["name"] for it in words if option_of(it) is None]
    has_files = any(it["kind"][0].startswith(("Kind::Needed", "Kind::Optional")) for it in words)
    return Subcommand(name, item["about"], options, places, has_files)


def subcommands(table):
    """Each subcommand, in the order of help."""
    tasks, home = table.module("tasks"), table.module("subcommands")
    arms = dict(re.findall(r"^ +(Task::\w+) => &(\w+),$", home.text, re.M))
    names, variants = table.value(tasks, "Task::NAMES"), table.value(tasks, "Task::ALL")
    if len(names) != len(variants) or {it for it, in variants} != set(arms):
        raise Fault("the tasks aren't those that subcommand_of knows")
    found = [subcommand_of(name, table.value(home, arms[it])) for name, (it,) in zip(names, variants)]
    lacking = set(OFFERED) - {it.name for one in found for it in one.options}
    if lacking:
        raise Fault(f"no subcommand has an option of the name {sorted(lacking)[0]}")
    return found


def only_solving(table):
    """The names of the options that make a board alone be solved."""
    module = table.module("alone")
    body = re.search(r"^fn asks_to_solve\(.*?^\}", module.text, re.M | re.S)
    found = re.findall(r"has_option\(words, (\w+)\.name\)", body[0]) if body else []
    if not found:
        raise Fault(f"{module.path}: asks_to_solve isn't understood")
    return [table.value(module, it)["name"] for it in found]


def alone(found, solving):
    """A board alone as a subcommand without a name."""
    by_name = {it.name: it for it in found}
    if not {ALONE, ALONE_SOLVED} <= set(by_name):
        raise Fault(f"{ALONE} or {ALONE_SOLVED} is no subcommand")
    best, solve = by_name[ALONE], by_name[ALONE_SOLVED]
    more = [it for it in solve.options if it.name in solving]
    if len(more) != len(solving) or any(it.name in solving for it in best.options):
        raise Fault(f"a board alone is solved by options that aren't those of {ALONE_SOLVED} only")
    return Subcommand("alone", best.about, [*best.options, *more], best.places, best.has_files)
