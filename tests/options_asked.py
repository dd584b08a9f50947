#!/usr/bin/env python3
"""Tells each option of a command that no row of a table asks for.

usage, at the top of the repository:  options_asked.py TABLE
"""
import re
import sys

sys.dont_write_bytecode = True
sys.path.insert(0, "tools")
from options import Table, subcommands


def asked_in(path):
    """The options that a table's rows ask for, each after its command."""
    asked, command = set(), None
    with open(path, encoding="utf-8") as it:
        for line in it:
            if line.startswith("run\t"):
                command = line.split("\t")[1].strip()
            if command and not line.startswith(("#", "let\t", "use\t", "columns\t")):
                asked.update((command, name) for name in re.findall(r"--([a-z-]+)", line))
    return asked


def main(paths):
    asked = asked_in(paths[0])
    for command in subcommands(Table()):
        for option in command.options:
            if (command.name, option.name) not in asked:
                print(f"{command.name} --{option.name}: no row asks for it")


if __name__ == "__main__":
    main(sys.argv[1:])
