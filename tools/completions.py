#!/usr/bin/env python3
"""Completions of fc_solve's words for bash, zsh and fish, made from the table of options in crates/fc_words/src.

usage, at the top of the repository:  completions.py            says which of docs/fc_solve.{bash,zsh,fish} is stale
                                      completions.py --write    writes them

The last line is 'N passed, M failed'. Where the table isn't understood, nothing is written, and the status is 3.
"""
import sys

sys.dont_write_bytecode = True
from options import ALONE_SOLVED, FILES, FOLDERS, Fault, Option, Table, alone, only_solving, subcommands

# What clap adds by itself.
HELP = Option("help", "Print help")
VERSION = Option("version", "Print version")
HELP_ABOUT = "Print this message or the help of the given subcommand(s)"
MADE = "# tools/completions.py makes it from the table of options."

BASH = """# Completion of fc_solve's words in bash:  . docs/fc_solve.bash
@MADE@

_fc_solve() {
  local word=${COMP_WORDS[COMP_CWORD]} before=${COMP_WORDS[COMP_CWORD - 1]} command=${COMP_WORDS[1]} line=" ${COMP_WORDS[*]}" words=
  COMPREPLY=()
  # (bash takes the `=` of --game=bakers for a word)
  [[ $before == = ]] && before=${COMP_WORDS[COMP_CWORD - 2]}
  [[ $word == = ]] && word=
  case $command in
    @COMMANDS@ | help) ;;
    # a board alone, or an option in front of it
    *)
      command=alone
      [[ $line == *" --"@(@SOLVING@)* ]] && command=@SOLVE@
      ;;
  esac
  ((COMP_CWORD == 1)) && [[ $word != -* ]] && command=first
  case "$command $before" in
@VALUES@
    *)
      case $command in
        first) words="@NAMES@ help" ;;
        help) words="@NAMES@" ;;
@OPTIONS@
      esac
      ((COMP_CWORD == 1)) && [[ $word == -* ]] && words="$words --version"
      # what has no dash is a file, but where a name or a number stands
      if [[ $word != -* ]]; then
        case "$command $line" in
          "first "* | "help "*) ;;
@FILES@
          *) return ;;
        esac
      fi
      ;;
  esac
  # no file stands in place of a value, but one may in place of a subcommand
  [[ $command == first ]] || compopt +o default 2>/dev/null
  mapfile -t COMPREPLY < <(compgen -W "$words" -- "$word")
}
complete -o default -F _fc_solve fc_solve ./fc_solve
"""

ZSH = """#compdef fc_solve
# Completion of fc_solve's words in zsh: as _fc_solve in a folder of $fpath, or behind compinit:  . docs/fc_solve.zsh
@MADE@

@FUNCTIONS@

_fc_solve_subcommands() {
  local -a subcommands=(
@NAMES@
  )
  _describe -t subcommands subcommand subcommands
}

_fc_solve() {
  local command=$words[2] missed=1
  if ((CURRENT == 2)) && [[ $command != -* ]]; then
    _fc_solve_subcommands && missed=0
    _files && missed=0
    return missed
  fi
  case $command in
    (@COMMANDS@|help)
      shift words
      ((CURRENT--))
      _fc_solve_$command
      ;;
    # a board alone, or an option in front of it
    (*)
      local -a first
      ((CURRENT == 2)) && first=('(- *)'{-V,--version}'[@VERSION@]')
      if ((${words[(I)--(@SOLVING@)*]})); then
        _fc_solve_@SOLVE@ $first
      else
        _fc_solve_alone $first
      fi
      ;;
  esac
}

# Zsh calls what it loads from $fpath.
if [[ $funcstack[1] == _fc_solve ]]; then
  _fc_solve "$@"
else
  compdef _fc_solve fc_solve
fi
"""

FISH = """# Completion of fc_solve's words in fish: in ~/.config/fish/completions, or:  source docs/fc_solve.fish
@MADE@

# The subcommand of the line; `first` where none can stand there yet, and `alone` where a board does, or an option in front of it.
function __fc_solve_command
    set -l words (commandline -opc)
    set -e words[1]
    if not set -q words[1]
        echo first
    else if contains -- $words[1] @COMMANDS@ help
        echo $words[1]
    else if string match -qr -- '^--(@SOLVING@)' $words
        echo @SOLVE@
    else
        echo alone
    end
end

function __fc_solve_for
    contains -- (__fc_solve_command) $argv
end

@LINES@
"""


def filled(text, **parts):
    """The text with its parts in place of their names."""
    for name, part in {"MADE": MADE, **parts}.items():
        text = text.replace(f"@{name}@", part)
    return text


# bash


def offers_of(found):
    """Each option with a value, by whose subcommands: patterns of `subcommand --option` for each thing that is offered."""
    by_name = {}
    for one in found:
        for it in one.options:
            offers = it.offers if isinstance(it.offers, str) else " ".join(it.offers)
            by_name.setdefault(it.name, []).append((one.name, None if it.value is None else offers))
    patterns = {}
    for name, told in by_name.items():
        agree = len({offers for _, offers in told}) == 1
        for command, offers in told[:1] if agree else told:
            if offers is not None:
                patterns.setdefault(offers, []).append(f'*" --{name}"' if agree else f'"{command} --{name}"')
    return patterns


def bash_values(found):
    """The arms of options with values."""
    folders = 'mapfile -t COMPREPLY < <(compgen -d -- "$word"); compopt -o filenames 2>/dev/null; return'
    for offers, patterns in offers_of(found).items():
        does = {FILES: "return", FOLDERS: folders, "": ""}.get(offers, f'words="{offers}"')
        yield f"    {' | '.join(patterns)}) {does} ;;".replace("  ;;", " ;;")


def bash(found, by_itself, solving):
    names = [it.name for it in found]
    options = [(it.name, " ".join(f"--{one.name}" for one in [*it.options, HELP])) for it in [*found, by_itself]]
    numbers = [it for it in found if not it.has_files]
    files = [f'          "{it.name} "*" --{it.many()} "*) return ;;' for it in numbers if it.many()]
    none = " | ".join(f'"{it.name} "*' for it in numbers)
    return filled(
        BASH,
        COMMANDS=" | ".join(names),
        NAMES=" ".join(names),
        SOLVING="|".join(solving),
        SOLVE=ALONE_SOLVED,
        VALUES="\n".join(bash_values([*found, by_itself])),
        OPTIONS="\n".join(f'        {name}) words="{words}" ;;' for name, words in options),
        FILES="\n".join([*files, f"          {none}) words= ;;"]),
    )


# zsh


def quoted(text):
    return "'" + text.replace("'", "'\\''") + "'"


def escaped(text, signs):
    """The text with a backslash before each of these signs."""
    return "".join("\\" + it if it in signs else it for it in text)


def zsh_action(offers):
    """How what is offered is completed; a blank says that nothing is."""
    if isinstance(offers, str):
        return {FILES: "_files", FOLDERS: "_files -/"}[offers]
    return f"({' '.join(offers)})" if offers else " "


def zsh_option(option, places):
    """An option as _arguments takes it, with what it stands in place of in front; places are told by their numbers."""
    others = [str(places.index(it) + 1) if it in places else f"--{it}" for it in option.in_place_of]
    before = f"({' '.join(others)})" if others else ""
    sign, value = ("", "") if option.value is None else ("=", f":{option.value}:{zsh_action(option.offers)}")
    return quoted(f"{before}--{option.name}{sign}[{escaped(option.help, '[]:')}]{value}")


def zsh_places(one):
    """The words without dashes: files, or numbers, in place of which several files may stand behind an option."""
    many = one.many()
    action = "_files" if one.has_files else f"{{((${{words[(I)--{many}]}})) && _files}}" if many else " "
    if many:
        return [quoted(f"*:{' '.join(one.places)}:{action}")]
    return [quoted(f"{at}:{it}:{action}") for at, it in enumerate(one.places, 1)]


def zsh_function(one):
    options = [zsh_option(it, one.places) for it in one.options]
    by_help = "'(- *)'{-h,--help}" + quoted(f"[{HELP.help}]")
    specs = [*options, by_help, *zsh_places(one)]
    return f"_fc_solve_{one.name}() {{\n" + " \\\n".join(['  _arguments "$@"', *(f"    {it}" for it in specs)]) + "\n}"


def zsh(found, by_itself, solving):
    abouts = [*((it.name, it.about) for it in found), ("help", HELP_ABOUT)]
    helping = "_fc_solve_help() {\n  _arguments '1:subcommand:_fc_solve_subcommands'\n}"
    return filled(
        ZSH,
        FUNCTIONS="\n\n".join([*map(zsh_function, [*found, by_itself]), helping]),
        NAMES="\n".join("    " + quoted(f"{name}:{escaped(about, ':')}") for name, about in abouts),
        COMMANDS="|".join(it.name for it in found),
        VERSION=VERSION.help,
        SOLVING="|".join(solving),
        SOLVE=ALONE_SOLVED,
    )


# fish


def fish_quoted(text):
    return "'" + escaped(text, "\\'") + "'"


def fish_line(commands, rest):
    return f"complete -c fc_solve -n {fish_quoted('__fc_solve_for ' + ' '.join(commands))} {rest}"


def fish_option(option):
    """What the line of an option says of it."""
    if option.value is None:
        value = ""
    elif isinstance(option.offers, str):
        value = {FILES: " -r -F", FOLDERS: " -x -a '(__fish_complete_directories)'"}[option.offers]
    else:
        value = f" -x -k -a {fish_quoted(' '.join(option.offers))}" if option.offers else " -x"
    return f"-l {option.name}{value} -d {fish_quoted(option.help)}"


def fish_options(found, by_itself):
    """A line for each option, told in the same words of which subcommands it may be."""
    lines = {}
    for one in [*found, by_itself]:
        for it in one.options:
            lines.setdefault(fish_option(it), []).extend(["alone", "first"] if one is by_itself else [one.name])
    return [fish_line(commands, rest) for rest, commands in lines.items()]


def fish_places(found):
    """Where no file may stand."""
    yield fish_line([*(it.name for it in found if not it.has_files and not it.many()), "help"], "-f")
    for it in found:
        if not it.has_files and it.many():
            yield f"complete -c fc_solve -n '__fc_solve_for {it.name}; and not contains -- --{it.many()} (commandline -opc)' -f"


def fish(found, by_itself, solving):
    subcommands = [fish_line(["first", "help"], f"-a {it.name} -d {fish_quoted(it.about)}") for it in found]
    by_clap = [
        fish_line(["first"], f"-a help -d {fish_quoted(HELP_ABOUT)}"),
        fish_line(["first", "alone", *(it.name for it in found)], f"-s h -l {HELP.name} -d {fish_quoted(HELP.help)}"),
        fish_line(["first"], f"-s V -l {VERSION.name} -d {fish_quoted(VERSION.help)}"),
    ]
    return filled(
        FISH,
        COMMANDS=" ".join(it.name for it in found),
        SOLVING="|".join(solving),
        SOLVE=ALONE_SOLVED,
        LINES="\n".join([*subcommands, *by_clap, *fish_places(found), *fish_options(found, by_itself)]),
    )


def text_of(path):
    try:
        with open(path, encoding="utf-8") as it:
            return it.read()
    except FileNotFoundError:
        return ""


def made():
    """Each file's text, as the table has it."""
    table = Table()
    found, solving = subcommands(table), only_solving(table)
    by_itself = alone(found, solving)
    return {f"docs/fc_solve.{it.__name__}": it(found, by_itself, solving) for it in (bash, zsh, fish)}


def main():
    if sys.argv[1:] not in ([], ["--write"]):
        print(__doc__, file=sys.stderr)
        return 3
    try:
        texts = made()
    except Fault as fault:
        print(f"completions.py: {fault}", file=sys.stderr)
        return 3
    stale = [path for path, text in texts.items() if text_of(path) != text]
    if sys.argv[1:]:
        for path in stale:
            with open(path, "w", encoding="utf-8") as it:
                it.write(texts[path])
        stale = []
    for path in stale:
        print(f"{path} isn't what the table of options says: tools/completions.py --write makes it anew")
    print(f"{len(texts) - len(stale)} passed, {len(stale)} failed")
    return 1 if stale else 0


if __name__ == "__main__":
    sys.exit(main())
