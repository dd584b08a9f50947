#compdef fc_solve
# Completion of fc_solve's words in zsh: as _fc_solve in a folder of $fpath, or behind compinit:  . docs/fc_solve.zsh
# tools/completions.py makes it from the table of options.

_fc_solve_deal() {
  _arguments "$@" \
    '(- *)'{-h,--help}'[Print help]' \
    '1:N: '
}

_fc_solve_show() {
  _arguments "$@" \
    '--plain[Prints the board'\''s text, which every command reads]' \
    '--color=[Red suits in red\: auto, always (as for less -R) or never]:NAME:(auto always never)' \
    '--game=[freecell (in turning colours) or bakers (in suit)]:NAME:(freecell bakers)' \
    '--kings[Only kings may go to an empty column]' \
    '--cells=[How many cells there are, 0 to 4]:N:(0 1 2 3 4)' \
    '(1)--deal=[The numbered deal in place of BOARD, 1 to 1000000]:N: ' \
    '--rows[Reads BOARD in rows across the table, as `show` draws it]' \
    '--guess[Takes for home what BOARD lacks, where it is runs from the aces]' \
    '(- *)'{-h,--help}'[Print help]' \
    '1:BOARD:_files'
}

_fc_solve_best() {
  _arguments "$@" \
    '--budget=[Positions to keep before giving up, to 16M; max is 4M]:B:(100k 500k 1M 4M max)' \
    '--each[Writes each better answer as it comes; the last one is the answer]' \
    '(--json --each)--link[Ends with a link that shows it on the page, to play]' \
    '--cert=[Writes a proof of the answer to FILE, for `check`]:FILE:_files' \
    '(--boards --json)--words[Tells the moves in words, a line each]' \
    '(--words --json)--boards[Tells the moves in words, and draws the board after each]' \
    '(--json)--sequences[Joins moves that carry several cards, as a player'\''s hand does]' \
    '(--boards --words --sequences)--json[Prints the answer as a JSON object, for other programs]' \
    '--color=[Red suits in red\: auto, always (as for less -R) or never]:NAME:(auto always never)' \
    '--stats[Ends with a line of numbers of the search, on standard error]' \
    '--quiet[Doesn'\''t say on a terminal how far the search is]' \
    '--game=[freecell (in turning colours) or bakers (in suit)]:NAME:(freecell bakers)' \
    '--kings[Only kings may go to an empty column]' \
    '--cells=[How many cells there are, 0 to 4]:N:(0 1 2 3 4)' \
    '--rule=[Cards sent home at once\: none (0); those on which no card that is left may stand (1); those on which none may but such (2)]:R:(0 1 2)' \
    '(1)--deal=[The numbered deal in place of BOARD, 1 to 1000000]:N: ' \
    '--rows[Reads BOARD in rows across the table, as `show` draws it]' \
    '--guess[Takes for home what BOARD lacks, where it is runs from the aces]' \
    '(- *)'{-h,--help}'[Print help]' \
    '1:BOARD:_files'
}

_fc_solve_hint() {
  _arguments "$@" \
    '--more=[How many moves to tell, 1 to 255]:N: ' \
    '(--link)--json[Prints the answer and its next moves as a JSON object]' \
    '--link[Ends with a link that shows it on the page, to play]' \
    '--budget=[Positions to keep before giving up, to 16M; max is 4M]:B:(100k 500k 1M 4M max)' \
    '--color=[Red suits in red\: auto, always (as for less -R) or never]:NAME:(auto always never)' \
    '--quiet[Doesn'\''t say on a terminal how far the search is]' \
    '--game=[freecell (in turning colours) or bakers (in suit)]:NAME:(freecell bakers)' \
    '--kings[Only kings may go to an empty column]' \
    '--cells=[How many cells there are, 0 to 4]:N:(0 1 2 3 4)' \
    '--rule=[Cards sent home at once\: none (0); those on which no card that is left may stand (1); those on which none may but such (2)]:R:(0 1 2)' \
    '(1)--deal=[The numbered deal in place of BOARD, 1 to 1000000]:N: ' \
    '--rows[Reads BOARD in rows across the table, as `show` draws it]' \
    '--guess[Takes for home what BOARD lacks, where it is runs from the aces]' \
    '(- *)'{-h,--help}'[Print help]' \
    '1:BOARD:_files'
}

_fc_solve_solve() {
  _arguments "$@" \
    '--budget=[Positions to keep before giving up, to 4M or max]:B:(100k 500k 1M 4M max)' \
    '--cert=[Writes a proof of the answer to FILE, for `check`]:FILE:_files' \
    '--within=[At most W times the fewest moves, 1.0 to 10.0; found sooner]:W:(1 1.1 1.2 1.3 1.5 2 3 4 5 6 7 8 9 10)' \
    '--bound=[How to look ahead\: plain, or clearing, which answers more]:NAME:(plain clearing)' \
    '--expand=[What to keep\: full, or partial, fewer positions in more time]:NAME:(full partial)' \
    '(--json)--link[Ends with a link that shows it on the page, to play]' \
    '(--boards --json)--words[Tells the moves in words, a line each]' \
    '(--words --json)--boards[Tells the moves in words, and draws the board after each]' \
    '(--json)--sequences[Joins moves that carry several cards, as a player'\''s hand does]' \
    '(--boards --words --sequences)--json[Prints the answer as a JSON object, for other programs]' \
    '--color=[Red suits in red\: auto, always (as for less -R) or never]:NAME:(auto always never)' \
    '--stats[Ends with a line of numbers of the search, on standard error]' \
    '--quiet[Doesn'\''t say on a terminal how far the search is]' \
    '--game=[freecell (in turning colours) or bakers (in suit)]:NAME:(freecell bakers)' \
    '--kings[Only kings may go to an empty column]' \
    '--cells=[How many cells there are, 0 to 4]:N:(0 1 2 3 4)' \
    '--rule=[Cards sent home at once\: none (0); those on which no card that is left may stand (1); those on which none may but such (2)]:R:(0 1 2)' \
    '(1)--deal=[The numbered deal in place of BOARD, 1 to 1000000]:N: ' \
    '--rows[Reads BOARD in rows across the table, as `show` draws it]' \
    '--guess[Takes for home what BOARD lacks, where it is runs from the aces]' \
    '(- *)'{-h,--help}'[Print help]' \
    '1:BOARD:_files'
}

_fc_solve_check() {
  _arguments "$@" \
    '--json[Prints what is proved, or why nothing is, as a JSON object]' \
    '--game=[freecell (in turning colours) or bakers (in suit)]:NAME:(freecell bakers)' \
    '--kings[Only kings may go to an empty column]' \
    '--cells=[How many cells there are, 0 to 4]:N:(0 1 2 3 4)' \
    '--rows[Reads BOARD in rows across the table, as `show` draws it]' \
    '--guess[Takes for home what BOARD lacks, where it is runs from the aces]' \
    '(- *)'{-h,--help}'[Print help]' \
    '1:BOARD:_files' \
    '2:CERT:_files'
}

_fc_solve_replay() {
  _arguments "$@" \
    '(--drawn --expanded --board-at --json)--numbered[Prints the number and the move above each board]' \
    '(--numbered --expanded --board-at --json)--drawn[Draws each board as `show` does, below the move in words]' \
    '(--numbered --drawn --board-at --json)--expanded[Prints the one-card moves alone, on one line, as `solve` does]' \
    '(--numbered --drawn --expanded --must-win --json)--board-at=[Prints only the board before entry N of the list, from 1 on]:N: ' \
    '(--numbered --drawn --expanded --board-at --link)--json[Prints how the list ended, and its moves, as a JSON object]' \
    '--sequences[Expands entries that move several cards, as other solvers print them]' \
    '(--board-at)--must-win[Ends with status 1 where the board isn'\''t won at the end]' \
    '--link[Ends with a link that shows it on the page, to play]' \
    '--color=[Red suits in red\: auto, always (as for less -R) or never]:NAME:(auto always never)' \
    '--game=[freecell (in turning colours) or bakers (in suit)]:NAME:(freecell bakers)' \
    '--kings[Only kings may go to an empty column]' \
    '--cells=[How many cells there are, 0 to 4]:N:(0 1 2 3 4)' \
    '--rows[Reads BOARD in rows across the table, as `show` draws it]' \
    '--guess[Takes for home what BOARD lacks, where it is runs from the aces]' \
    '(- *)'{-h,--help}'[Print help]' \
    '1:BOARD:_files' \
    '2:MOVES:_files'
}

_fc_solve_review() {
  _arguments "$@" \
    '--all[Answers the board after each move, a line each]' \
    '(--all --link)--json[Prints a JSON object a list, for other programs]' \
    '(--all --cert --certs --link)--lists=[The lists of these files, a line each, - for standard input]:FILE:_files' \
    '--cert=[Writes a proof of how good the list is that wins to FILE]:FILE:_files' \
    '--certs=[Writes the boards around the move that loses, and proofs, there]:FOLDER:_files -/' \
    '--link[Ends with a link that shows it on the page, to play]' \
    '--sequences[Expands entries that move several cards, as other solvers print them]' \
    '--budget=[Positions to keep before giving up, to 16M; max is 4M]:B:(100k 500k 1M 4M max)' \
    '--game=[freecell (in turning colours) or bakers (in suit)]:NAME:(freecell bakers)' \
    '--kings[Only kings may go to an empty column]' \
    '--cells=[How many cells there are, 0 to 4]:N:(0 1 2 3 4)' \
    '--rule=[Cards sent home at once\: none (0); those on which no card that is left may stand (1); those on which none may but such (2)]:R:(0 1 2)' \
    '--rows[Reads BOARD in rows across the table, as `show` draws it]' \
    '--guess[Takes for home what BOARD lacks, where it is runs from the aces]' \
    '(- *)'{-h,--help}'[Print help]' \
    '*:BOARD MOVES:_files'
}

_fc_solve_batch() {
  _arguments "$@" \
    '--table[Prints a table parted by tabs, with numbers of each search]' \
    '(--table --totals)--json[Prints a JSON object a line in place of a table'\''s rows]' \
    '--boards=[The boards of these files in place of deals, - for standard input]:FILE:_files' \
    '--rows[Reads BOARD in rows across the table, as `show` draws it]' \
    '--guess[Takes for home what BOARD lacks, where it is runs from the aces]' \
    '--certs=[Writes proofs of the answers\: N.cert, or list.txt\:2.cert]:FOLDER:_files -/' \
    '--totals[Ends the table with how many of each answer there are]' \
    '--budget=[Positions to keep, to 4M\: 100000; by --best to 16M\: 500000]:B:(100k 500k 1M 4M max)' \
    '(--within --bound --expand)--best[The best answer that the budget gives of each deal, as by `best`]' \
    '--within=[At most W times the fewest moves, 1.0 to 10.0; found sooner]:W:(1 1.1 1.2 1.3 1.5 2 3 4 5 6 7 8 9 10)' \
    '--bound=[How to look ahead\: plain, or clearing, which answers more]:NAME:(plain clearing)' \
    '--expand=[What to keep\: full, or partial, fewer positions in more time]:NAME:(full partial)' \
    '--game=[freecell (in turning colours) or bakers (in suit)]:NAME:(freecell bakers)' \
    '--kings[Only kings may go to an empty column]' \
    '--cells=[How many cells there are, 0 to 4]:N:(0 1 2 3 4)' \
    '--rule=[Cards sent home at once\: none (0); those on which no card that is left may stand (1); those on which none may but such (2)]:R:(0 1 2)' \
    '(- *)'{-h,--help}'[Print help]' \
    '*:FROM TO:{((${words[(I)--boards]})) && _files}'
}

_fc_solve_alone() {
  _arguments "$@" \
    '--budget=[Positions to keep before giving up, to 16M; max is 4M]:B:(100k 500k 1M 4M max)' \
    '--each[Writes each better answer as it comes; the last one is the answer]' \
    '(--json --each)--link[Ends with a link that shows it on the page, to play]' \
    '--cert=[Writes a proof of the answer to FILE, for `check`]:FILE:_files' \
    '(--boards --json)--words[Tells the moves in words, a line each]' \
    '(--words --json)--boards[Tells the moves in words, and draws the board after each]' \
    '(--json)--sequences[Joins moves that carry several cards, as a player'\''s hand does]' \
    '(--boards --words --sequences)--json[Prints the answer as a JSON object, for other programs]' \
    '--color=[Red suits in red\: auto, always (as for less -R) or never]:NAME:(auto always never)' \
    '--stats[Ends with a line of numbers of the search, on standard error]' \
    '--quiet[Doesn'\''t say on a terminal how far the search is]' \
    '--game=[freecell (in turning colours) or bakers (in suit)]:NAME:(freecell bakers)' \
    '--kings[Only kings may go to an empty column]' \
    '--cells=[How many cells there are, 0 to 4]:N:(0 1 2 3 4)' \
    '--rule=[Cards sent home at once\: none (0); those on which no card that is left may stand (1); those on which none may but such (2)]:R:(0 1 2)' \
    '(1)--deal=[The numbered deal in place of BOARD, 1 to 1000000]:N: ' \
    '--rows[Reads BOARD in rows across the table, as `show` draws it]' \
    '--guess[Takes for home what BOARD lacks, where it is runs from the aces]' \
    '--within=[At most W times the fewest moves, 1.0 to 10.0; found sooner]:W:(1 1.1 1.2 1.3 1.5 2 3 4 5 6 7 8 9 10)' \
    '--bound=[How to look ahead\: plain, or clearing, which answers more]:NAME:(plain clearing)' \
    '--expand=[What to keep\: full, or partial, fewer positions in more time]:NAME:(full partial)' \
    '(- *)'{-h,--help}'[Print help]' \
    '1:BOARD:_files'
}

_fc_solve_help() {
  _arguments '1:subcommand:_fc_solve_subcommands'
}

_fc_solve_subcommands() {
  local -a subcommands=(
    'deal:Prints a numbered deal\: eight columns, each from its deepest card on'
    'show:Draws a board as it is read, its columns downward'
    'best:Prints the best solution a moment gives, and how near the shortest'
    'hint:Tells the next move of the best solution that a moment'\''s work gives'
    'solve:Prints a shortest solution, or that none wins, or that it gave up'
    'check:Says what a certificate proves of a board, without any search'
    'replay:Prints the board after each move, up to the first that isn'\''t allowed'
    'review:Tells which move of a list loses, or how good a list is that wins'
    'batch:Solves several deals, or boards of files\: a line or a row of each'
    'help:Print this message or the help of the given subcommand(s)'
  )
  _describe -t subcommands subcommand subcommands
}

_fc_solve() {
  local command=$words[2] missed=1
  if ((CURRENT == 2)) && [[ $command != -* ]]; then
    _fc_solve_subcommands && missed=0
    _files && missed=0
    return missed
  fi
  case $command in
    (deal|show|best|hint|solve|check|replay|review|batch|help)
      shift words
      ((CURRENT--))
      _fc_solve_$command
      ;;
    # a board alone, or an option in front of it
    (*)
      local -a first
      ((CURRENT == 2)) && first=('(- *)'{-V,--version}'[Print version]')
      if ((${words[(I)--(within|bound|expand)*]})); then
        _fc_solve_solve $first
      else
        _fc_solve_alone $first
      fi
      ;;
  esac
}

# Zsh calls what it loads from $fpath.
if [[ $funcstack[1] == _fc_solve ]]; then
  _fc_solve "$@"
else
  compdef _fc_solve fc_solve
fi
