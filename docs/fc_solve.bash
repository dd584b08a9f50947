# Completion of fc_solve's words in bash:  . docs/fc_solve.bash
# tools/completions.py makes it from the table of options.

_fc_solve() {
  local word=${COMP_WORDS[COMP_CWORD]} before=${COMP_WORDS[COMP_CWORD - 1]} command=${COMP_WORDS[1]} line=" ${COMP_WORDS[*]}" words=
  COMPREPLY=()
  # (bash takes the `=` of --game=bakers for a word)
  [[ $before == = ]] && before=${COMP_WORDS[COMP_CWORD - 2]}
  [[ $word == = ]] && word=
  case $command in
    deal | show | best | hint | solve | check | replay | review | batch | help) ;;
    # a board alone, or an option in front of it
    *)
      command=alone
      [[ $line == *" --"@(within|bound|expand)* ]] && command=solve
      ;;
  esac
  ((COMP_CWORD == 1)) && [[ $word != -* ]] && command=first
  case "$command $before" in
    *" --color") words="auto always never" ;;
    *" --game") words="freecell bakers" ;;
    *" --cells") words="0 1 2 3 4" ;;
    *" --deal" | *" --more" | *" --board-at") ;;
    *" --budget") words="100k 500k 1M 4M max" ;;
    *" --cert" | "batch --boards" | *" --lists") return ;;
    *" --rule") words="0 1 2" ;;
    *" --within") words="1 1.1 1.2 1.3 1.5 2 3 4 5 6 7 8 9 10" ;;
    *" --bound") words="plain clearing" ;;
    *" --expand") words="full partial" ;;
    *" --certs") mapfile -t COMPREPLY < <(compgen -d -- "$word"); compopt -o filenames 2>/dev/null; return ;;
    *)
      case $command in
        first) words="deal show best hint solve check replay review batch help" ;;
        help) words="deal show best hint solve check replay review batch" ;;
        deal) words="--help" ;;
        show) words="--plain --color --game --kings --cells --deal --rows --guess --help" ;;
        best) words="--budget --each --link --cert --words --boards --sequences --json --color --stats --quiet --game --kings --cells --rule --deal --rows --guess --help" ;;
        hint) words="--more --json --link --budget --color --quiet --game --kings --cells --rule --deal --rows --guess --help" ;;
        solve) words="--budget --cert --within --bound --expand --link --words --boards --sequences --json --color --stats --quiet --game --kings --cells --rule --deal --rows --guess --help" ;;
        check) words="--json --game --kings --cells --rows --guess --help" ;;
        replay) words="--numbered --drawn --expanded --board-at --json --sequences --must-win --link --color --game --kings --cells --rows --guess --help" ;;
        review) words="--all --json --lists --cert --certs --link --sequences --budget --game --kings --cells --rule --rows --guess --help" ;;
        batch) words="--table --json --boards --rows --guess --certs --totals --budget --best --within --bound --expand --game --kings --cells --rule --help" ;;
        alone) words="--budget --each --link --cert --words --boards --sequences --json --color --stats --quiet --game --kings --cells --rule --deal --rows --guess --within --bound --expand --help" ;;
      esac
      ((COMP_CWORD == 1)) && [[ $word == -* ]] && words="$words --version"
      # what has no dash is a file, but where a name or a number stands
      if [[ $word != -* ]]; then
        case "$command $line" in
          "first "* | "help "*) ;;
          "batch "*" --boards "*) return ;;
          "deal "* | "batch "*) words= ;;
          *) return ;;
        esac
      fi
      ;;
  esac
  # no file stands in place of a value, but one may in place of a subcommand
  [[ $command == first ]] || compopt +o default 2>/dev/null
  mapfile -t COMPREPLY < <(compgen -W "$words" -- "$word")
}
complete -o default -F _fc_solve fc_solve ./fc_solve
