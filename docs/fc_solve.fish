# Completion of fc_solve's words in fish: in ~/.config/fish/completions, or:  source docs/fc_solve.fish
# tools/completions.py makes it from the table of options.

# The subcommand of the line; `first` where none can stand there yet, and `alone` where a board does, or an option in front of it.
function __fc_solve_command
    set -l words (commandline -opc)
    set -e words[1]
    if not set -q words[1]
        echo first
    else if contains -- $words[1] deal show best hint solve check replay review batch help
        echo $words[1]
    else if string match -qr -- '^--(within|bound|expand)' $words
        echo solve
    else
        echo alone
    end
end

function __fc_solve_for
    contains -- (__fc_solve_command) $argv
end

complete -c fc_solve -n '__fc_solve_for first help' -a deal -d 'Prints a numbered deal: eight columns, each from its deepest card on'
complete -c fc_solve -n '__fc_solve_for first help' -a show -d 'Draws a board as it is read, its columns downward'
complete -c fc_solve -n '__fc_solve_for first help' -a best -d 'Prints the best solution a moment gives, and how near the shortest'
complete -c fc_solve -n '__fc_solve_for first help' -a hint -d 'Tells the next move of the best solution that a moment\'s work gives'
complete -c fc_solve -n '__fc_solve_for first help' -a solve -d 'Prints a shortest solution, or that none wins, or that it gave up'
complete -c fc_solve -n '__fc_solve_for first help' -a check -d 'Says what a certificate proves of a board, without any search'
complete -c fc_solve -n '__fc_solve_for first help' -a replay -d 'Prints the board after each move, up to the first that isn\'t allowed'
complete -c fc_solve -n '__fc_solve_for first help' -a review -d 'Tells which move of a list loses, or how good a list is that wins'
complete -c fc_solve -n '__fc_solve_for first help' -a batch -d 'Solves several deals, or boards of files: a line or a row of each'
complete -c fc_solve -n '__fc_solve_for first' -a help -d 'Print this message or the help of the given subcommand(s)'
complete -c fc_solve -n '__fc_solve_for first alone deal show best hint solve check replay review batch' -s h -l help -d 'Print help'
complete -c fc_solve -n '__fc_solve_for first' -s V -l version -d 'Print version'
complete -c fc_solve -n '__fc_solve_for deal help' -f
complete -c fc_solve -n '__fc_solve_for batch; and not contains -- --boards (commandline -opc)' -f
complete -c fc_solve -n '__fc_solve_for show' -l plain -d 'Prints the board\'s text, which every command reads'
complete -c fc_solve -n '__fc_solve_for show best hint solve replay alone first' -l color -x -k -a 'auto always never' -d 'Red suits in red: auto, always (as for less -R) or never'
complete -c fc_solve -n '__fc_solve_for show best hint solve check replay review batch alone first' -l game -x -k -a 'freecell bakers' -d 'freecell (in turning colours) or bakers (in suit)'
complete -c fc_solve -n '__fc_solve_for show best hint solve check replay review batch alone first' -l kings -d 'Only kings may go to an empty column'
complete -c fc_solve -n '__fc_solve_for show best hint solve check replay review batch alone first' -l cells -x -k -a '0 1 2 3 4' -d 'How many cells there are, 0 to 4'
complete -c fc_solve -n '__fc_solve_for show best hint solve alone first' -l deal -x -d 'The numbered deal in place of BOARD, 1 to 1000000'
complete -c fc_solve -n '__fc_solve_for show best hint solve check replay review batch alone first' -l rows -d 'Reads BOARD in rows across the table, as `show` draws it'
complete -c fc_solve -n '__fc_solve_for show best hint solve check replay review batch alone first' -l guess -d 'Takes for home what BOARD lacks, where it is runs from the aces'
complete -c fc_solve -n '__fc_solve_for best hint review alone first' -l budget -x -k -a '100k 500k 1M 4M max' -d 'Positions to keep before giving up, to 16M; max is 4M'
complete -c fc_solve -n '__fc_solve_for best alone first' -l each -d 'Writes each better answer as it comes; the last one is the answer'
complete -c fc_solve -n '__fc_solve_for best hint solve replay review alone first' -l link -d 'Ends with a link that shows it on the page, to play'
complete -c fc_solve -n '__fc_solve_for best solve alone first' -l cert -r -F -d 'Writes a proof of the answer to FILE, for `check`'
complete -c fc_solve -n '__fc_solve_for best solve alone first' -l words -d 'Tells the moves in words, a line each'
complete -c fc_solve -n '__fc_solve_for best solve alone first' -l boards -d 'Tells the moves in words, and draws the board after each'
complete -c fc_solve -n '__fc_solve_for best solve alone first' -l sequences -d 'Joins moves that carry several cards, as a player\'s hand does'
complete -c fc_solve -n '__fc_solve_for best solve alone first' -l json -d 'Prints the answer as a JSON object, for other programs'
complete -c fc_solve -n '__fc_solve_for best solve alone first' -l stats -d 'Ends with a line of numbers of the search, on standard error'
complete -c fc_solve -n '__fc_solve_for best hint solve alone first' -l quiet -d 'Doesn\'t say on a terminal how far the search is'
complete -c fc_solve -n '__fc_solve_for best hint solve review batch alone first' -l rule -x -k -a '0 1 2' -d 'Cards sent home at once: none (0); those on which no card that is left may stand (1); those on which none may but such (2)'
complete -c fc_solve -n '__fc_solve_for hint' -l more -x -d 'How many moves to tell, 1 to 255'
complete -c fc_solve -n '__fc_solve_for hint' -l json -d 'Prints the answer and its next moves as a JSON object'
complete -c fc_solve -n '__fc_solve_for solve' -l budget -x -k -a '100k 500k 1M 4M max' -d 'Positions to keep before giving up, to 4M or max'
complete -c fc_solve -n '__fc_solve_for solve batch alone first' -l within -x -k -a '1 1.1 1.2 1.3 1.5 2 3 4 5 6 7 8 9 10' -d 'At most W times the fewest moves, 1.0 to 10.0; found sooner'
complete -c fc_solve -n '__fc_solve_for solve batch alone first' -l bound -x -k -a 'plain clearing' -d 'How to look ahead: plain, or clearing, which answers more'
complete -c fc_solve -n '__fc_solve_for solve batch alone first' -l expand -x -k -a 'full partial' -d 'What to keep: full, or partial, fewer positions in more time'
complete -c fc_solve -n '__fc_solve_for check' -l json -d 'Prints what is proved, or why nothing is, as a JSON object'
complete -c fc_solve -n '__fc_solve_for replay' -l numbered -d 'Prints the number and the move above each board'
complete -c fc_solve -n '__fc_solve_for replay' -l drawn -d 'Draws each board as `show` does, below the move in words'
complete -c fc_solve -n '__fc_solve_for replay' -l expanded -d 'Prints the one-card moves alone, on one line, as `solve` does'
complete -c fc_solve -n '__fc_solve_for replay' -l board-at -x -d 'Prints only the board before entry N of the list, from 1 on'
complete -c fc_solve -n '__fc_solve_for replay' -l json -d 'Prints how the list ended, and its moves, as a JSON object'
complete -c fc_solve -n '__fc_solve_for replay review' -l sequences -d 'Expands entries that move several cards, as other solvers print them'
complete -c fc_solve -n '__fc_solve_for replay' -l must-win -d 'Ends with status 1 where the board isn\'t won at the end'
complete -c fc_solve -n '__fc_solve_for review' -l all -d 'Answers the board after each move, a line each'
complete -c fc_solve -n '__fc_solve_for review' -l json -d 'Prints a JSON object a list, for other programs'
complete -c fc_solve -n '__fc_solve_for review' -l lists -r -F -d 'The lists of these files, a line each, - for standard input'
complete -c fc_solve -n '__fc_solve_for review' -l cert -r -F -d 'Writes a proof of how good the list is that wins to FILE'
complete -c fc_solve -n '__fc_solve_for review' -l certs -x -a '(__fish_complete_directories)' -d 'Writes the boards around the move that loses, and proofs, there'
complete -c fc_solve -n '__fc_solve_for batch' -l table -d 'Prints a table parted by tabs, with numbers of each search'
complete -c fc_solve -n '__fc_solve_for batch' -l json -d 'Prints a JSON object a line in place of a table\'s rows'
complete -c fc_solve -n '__fc_solve_for batch' -l boards -r -F -d 'The boards of these files in place of deals, - for standard input'
complete -c fc_solve -n '__fc_solve_for batch' -l certs -x -a '(__fish_complete_directories)' -d 'Writes proofs of the answers: N.cert, or list.txt:2.cert'
complete -c fc_solve -n '__fc_solve_for batch' -l totals -d 'Ends the table with how many of each answer there are'
complete -c fc_solve -n '__fc_solve_for batch' -l budget -x -k -a '100k 500k 1M 4M max' -d 'Positions to keep, to 4M: 100000; by --best to 16M: 500000'
complete -c fc_solve -n '__fc_solve_for batch' -l best -d 'The best answer that the budget gives of each deal, as by `best`'
