# Prints, in a line each, what zsh completes of lines by docs/fc_solve.zsh:  zsh -f tests/completions.zsh LINE..
# Since zsh completes nowhere else, a shell on a terminal of its own is typed at; what it would add goes to a file.
zmodload zsh/zpty
folder=$(mktemp -d) || exit 1
trap 'rm -rf $folder' EXIT
cat >$folder/.zshrc <<'END'
PROMPT='@ready@'
autoload -Uz compinit
compinit -D -u
. docs/fc_solve.zsh
compadd() {
  local -a hits
  if [[ -z ${(M)@[1,(i)(-|--)]:#-[OAD]} ]]; then
    builtin compadd -A hits "$@"
    print -rn -- " $hits" >>$ZDOTDIR/hits
  fi
  builtin compadd "$@"
}
told() { print >>$ZDOTDIR/hits; zle kill-buffer; print -n @told@ }
zle -N told
bindkey '^B' told
END
zpty shell env ZDOTDIR=$folder zsh -d -i
zpty -r shell passed '*@ready@*'
for line; do
  zpty -wn shell "$line"$'\t\x02'
  zpty -r shell passed '*@told@*'
done
zpty -d shell
while read -r line; do print -r -- ${(ou)=line}; done <$folder/hits
