# complete.zsh FOLDER ROOM: what zsh offers for each line of standard input, with _hdminet in FOLDER. For each line it writes
# `? LINE`, and then the words that are offered, one a line. ROOM is a folder for what it needs.
zmodload zsh/zpty zsh/zselect || exit 2
offered=$2/offered
cat > $2/start.zsh << END
PROMPT=
fpath=($1 \$fpath)
autoload -Uz compinit
compinit -u -D
zstyle ':completion:*' insert-tab false
compadd() {
  local -a hits
  if [[ \${@[1,(i)(-|--)]} != *-[OAD]\ * ]]; then
    builtin compadd -O hits "\$@"
    (( ! \$#hits )) || print -rl -- \$hits >> $offered
  fi
  builtin compadd "\$@"
}
offer() { _main_complete; print -r -- . >> $offered }
zle -C offer complete-word offer
bindkey '^I' offer
print -r -- . > $offered
END

# Waits until the shell has written the end of its words.
wait_for_end() {
  local waited
  for waited in {1..1000}; do
    # What the terminal shows has to be read, so that the shell goes on.
    while zpty -rt shell shown; do :; done
    [[ ! -s $offered || $'\n'$(<$offered) != *$'\n'. ]] || return 0
    zselect -t 2
  done
  print -r -- "complete.zsh: no answer" >&2
  exit 2
}

zpty -b shell zsh -f -i
zpty -w shell "source $2/start.zsh"
wait_for_end
while IFS= read -r asked; do
  : > $offered
  # Control-U empties the line that the last question left.
  zpty -wn shell $'\C-u'"$asked"$'\t'
  wait_for_end
  print -r -- "? $asked"
  grep -vx '\.' $offered
done
zpty -d shell
exit 0
