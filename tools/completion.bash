# Bash completion for tyvarmos: the commands and options that its --help names, and files.
_tyvarmos() {
  local word=${COMP_WORDS[COMP_CWORD]} words=
  if [[ $word == -* ]]; then
    words=$("$1" --help | awk '/^-/ { sub(/  .*/, ""); n = split($0, names, ", "); for (i = 1; i <= n; i++) { sub(/[ =].*/, "", names[i]); print names[i] } }')
  elif ((COMP_CWORD == 1)); then
    words=$("$1" --help | sed -n '/^$/q; s/^.* tyvarmos \([a-z]\{1,\}\).*/\1/p')
  fi
  mapfile -t COMPREPLY < <(compgen -W "$words" -- "$word")
}
complete -o default -F _tyvarmos tyvarmos
