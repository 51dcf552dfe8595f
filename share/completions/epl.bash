# Completes the words of epl for bash.

# The codes that epl explain takes, asked of epl itself.
_epl_codes() {
  "${COMP_WORDS[0]}" explain 2>/dev/null | sed -n 's/^  \([a-z0-9-]*\) .*/\1/p'
}

_epl() {
  local word=${COMP_WORDS[COMP_CWORD]} before=${COMP_WORDS[COMP_CWORD - 1]} first=1
  COMPREPLY=()
  [ "${COMP_WORDS[1]}" = --unproved ] && first=2
  if [ "$COMP_CWORD" -eq 1 ]; then
    COMPREPLY=($(compgen -W 'run explain help --help --version --build --unproved' -- "$word"))
  elif [ "$COMP_CWORD" -eq "$first" ]; then
    COMPREPLY=($(compgen -W 'run' -- "$word"))
  elif [ "${COMP_WORDS[1]}" = explain ]; then
    COMPREPLY=($(compgen -W "$(_epl_codes)" -- "$word"))
  elif [ "$before" = run ]; then
    COMPREPLY=($(compgen -W '--serial' -- "$word"))
  elif [ "$before" = --serial ]; then
    COMPREPLY=($(compgen -W '--events --fuel' -- "$word"))
  elif [ "$before" = --fuel ]; then
    COMPREPLY=($(compgen -W '1000000 20000000' -- "$word"))
  elif [ "${COMP_WORDS[COMP_CWORD - 2]}" = --fuel ]; then
    COMPREPLY=($(compgen -W '--events' -- "$word"))
  elif [ "$before" = --events ]; then
    _epl_files evt "$word"
  else
    _epl_files mon "$word"
  fi
}

# Files of an ending, and folders, with blanks in their names kept.
_epl_files() {
  local IFS=$'\n'
  compopt -o filenames 2>/dev/null
  COMPREPLY=($(compgen -f -X "!*.$1" -- "$2") $(compgen -d -- "$2"))
}

complete -F _epl epl
