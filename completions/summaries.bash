# shellcheck shell=bash
# Completions of summaries for bash.

_fastbloom_summaries() {
  local word=$2 before=$3 words=
  case $before in
    --bits | --hashes | --items | --rate | --workers | --hashes-up-to | --key)
      COMPREPLY=() && return
      ;;
  esac
  if ((COMP_CWORD == 1)); then
    words='build unite ask info compare help -h --help -V --version'
  elif [[ $word != -* ]]; then
    compopt -o filenames
    mapfile -t COMPREPLY < <(compgen -f -- "$word")
    return
  fi
  case ${COMP_WORDS[1]} in
    build)
      words='--bits --hashes --items --rate --workers --blocked --json --key -o --output -z --zero
        -h --help'
      ;;
    unite) words='--hashes-up-to --json -o --output -h --help' ;;
    ask) words='--hashes-up-to --absent -o --output -z --zero -h --help' ;;
    info) words='--json -h --help' ;;
    compare) words='-h --help' ;;
  esac
  mapfile -t COMPREPLY < <(compgen -W "$words" -- "$word")
}
complete -F _fastbloom_summaries summaries fastbloom-summaries
