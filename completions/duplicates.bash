# shellcheck shell=bash
# Completions of duplicates for bash.

_fastbloom_duplicates() {
  local word=$2 before=$3
  case $before in
    --items | --rate | --longest | --last | --key) COMPREPLY=() ;;
    *)
      if [[ $word == -* ]]; then
        mapfile -t COMPREPLY < <(compgen -W '--items --rate --longest --skip-longer --fixed
          --blocked --last --held-back --count -z --zero -q --quiet --key -o --output -h --help
          -V --version' \
          -- "$word")
      else
        compopt -o filenames
        mapfile -t COMPREPLY < <(compgen -f -- "$word")
      fi
      ;;
  esac
}
complete -F _fastbloom_duplicates duplicates fastbloom-duplicates
