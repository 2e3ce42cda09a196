# shellcheck shell=bash
# Completions of bloom for bash.

_fastbloom_bloom() {
  mapfile -t COMPREPLY < <(compgen -W '-h --help -V --version' -- "$2")
}
complete -F _fastbloom_bloom bloom fastbloom-bloom
