# shellcheck shell=bash
# shellcheck disable=SC2053,SC2317  # A text may be a pattern, and functions are called by others.
# What the tests of scripts have in common, which source it: a folder to work in, what they want of
# commands, and how many tests passed and failed.
passed=0 failed=0 work=$(mktemp -d)
trap 'rm -rf -- "$work"' EXIT

# Counts a test that passed if its first word is no empty one, and else tells its name and why.
count() {
  if [ "$1" ]; then
    passed=$((passed + 1))
  else
    failed=$((failed + 1))
    printf 'FAILED %s\n  %s\n' "$2" "$(tail -c 2000 <<< "$3")"
  fi
}

# Wants of a command that it ends with a status, and that what it prints is a text (all), has it
# somewhere (part), or fits it as a pattern (like). The name is by default the command.
wants() {
  local how=$1 status=$2 text=$3 found got good=
  found=$("${@:4}" 2>&1)
  got=$?
  case $how in
    all) [[ $found == "$text" ]] ;;
    part) [[ $found == *"$text"* ]] ;;
    like) [[ $found == $text ]] ;;
  esac && [ $got = "$status" ] && good=1
  count "$good" "${title:-${*:4}}" "status $got, and it printed $found"
}
prints() { wants all 0 "$@"; }
works() { wants part 0 '' "$@"; }
fits() { title=$1 wants like "${@:2}"; }

tell_counts() {
  echo "$passed passed, $failed failed"
  exit $((failed > 0))
}
