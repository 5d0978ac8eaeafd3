#!/bin/sh
# Runs the examples on a program and stops at the first that fails: examples/run.sh PROGRAM
#
# An example is a folder with sources (*.ioa) and cases. A case is a file NAME.words, the words of the command line
# after `ioac` in one line, run in that folder, with
#   NAME.list      standard input (none: empty)
#   NAME.printed   standard output (none: nothing)
#   NAME.errors    standard error (none: nothing)
#   NAME.status    the exit status (none: 0)
# Cases are run in the order of their names, so that one may use the object that an earlier one made; objects are removed at the end.
#
# At the end the checkout holds no file that git neither knows nor ignores and that was not there before: before this
# script, or when the variable FILES was set to what examples/files.sh prints. Without git nothing is compared.
set -u
program=$1
case $program in /*) ;; *) program=$PWD/$program ;; esac
top=$(cd "$(dirname "$0")" && pwd)
before=${FILES-$(sh "$top/files.sh")}
work=$(mktemp -d) || exit 1
trap 'rm -rf "$work"; rm -f "$top"/*/*.object' EXIT
passed=0

fail() {
  echo "$1: $2"
  echo "examples: $passed passed, 1 failed"
  exit 1
}

for words in "$top"/*/*.words; do
  case=${words%.words}
  name=${case#"$top"/}
  for part in list printed errors; do
    if [ -f "$case.$part" ]; then cp "$case.$part" "$work/$part"; else : > "$work/$part"; fi
  done
  wanted=0
  [ -f "$case.status" ] && wanted=$(cat "$case.status")
  # shellcheck disable=SC2046
  (cd "$(dirname "$case")" && "$program" $(cat "$words") < "$work/list" > "$work/out" 2> "$work/err")
  status=$?
  [ "$status" -eq "$wanted" ] || fail "$name" "exit status $status in place of $wanted"
  cmp -s "$work/out" "$work/printed" || fail "$name" "standard output differs"
  cmp -s "$work/err" "$work/errors" || fail "$name" "standard error differs"
  passed=$((passed + 1))
done
[ "$passed" -gt 0 ] || fail "examples" "there are none"
printf '%s\n' "$before" > "$work/before"
rm -f "$top"/*/*.object
left=$(sh "$top/files.sh" | grep -vxF -f "$work/before")
[ -z "$left" ] || fail "files" "the run left $(echo "$left" | tr '\n' ' ')"
echo "examples: $passed passed, 0 failed"
