#!/bin/sh
# Logs the runs of the examples' lists, and replays what is logged: examples/logs.sh PROGRAM
#
# Each composition of a source that the program accepts is given each list of the folder that is one of its source. The log has to be accepted by
# `replay --log`, which has to print the trace that a replay of the list prints. The end is the same, and so is the exit status; but where the list ends by an action that is
# not enabled or is none, the log ends as done before it. By the object of the composition the log is the same.
set -u
program=$1
case $program in /*) ;; *) program=$PWD/$program ;; esac
top=$(cd "$(dirname "$0")" && pwd)
work=$(mktemp -d) || exit 1
trap 'rm -rf "$work"' EXIT
logs=0

fail() {
  echo "logs: $1: $2"
  exit 1
}

# logged COMPOSITION LIST: the log of the list's run, and its replay
logged() {
  "$program" replay "$source" --comp "$1" < "$2" > "$work/trace" 2> "$work/errors"
  status=$?
  "$program" log "$source" --comp "$1" < "$2" > "$work/log" 2> "$work/told"
  [ $? -eq "$status" ] || fail "$2 in $1" "the exit status of the log is not $status"
  cmp -s "$work/errors" "$work/told" || fail "$2 in $1" "the log tells of another error than the replay"
  "$program" log "$work/object" < "$2" > "$work/again" 2> "$work/told"
  cmp -s "$work/log" "$work/again" || fail "$2 in $1" "the log is another by the object"
  [ -s "$work/log" ] || return
  wanted=$(tail -n 1 "$work/trace")
  case $wanted in
    "end: not "*) wanted="end: done after ${wanted##* }" status=0 ;;
  esac
  "$program" replay "$source" --comp "$1" --log < "$work/log" > "$work/replayed" 2> "$work/told"
  [ $? -eq "$status" ] || fail "$2 in $1" "the log is replayed with another exit status than $status: $(cat "$work/told")"
  [ "$(tail -n 1 "$work/replayed")" = "$wanted" ] || fail "$2 in $1" "the log does not end as the list"
  sed '$d' "$work/trace" > "$work/before"
  sed '$d' "$work/replayed" | cmp -s - "$work/before" || fail "$2 in $1" "the trace of the log is not the list's"
  logs=$((logs + 1))
}

for source in "$top"/*/*.ioa; do
  for composition in $(sed -n 's/^ *composition \([A-Za-z0-9_]*\).*/\1/p' "$source"); do
    "$program" compile "$source" "$work/object" --comp "$composition" > "$work/printed" 2>&1 || continue
    for list in "$(dirname "$source")"/*.list; do
      [ -f "$list" ] || continue
      logged "$composition" "$list"
    done
  done
done
[ "$logs" -gt 0 ] || fail "examples" "there are none"
echo "logs: $logs passed, 0 failed"
