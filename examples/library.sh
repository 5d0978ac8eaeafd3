#!/bin/sh
# The library of protocols on a program, as it is printed and as it runs, and the protocols of the examples: examples/library.sh PROGRAM
#
# `library` has to print the bytes of links/links.ioa. Each protocol is run over ten seeds, 200 turns each, on one thread and on threads. A
# log has to be accepted by `replay --log` and by the protocol's specification, and to have its actions and the turns counted by the reports: but for the handshake's, which may lose messages where hosts
# crash, that of the library is `ReliableFifo`. On one thread each run does what the protocol is for, as to deliver something; on threads no schedule has to.
set -u
program=$1
case $program in /*) ;; *) program=$PWD/$program ;; esac
top=$(cd "$(dirname "$0")" && pwd)
work=$(mktemp -d) || exit 1
trap 'rm -rf "$work"' EXIT
runs=0

fail() {
  echo "library: $1"
  exit 1
}

# accepted SOURCE COMPOSITION SPECIFICATION ACTION: runs the composition over ten seeds, on one thread, where it performs an action of this name, and on threads
accepted() {
  source=$top/$1
  for digit in 0 1 2 3 4 5 6 7 8 9; do
    judged "$2" "$3" "$digit" --alone
    grep -q "\"$4(" "$work/log" || fail "$2 with seed $digit performs no $4"
    judged "$2" "$3" "$digit"
  done
}

# judged COMPOSITION SPECIFICATION DIGIT [--alone]: runs the composition with the seed, and replays and monitors the log
judged() {
  named="$1 with seed $3${4+ $4}"
  timeout 60 "$program" run "$source" --comp "$1" ${4+"$4"} --turns 200 --seed "$(printf '%064d' "$3")" --log --reports > "$work/log" 2> "$work/reports" ||
    fail "the run of $named fails"
  awk -v turns=200 -f "$top/counted.awk" "$work/log" "$work/reports" || fail "the reports of $named do not count the actions of its log, or the turns"
  "$program" replay "$source" --comp "$1" --log < "$work/log" > "$work/trace" 2> "$work/errors" ||
    fail "the log of $named is not replayed"
  "$program" monitor "$source" --comp "$2" < "$work/log" > "$work/answer" 2>> "$work/errors" ||
    fail "the log of $named is not accepted by $2: $(cat "$work/answer")"
  [ -s "$work/errors" ] && fail "$named tells of an error"
  runs=$((runs + 1))
}

"$program" library > "$work/printed" 2> "$work/errors" || fail "it is not printed"
[ -s "$work/errors" ] && fail "it tells of an error"
cmp -s "$work/printed" "$top/links/links.ioa" || fail "what is printed is not links/links.ioa"
accepted links/links.ioa Stenning ReliableFifo receive_msg
accepted links/links.ioa AltBit ReliableFifo receive_msg
accepted links/links.ioa Sliding ReliableFifo receive_msg
accepted links/links.ioa Handshake AtMostOnce receive_msg
accepted peterson/peterson.ioa Peterson Specification crit
accepted ring/ring.ioa Ring Specification leader
accepted commit/commit.ioa TwoPhase Specification vote
accepted token/token.ioa Token Specification enter
accepted window/window.ioa Window Specification receive_msg
echo "library: $runs passed, 0 failed"
