#!/bin/sh
# Runs the examples on threads, and replays what they log: examples/threads.sh PROGRAM
#
# Each composition of a source that the program accepts is run over three seeds, 1,000 turns each; the environment performs the inputs of
# the folder's inputs.script, where it has one that fits. Whatever the schedule was, the log has to be accepted by `replay --log`, with the
# same exit status, and each worker's report has to count the actions that the log tells of it, but for one that faults, and all turns where
# the log ends as done.
set -u
program=$1
case $program in /*) ;; *) program=$PWD/$program ;; esac
top=$(cd "$(dirname "$0")" && pwd)
work=$(mktemp -d) || exit 1
trap 'rm -rf "$work"' EXIT
runs=0

fail() {
  echo "threads: $1: $2"
  exit 1
}

# The words that name what is run: source, composition and, where it fits, the script.
named() {
  set -- "$1" --comp "$2"
  script=$(dirname "$1")/inputs.script
  if [ -f "$script" ] && "$program" run "$@" --turns 0 --inputs "$script" > "$work/fits" 2>&1; then
    set -- "$@" --inputs "$script"
  fi
  echo "$@"
}

for source in "$top"/*/*.ioa; do
  for composition in $(sed -n 's/^ *composition \([A-Za-z0-9_]*\).*/\1/p' "$source"); do
    "$program" run "$source" --comp "$composition" --turns 0 > "$work/fits" 2>&1 || continue
    asked=$(named "$source" "$composition")
    for digit in 0 1 2; do
      seed=$(printf '%064d' "$digit")
      # shellcheck disable=SC2086
      timeout 60 "$program" run $asked --seed "$seed" --log --reports > "$work/log" 2> "$work/reports"
      status=$?
      [ "$status" -eq 0 ] || [ "$status" -eq 3 ] || fail "$asked" "the run of seed $seed has exit status $status"
      awk -v turns=1000 -f "$top/counted.awk" "$work/log" "$work/reports" ||
        fail "$asked" "the reports of seed $seed do not count the actions of its log, or the turns"
      "$program" replay "$source" --comp "$composition" --log < "$work/log" > "$work/replayed" 2> "$work/errors"
      [ $? -eq "$status" ] || fail "$asked" "the log of seed $seed is not replayed with exit status $status"
      [ -s "$work/errors" ] && fail "$asked" "the replay of seed $seed tells of an error"
      runs=$((runs + 1))
    done
  done
done
[ "$runs" -gt 0 ] || fail "examples" "there are none"

# A run of the library goes on from the log of another: the whole log begins with that, is replayed and accepted, and the reports count what is new
links=$top/links/links.ioa
for digit in 0 1 2; do
  seed=$(printf '%064d' "$digit")
  timeout 60 "$program" run "$links" --comp Stenning --turns 200 --seed "$seed" --log > "$work/first" || fail "Stenning" "the run of seed $seed fails"
  timeout 60 "$program" run "$links" --comp Stenning --turns 50 --seed "$seed" --resume "$work/first" --log --reports > "$work/log" 2> "$work/reports" ||
    fail "Stenning" "the run of seed $seed does not go on"
  count=$(($(wc -l < "$work/first") - 1))
  sed '$d' "$work/first" > "$work/before"
  head -n "$count" "$work/log" | cmp -s - "$work/before" || fail "Stenning" "the log of seed $seed does not begin with what was done before"
  tail -n "+$((count + 1))" "$work/log" > "$work/new"
  awk -v turns=50 -f "$top/counted.awk" "$work/new" "$work/reports" || fail "Stenning" "the reports of seed $seed do not count what is new"
  "$program" replay "$links" --comp Stenning --log < "$work/log" > "$work/replayed" || fail "Stenning" "the log of seed $seed is not replayed"
  "$program" monitor "$links" --comp ReliableFifo < "$work/log" > "$work/accepted" || fail "Stenning" "the log of seed $seed is not accepted"
  runs=$((runs + 1))
done

# A source of four components whose turns are long, and one of two whose turns are short
{
  echo "automaton Work(i: Int) signature internal go(const i) states a: Int; b: Int transitions internal go"
  awk 'BEGIN { for (i = 0; i < 200; i++) printf "%s a := (a * 7 + b + %d) mod 1009; b := (b * 5 - a) mod 997", i ? ";" : "eff", i }'
  echo " composition Long components A: Work(0); B: Work(1); C: Work(2); D: Work(3)"
} > "$work/long.ioa"
{
  echo "automaton Work(i: Int) signature internal go(const i) states a: Int transitions internal go eff a := 1 - a"
  echo "composition Short components A: Work(0); B: Work(1)"
} > "$work/short.ioa"

# Whether with this memory a run of so many turns is refused for want of a thread, and nothing is written
refused() {
  (ulimit -v "$1" && ulimit -t 10 && "$program" run "$work/long.ioa" --turns "$2" > "$work/out" 2> "$work/errors") 2> "$work/shell"
  [ $? -eq 5 ] && [ "$(cat "$work/errors")" = N3 ] && [ ! -s "$work/out" ]
}

# Where the system refuses a thread, the run is refused, and nothing is written. Those that were started take no more turns: of the many that each has here they would
# take longer than they are given. With less and less memory for its stacks, the environment's thread is refused first, and then a component's, before the
# program cannot begin at all.
refusals=0
for kilobytes in $(seq 400000 -4000 4000); do
  if refused "$kilobytes" 1; then
    refused "$kilobytes" 100000 || fail "$kilobytes kilobytes" "a run of many turns is not refused at once"
    refusals=$((refusals + 1))
  fi
done
[ "$refusals" -gt 1 ] || fail "threads" "none is refused, or not so"

# Whether with this memory some is refused to a worker in its turn, and the run is given all the same: that is told, its report counts fewer turns than the worker
# has, and the log is accepted
shortened() {
  (ulimit -v "$1" && "$program" run "$work/short.ioa" --turns 100000 --log --reports > "$work/log" 2> "$work/reports") 2> "$work/shell" || return 1
  grep -q '^[AB]: memory$' "$work/reports" && awk -v turns=100000 -f "$top/counted.awk" "$work/log" "$work/reports" \
    && "$program" replay "$work/short.ioa" --log < "$work/log" > "$work/replayed"
}

# A worker to which memory is refused says so as it leaves. Of one that leaves without a word no run is given. (A thread may be refused, too.)
found=no
for kilobytes in $(seq 100000 -4000 20000); do
  if shortened "$kilobytes"; then
    found=yes
    break
  fi
done
[ "$found" = yes ] || fail "memory" "no run is given in which some is refused to a worker"
echo "threads: $runs passed, 0 failed"
