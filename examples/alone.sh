#!/bin/sh
# Runs the examples on one thread by chance, and replays what they log: examples/alone.sh PROGRAM
#
# Each composition of a source that the program accepts is run over ten seeds, 1,000 turns each; the environment performs the inputs of the
# folder's inputs.script, where it has one that fits. The log has to be accepted by `replay --log`, which has to print what the run
# prints without `--log`, with the same exit status. Each worker's report has to count the actions that the log tells of it, and all turns where the
# log ends as done; without reports nothing is told. The ten runs in one call tell the same ends. Last, a script and words that are longer than a source may be are read to their ends.
set -u
program=$1
case $program in /*) ;; *) program=$PWD/$program ;; esac
top=$(cd "$(dirname "$0")" && pwd)
work=$(mktemp -d) || exit 1
trap 'rm -rf "$work"' EXIT
runs=0

fail() {
  echo "runs: $1: $2"
  exit 1
}

# The words that name what is run: source, composition and, where it fits, the script.
named() {
  set -- "$1" --comp "$2"
  script=$(dirname "$1")/inputs.script
  if [ -f "$script" ] && "$program" run "$@" --alone --turns 0 --inputs "$script" > "$work/fits" 2>&1; then
    set -- "$@" --inputs "$script"
  fi
  echo "$@"
}

for source in "$top"/*/*.ioa; do
  for composition in $(sed -n 's/^ *composition \([A-Za-z0-9_]*\).*/\1/p' "$source"); do
    "$program" run "$source" --comp "$composition" --alone --turns 0 > "$work/fits" 2>&1 || continue
    asked=$(named "$source" "$composition")
    : > "$work/lines"
    for number in 1 2 3 4 5 6 7 8 9 10; do
      seed=$(printf '%064d' "$number")
      # shellcheck disable=SC2086
      "$program" run $asked --alone --seed "$seed" > "$work/printed" 2> "$work/errors"
      status=$?
      echo "$seed $(tail -n 1 "$work/printed")" >> "$work/lines"
      # shellcheck disable=SC2086
      "$program" run $asked --alone --seed "$seed" --log --reports > "$work/log" 2> "$work/reports"
      [ $? -eq "$status" ] || fail "$asked" "with and without --log the exit statuses of seed $seed differ"
      awk -v turns=1000 -f "$top/counted.awk" "$work/log" "$work/reports" ||
        fail "$asked" "the reports of seed $seed do not count the actions of its log, or the turns"
      "$program" replay "$source" --comp "$composition" --log < "$work/log" > "$work/replayed" 2>> "$work/errors"
      [ $? -eq "$status" ] || fail "$asked" "the log of seed $seed is not replayed with exit status $status"
      cmp -s "$work/printed" "$work/replayed" || fail "$asked" "the log of seed $seed is replayed otherwise"
      [ -s "$work/errors" ] && fail "$asked" "seed $seed tells of an error"
      runs=$((runs + 1))
    done
    faults=$(grep -c ' end: fault ' "$work/lines")
    echo "seeds 10; done $((10 - faults)); fault $faults" >> "$work/lines"
    # shellcheck disable=SC2086
    "$program" run $asked --alone --seeds 1..10 > "$work/printed" 2> "$work/errors"
    status=$?
    [ "$status" -eq $((faults > 0 ? 3 : 0)) ] || fail "$asked" "the runs by ten seeds have exit status $status"
    cmp -s "$work/lines" "$work/printed" || fail "$asked" "the runs by ten seeds are not those by each of them"
    [ -s "$work/errors" ] && fail "$asked" "the runs by ten seeds tell of an error"
  done
done
[ "$runs" -gt 0 ] || fail "examples" "there are none"

# counter TEXT WORDS..: a run of the counter by these words prints this, on standard output or as what is refused
counter() {
  text=$1
  shift
  [ "$("$program" run "$top/counter/counter.ioa" --alone --turns 2 "$@" 2>&1)" = "$text" ] || fail "$*" "it prints another text than $text"
  runs=$((runs + 1))
}

twice=$(printf 'tick(5)\nreset\ntick(5)\nreset\nend: done after 4')
awk 'BEGIN { for (i = 0; i < 200000; i++) print "reset" }' > "$work/script"
counter "$twice" --inputs "$work/script"
echo 'tick(5)' >> "$work/script"
counter 'N2 index 200000' --inputs "$work/script"
echo 'tick(' >> "$work/script"
counter 'L2 line 200002' --inputs "$work/script"
awk 'BEGIN { for (i = 0; i < 200000; i++) printf "%s ", 10000; print 1 }' > "$work/words"
printf 'reset\nreset\n' > "$work/resets"
counter "$twice" --inputs "$work/resets" --words "$work/words"
sed 's/1$/x/' "$work/words" > "$work/bad"
counter 'words line 1' --words "$work/bad"
echo "runs: $runs passed, 0 failed"
