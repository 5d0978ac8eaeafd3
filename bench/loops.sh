#!/bin/sh
# What an item of a loop costs: bench/loops.sh PROGRAM
#
# Replays lists that fill a sequence with 16 or with 256 numbers and then go over it a hundred times, and prints how many instructions of the processor an item takes, beyond those of the step, which are
# counted by a sequence that is empty, and the ratio of the two (goal: 1.1 at most). Instructions are counted by valgrind, so the figures are the same on a busy machine; where it is not there, nothing is measured.
#
# Everything is written into a temporary folder, which goes with the script.
set -eu
program=$1
case $program in /*) ;; *) program=$PWD/$program ;; esac
work=$(mktemp -d)
trap 'rm -rf "$work"' EXIT
turns=100

if ! command -v valgrind > "$work/found"; then
  echo "loops: valgrind is not here to count instructions"
  exit 0
fi
cat > "$work/sum.ioa" << 'END'
type S = seq 256 of Int
automaton Sum signature input put(a: Int); internal fold
states s: S; n: Int
transitions
  input put eff s := append(s, a)
  internal fold eff for y in s do n := n + y od
composition Sums components A: Sum
END

# count ITEMS TURNS: the instructions of a replay that puts so many items and goes over them so often
count() {
  awk -v items="$1" -v turns="$2" 'BEGIN { for (i = 0; i < items; i++) print "put(" i ")"; for (i = 0; i < turns; i++) print "fold" }' > "$work/list"
  valgrind --tool=callgrind --callgrind-out-file="$work/out" "$program" replay "$work/sum.ioa" < "$work/list" > "$work/printed" 2> "$work/said"
  awk '$2 == "Collected" { print $4 }' "$work/said"
}
# turn ITEMS: the instructions of one turn over so many items
turn() { awk -v with="$(count "$1" "$turns")" -v without="$(count "$1" 0)" -v turns="$turns" 'BEGIN { print (with - without) / turns }'; }

awk -v none="$(turn 0)" -v few="$(turn 16)" -v many="$(turn 256)" 'BEGIN {
  few = (few - none) / 16; many = (many - none) / 256
  printf "loop over 16 items: %.0f instructions an item; over 256: %.0f; ratio %.2f\n", few, many, many / few
}'
