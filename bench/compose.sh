#!/bin/sh
# How the time of composing grows: bench/compose.sh PROGRAM
#
# Composes 8, 16 and 32 components of 64 inputs each, first with names of their own, so that no two entries share a name, and
# then with the same 64 names in each, so that the pairs of entries of one name are 64 for each two components. What is printed
# is the seconds of so many runs of `replay` on an empty list, less those of `check` on the same source: composing and
# compiling. The figures are of this machine and this run.
#
# Everything is written into a temporary folder, which goes with the script.
set -eu
program=$1
case $program in /*) ;; *) program=$PWD/$program ;; esac
work=$(mktemp -d)
trap 'rm -rf "$work"' EXIT
runs=20

# So many components of automata with 64 inputs; where the last word is 1, the names are the same in each.
source_of() {
  awk -v count="$1" -v shared="$2" 'BEGIN {
    parts = ""
    for (a = 0; a < count; a++) {
      signature = ""; transitions = ""
      for (e = 0; e < 64; e++) {
        name = shared ? "e" e : "e" a "x" e
        signature = signature (e ? "; " : "") "input " name "(const " a ", k: Int, const " e ")"
        transitions = transitions " input " name
      }
      print "automaton A" a " signature " signature " transitions" transitions
      parts = parts (a ? "; " : "") "C" a ": A" a
    }
    print "composition All components " parts
  }'
}
seconds() {
  from=$(date +%s%N)
  for _ in $(seq "$runs"); do "$program" "$1" "$2" < /dev/null > /dev/null; done
  to=$(date +%s%N)
  echo $(((to - from) / 1000000))
}

printf '%-12s %-20s %s\n' components 'pairs of one name' "milliseconds of $runs runs beyond check"
for shared in 0 1; do
  for count in 8 16 32; do
    source_of "$count" "$shared" > "$work/many.ioa"
    checked=$(seconds check "$work/many.ioa")
    replayed=$(seconds replay "$work/many.ioa")
    printf '%-12s %-20s %s\n' "$count" $((shared * 64 * count * (count - 1) / 2)) $((replayed - checked))
  done
done
