#!/bin/sh
# How fast objects are read and written: bench/objects.sh PROGRAM
#
# Compiles a composition of 32 components whose source has 100 KiB and one whose source has 1 MiB, and prints the seconds of `check` for each source and for its
# object, and of `compile`, with the seconds a megabyte; then the seconds of a replay of 100,000 actions by a source and by its object. Each is the best of three
# runs. The figures are of this machine and this run.
#
# Everything is written into a temporary folder, which goes with the script.
set -eu
program=$1
case $program in /*) ;; *) program=$PWD/$program ;; esac
top=$(cd "$(dirname "$0")/.." && pwd)
work=$(mktemp -d)
trap 'rm -rf "$work"' EXIT

# 32 automata of 8 entries with long effects, of so many bytes in all, and a composition of them.
source_of() {
  awk -v bytes="$1" 'BEGIN {
    for (a = 0; a < 32; a++) {
      signature = ""; transitions = ""; parts = parts (a ? "; " : "") "C" a ": A" a
      for (e = 0; e < 8; e++) {
        signature = signature (e ? "; " : "") "input e" a "x" e
        effect = "v0 := v0 + 1"
        while (length(effect) < bytes / 256 - 60) effect = effect "; v" (length(effect) % 24) " := v1 + v2 - (v3 + 1)"
        transitions = transitions "\n  input e" a "x" e " eff " effect
      }
      states = "v0: Int"
      for (v = 1; v < 24; v++) states = states "; v" v ": Int"
      print "automaton A" a "\nsignature " signature "\nstates " states "\ntransitions" transitions
    }
    print "composition All components " parts
  }'
}
# seconds LIST WORDS..: of the best of three runs
seconds() {
  list=$1
  shift
  best=
  for turn in 1 2 3; do
    from=$(date +%s.%N)
    "$program" "$@" < "$list" > "$work/printed"
    till=$(date +%s.%N)
    best=$(awk -v a="$from" -v b="$till" -v best="$best" 'BEGIN { took = b - a; print (best == "" || took < best) ? took : best }')
  done
  echo "$best"
}
# told NAME FILE SECONDS
told() { awk -v name="$1" -v bytes="$(wc -c < "$2")" -v s="$3" 'BEGIN { printf "%s, %d bytes: %.3f s, %.2f s a megabyte\n", name, bytes, s, s / bytes * 1000000 }'; }

for bytes in 107000 1035000; do
  source_of "$bytes" > "$work/source.ioa"
  written=$(seconds /dev/null compile "$work/source.ioa" "$work/object")
  told "check of a source" "$work/source.ioa" "$(seconds /dev/null check "$work/source.ioa")"
  told "check of its object" "$work/object" "$(seconds /dev/null check "$work/object")"
  told "compilation to it" "$work/object" "$written"
done
cp "$top/examples/counter/counter.ioa" "$work/counter.ioa"
"$program" compile "$work/counter.ioa" "$work/counter" > "$work/printed"
awk 'BEGIN { for (i = 0; i < 100000; i++) print "tick(" 5 + i ")" }' > "$work/list"
awk -v source="$(seconds "$work/list" replay "$work/counter.ioa")" -v object="$(seconds "$work/list" replay "$work/counter")" \
  'BEGIN { printf "100000 actions by a source: %.3f s; by its object: %.3f s\n", source, object }'
