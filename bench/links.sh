#!/bin/sh
# How fast the protocols of the library run on one thread: bench/links.sh PROGRAM [ANCHOR]
#
# Runs each protocol with 20,000 turns of each worker, a component or the environment, and prints the worker turns a second of the best
# of five runs. ANCHOR is a folder with a plain interpreter of the language, which its build.sh compiles to the file that it is given: with
# it the runs of both take turns, their answers are compared, and the ratio of the two is printed. Then come the seconds of 10,000
# and of 100,000 turns of Stenning's protocol, and their ratio. Last those in which a run goes on from the log of the 100,000, with no turn more, beside a
# replay of the log; and those of 100,000 turns more behind it, beside 100,000 from the start (goal of both ratios: 1.2 at most). Where valgrind is there, the same of the
# instructions of 500 turns, which are the same on a busy machine. The other figures are of this machine and this run.
set -eu
program=$1
case $program in /*) ;; *) program=$PWD/$program ;; esac
anchor=${2-}
top=$(cd "$(dirname "$0")/.." && pwd)
source=$top/examples/links/links.ioa
work=$(mktemp -d)
trap 'rm -rf "$work"' EXIT
turns=20000

# run PROGRAM COMPOSITION TURNS: runs it, and prints the seconds; the answer stays in the temporary folder
run() {
  from=$(date +%s.%N)
  "$1" run "$source" --comp "$2" --alone --turns "$3" --log > "$work/log"
  till=$(date +%s.%N)
  awk -v a="$from" -v b="$till" 'BEGIN { print b - a }'
}
# least: of the numbers on standard input
least() { sort -g | head -n 1; }
# measure COMPOSITION WORKERS: of the five best runs, beside the plain interpreter where there is one
measure() {
  : > "$work/ours"
  : > "$work/theirs"
  for _ in 1 2 3 4 5; do
    run "$program" "$1" "$turns" >> "$work/ours"
    if [ -n "$anchor" ]; then
      mv "$work/log" "$work/printed"
      run "$work/plain" "$1" "$turns" >> "$work/theirs"
      cmp -s "$work/log" "$work/printed" || { echo "$1: the answers differ"; exit 1; }
    fi
  done
  awk -v name="$1" -v count=$((turns * $2)) -v ours="$(least < "$work/ours")" -v theirs="$(least < "$work/theirs")" 'BEGIN {
    printf "%s: %d worker turns a second", name, count / ours
    if (theirs != "") printf "; the plain interpreter: %d; ratio %.2f", count / theirs, theirs / ours
    print ""
  }'
}
# best TURNS: the seconds of the best of three runs of Stenning's protocol
best() { for _ in 1 2 3; do run "$program" Stenning "$1"; done | least; }

if [ -n "$anchor" ]; then
  sh "$anchor/build.sh" "$work/plain" 2> "$work/warnings"
fi
measure Stenning 7
measure AltBit 6
measure Sliding 6
measure Handshake 7
small=$(best 10000)
large=$(best 100000)
awk -v s="$small" -v l="$large" 'BEGIN { printf "Stenning, 10000 turns: %.3f s; 100000: %.3f s; ratio %.1f\n", s, l, l / s }'

# took COMMAND..: the seconds of the best of five
took() {
  for _ in 1 2 3 4 5; do
    from=$(date +%s.%N)
    "$@" > "$work/printed"
    till=$(date +%s.%N)
    awk -v a="$from" -v b="$till" 'BEGIN { print b - a }'
  done | least
}
replayed() { "$program" replay "$source" --comp Stenning --log < "$work/first"; }
resumed() { "$program" run "$source" --comp Stenning --alone --turns "$1" --resume "$work/$2"; }
cp "$work/log" "$work/first"
echo '{"end":"done after 0"}' > "$work/none"
replay=$(took replayed)
again=$(took resumed 0 first)
more=$(took resumed 100000 first)
anew=$(took resumed 100000 none)
awk -v n="$(wc -l < "$work/first")" -v r="$replay" -v a="$again" -v m="$more" -v w="$anew" 'BEGIN {
  printf "Stenning, from a log of %d lines: %.3f s; replayed: %.3f s; ratio %.2f; 100000 turns behind it: %.3f s; from the start: %.3f s; ratio %.2f\n", n, a, r, a / r, m - a, w, (m - a) / w
}'

if command -v valgrind > "$work/found"; then
  # count WORDS..: the instructions of the program
  count() {
    valgrind --tool=callgrind --callgrind-out-file="$work/out" "$program" "$@" > "$work/printed" 2> "$work/said"
    awk '$2 == "Collected" { print $4 }' "$work/said"
  }
  "$program" run "$source" --comp Stenning --alone --turns 500 --log > "$work/first"
  cp "$work/first" "$work/given"
  no_turn=$(count run "$source" --comp Stenning --alone --turns 0)
  replay=$(count replay "$source" --comp Stenning --log < "$work/given")
  again=$(count run "$source" --comp Stenning --alone --turns 0 --resume "$work/first")
  more=$(count run "$source" --comp Stenning --alone --turns 500 --resume "$work/first")
  anew=$(count run "$source" --comp Stenning --alone --turns 500)
  awk -v n="$(wc -l < "$work/first")" -v z="$no_turn" -v r="$replay" -v a="$again" -v m="$more" -v w="$anew" 'BEGIN {
    printf "counted, from a log of %d lines: %.0f instructions a line; replayed: %.0f; ratio %.2f; a turn behind it: %.0f; from the start: %.0f; ratio %.2f\n",
      n, (a - z) / n, (r - z) / n, (a - z) / (r - z), (m - a) / 500, (w - z) / 500, (m - a) / (w - z)
  }'
fi
