#!/bin/sh
# How the verifier's time and memory grow with the code: bench/verify.sh
#
# Builds crates/verify_bench and has it verify hostile code of 6,553, of 32,767 and of 65,535 instructions, each so often that it is as
# many instructions in all: a deep stack that a jump at each place takes down (jumps), that jumps take to one place from
# everywhere (meets), or of which items half way down are copied (locals); and on one stack as many types as a source may
# have (types), or the one that takes the longest search (bits). It prints the processor time of one verification, the ratio of the
# first and the last, that of twice the length (goal: 2.3 at most), and the greatest memory. The figures are of this machine and this run.
set -eu
top=$(cd "$(dirname "$0")/.." && pwd)
program=$top/crates/verify_bench/out/verify_bench
small=6553
half=32767
large=65535
turns=200
work=$(mktemp -d)
trap 'rm -rf "$work"' EXIT

# measure KIND INSTRUCTIONS TURNS: notes the seconds and the greatest memory, in KiB, of one run
measure() { /usr/bin/time -a -o "$work/$1.$2" -f '%U %S %M' "$program" "$@" > "$work/said"; }
# cost KIND INSTRUCTIONS TURNS: the milliseconds of one verification, in the best run, and the greatest memory in bytes
cost() {
  awk -v turns="$3" '{
    took = ($1 + $2) * 1000 / turns
    if (NR == 1 || took < best) best = took
    if ($3 > most) most = $3
  } END { printf "%.6f %d\n", best, most * 1024 }' "$work/$1.$2"
}

if ! [ -x /usr/bin/time ]; then
  echo "verify: /usr/bin/time is not here to measure it"
  exit 0
fi
if ! (cd "$top/crates/verify_bench" && rt run -- bits 101 2) > "$work/built" 2>&1; then
  cat "$work/built"
  exit 1
fi
for kind in jumps meets types bits locals; do
  for run in 1 2 3; do
    measure $kind $small $((turns * 10))
    measure $kind $half $((turns * 2))
    measure $kind $large $turns
  done
  { cost $kind $small $((turns * 10)); cost $kind $half $((turns * 2)); cost $kind $large $turns; } |
    awk -v kind=$kind -v small=$small -v large=$large '{ took[NR] = $1; most[NR] = $2 } END {
      printf "verify %s: %d instructions: %.2f ms, %d bytes at most; %d: %.2f ms, %d bytes; ratio %.1f, of twice the length %.2f; %.0f bytes an instruction\n",
        kind, small, took[1], most[1], large, took[3], most[3], took[3] / took[1], took[3] / took[2], (most[3] - most[1]) / (large - small)
    }'
done
