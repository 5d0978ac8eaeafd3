#!/bin/sh
# What runs by many seeds in one call cost: bench/seeds.sh PROGRAM
#
# Runs Stenning's protocol on one thread by 500 seeds, 200 turns each, in one call, and with the 100,000 turns of one run; prints the seconds of a processor of both, of
# the best of five, and their ratio (goal: 1.3 at most), and those of 500 calls of a seed each. Where valgrind is there, the same ratio of the instructions of 10 seeds and of 2,000 turns, which is
# the same on a busy machine. The other figures are of this machine and this run.
#
# Everything is written into a temporary folder, which goes with the script. It wants Python 3.
set -eu
program=$1
case $program in /*) ;; *) program=$PWD/$program ;; esac
top=$(cd "$(dirname "$0")/.." && pwd)
source=$top/examples/links/links.ioa
work=$(mktemp -d)
trap 'rm -rf "$work"' EXIT

# seconds TIMES WORDS..: of a processor, of the best of so many runs of the protocol with these words
seconds() {
  python3 - "$work/printed" "$1" "$program" run "$source" --comp Stenning --alone "$(shift; echo "$*")" << 'END'
import os, subprocess, sys
printed, times, command = sys.argv[1], int(sys.argv[2]), sys.argv[3:-1] + sys.argv[-1].split()
took = []
for _ in range(times):
    with open(printed, "wb") as out:
        child = subprocess.Popen(command, stdout=out)
        _, status, used = os.wait4(child.pid, 0)
    if status:
        sys.exit(f"{command} ends with {os.waitstatus_to_exitcode(status)}")
    took.append(used.ru_utime + used.ru_stime)
print(min(took))
END
}
# count WORDS..: the instructions of a run of the protocol with these words
count() {
  valgrind --tool=callgrind --callgrind-out-file="$work/out" "$program" run "$source" --comp Stenning --alone "$@" > "$work/printed" 2> "$work/said"
  awk '$2 == "Collected" { print $4 }' "$work/said"
}

many=$(seconds 5 --turns 200 --seeds 1..500)
one=$(seconds 5 --turns 100000)
awk -v m="$many" -v o="$one" 'BEGIN { printf "500 seeds of 200 turns in one call: %.3f s; one run of 100000: %.3f s; ratio %.2f\n", m, o, m / o }'
from=$(date +%s.%N)
seq -f %064.0f 1 500 | xargs -I SEED "$program" run "$source" --comp Stenning --alone --turns 200 --seed SEED > "$work/printed"
till=$(date +%s.%N)
awk -v a="$from" -v b="$till" 'BEGIN { printf "500 calls of one seed each: %.3f s\n", b - a }'
if command -v valgrind > "$work/found"; then
  awk -v m="$(count --turns 200 --seeds 1..10)" -v o="$(count --turns 2000)" 'BEGIN { printf "instructions of 10 seeds of 200 turns: %d; of 2000 turns: %d; ratio %.2f\n", m, o, m / o }'
fi
