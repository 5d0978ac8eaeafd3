#!/bin/sh
# What threads do, what they gain, and what their lock costs: bench/threads.sh PROGRAM
#
# Runs protocols in as many turns with and without `--alone`, and prints how many of the actions, and of those that deliver something, come to pass on
# threads, and the ratio of the wall times: the medians of twenty runs, each by another seed.
#
# Runs compositions of 2, 4, 8 and 16 components with and without `--alone`, and prints the actions a second of both, the ratio of their
# wall times, and the share of stale turns among the components' turns on threads. The components share no action, or every action; their
# effects are long, of some hundred operations on a few numbers, or trivial. The best of three runs counts. The figures are of this machine,
# which has as many processors as are told first, and of this run.
set -eu
program=$1
case $program in /*) ;; *) program=$PWD/$program ;; esac
top=$(cd "$(dirname "$0")/.." && pwd)
work=$(mktemp -d)
trap 'rm -rf "$work"' EXIT

# effect LENGTH: the statements of an effect
effect() {
  case $1 in
    long) awk 'BEGIN { for (i = 0; i < 40; i++) printf "%sa := (a * 7 + b + %d) mod 1009; b := (b * 5 - a) mod 997", i ? "; " : "", i }' ;;
    trivial) echo 'a := 1 - a' ;;
  esac
}
# apart COUNT LENGTH: so many components, each with an action of its own
apart() {
  echo "automaton Work(i: Int) signature internal go(const i) states a: Int; b: Int"
  echo "transitions internal go eff $(effect "$2")"
  awk -v n="$1" 'BEGIN { printf "composition Apart components"; for (i = 0; i < n; i++) printf "%s W%d: Work(%d)", i ? ";" : "", i, i; print "" }'
}
# together COUNT LENGTH: so many components, each of which performs one action, in which all others take part
together() {
  awk -v n="$1" -v effect="$(effect "$2")" 'BEGIN {
    for (i = 0; i < n; i++) {
      printf "automaton Work%d signature", i
      for (j = 0; j < n; j++) printf "%s %s go%d", j ? ";" : "", j == i ? "output" : "input", j
      print " states a: Int; b: Int transitions"
      for (j = 0; j < n; j++) print (j == i ? "output" : "input") " go" j " eff " effect
    }
    printf "composition Together components"
    for (i = 0; i < n; i++) printf "%s W%d: Work%d", i ? ";" : "", i, i
    printf " hidden"
    for (i = 0; i < n; i++) printf "%s go%d", i ? "," : "", i
    print ""
  }'
}
# measured WAY TURNS: of the best of three runs the seconds, the actions, the stale turns and all turns of the components
measured() {
  for _ in 1 2 3; do
    from=$(date +%s.%N)
    # shellcheck disable=SC2086
    timeout 300 "$program" run "$work/source.ioa" $1 --turns "$2" --reports > "$work/printed" 2> "$work/reports"
    till=$(date +%s.%N)
    awk -v a="$from" -v b="$till" '$1 != "environment:" && / committed, / { done += $2; stale += $6; all += $2 + $4 + $6 } END { print b - a, done, stale, all }' "$work/reports"
  done | sort -g | head -n 1
}
# compared KIND COUNT LENGTH TURNS
compared() {
  "$1" "$2" "$3" > "$work/source.ioa"
  measured --alone "$4" > "$work/alone"
  measured '' "$4" > "$work/threads"
  awk -v name="$2 components $1, $3 effects" '
    FNR == NR { seconds = $1; done = $2; next }
    { printf "%s: alone %d actions a second, on threads %d; wall time %.2f of alone; stale %.1f%%\n", name, done / seconds, $2 / $1, $1 / seconds, 100 * $3 / $4 }
  ' "$work/alone" "$work/threads"
}

# performed SOURCE COMPOSITION ACTION WAY: of twenty runs the medians of the actions, of those of this name, and of the seconds
performed() {
  for seed in $(seq 20); do
    from=$(date +%s.%N)
    # shellcheck disable=SC2086
    timeout 300 "$program" run "$top/examples/$1" --comp "$2" $4 --turns 2000 --seed "$(printf '%064d' "$seed")" --log > "$work/log"
    till=$(date +%s.%N)
    awk -v a="$from" -v b="$till" -v name="\"act\":\"$3[(\"]" '/"act":/ { all++ } $0 ~ name { some++ } END { print all + 0, some + 0, b - a }' "$work/log"
  done > "$work/runs"
  for column in 1 2 3; do
    sort -g -k "$column,$column" "$work/runs" | awk -v column="$column" '{ value[NR] = $column } END { printf "%s ", (value[10] + value[11]) / 2 }'
  done
}
# kept SOURCE COMPOSITION ACTION
kept() {
  performed "$1" "$2" "$3" --alone > "$work/alone"
  performed "$1" "$2" "$3" '' > "$work/threads"
  awk -v name="$2" -v action="$3" '
    FNR == NR { all = $1; some = $2; seconds = $3; next }
    { printf "%s: on threads %.2f of the actions, %.2f of the %s; wall time %.2f of alone\n", name, $1 / all, $2 / some, action, $3 / seconds }
  ' "$work/alone" "$work/threads"
}

echo "processors: $(getconf _NPROCESSORS_ONLN)"
kept links/links.ioa AltBit receive_msg
kept links/links.ioa Stenning receive_msg
kept links/links.ioa Sliding receive_msg
kept links/links.ioa Handshake receive_msg
kept peterson/peterson.ioa Peterson crit
kept ring/ring.ioa Ring receive
for count in 2 4 8 16; do
  compared apart "$count" long 10000
done
for count in 2 4 8 16; do
  compared apart "$count" trivial 50000
done
for count in 2 4 8 16; do
  compared together "$count" long 2000
done
for count in 2 4 8 16; do
  compared together "$count" trivial 10000
done
