#!/bin/sh
# How time and memory grow: bench/ratios.sh PROGRAM
#
# Replays lists and logs of 100,000 and 1,000,000 actions, sources of 100 KiB and 1 MiB, and sources of 25 and 255 automata with
# as many variables and entries as there may be, and prints the seconds, their ratio, and the actions a second; then how long a log takes
# beside its list, with an invariant and a monitor beside the log, of a counter and of Stenning's protocol; and the greatest memory of a
# replay beside its list and trace, of a log beside its list, and of logs whose actions are hidden. Seconds are those of a processor, the
# best of three runs. The figures are of this machine and this run.
#
# Everything is written into a temporary folder, which goes with the script. It wants Python 3.
set -eu
program=$1
case $program in /*) ;; *) program=$PWD/$program ;; esac
top=$(cd "$(dirname "$0")/.." && pwd)
work=$(mktemp -d)
trap 'rm -rf "$work"' EXIT

list() { awk -v n="$1" 'BEGIN { for (i = 0; i < n; i++) print "tick(" 5 + i ")" }'; }
# 200 automata with long effects, of so many bytes in all, and a composition of the first one.
source_of() {
  awk -v bytes="$1" 'BEGIN {
    for (a = 0; a < 200; a++) {
      text = "automaton A" a "(f: Int)\nsignature output go(k: Int); input stop\nstates v0: Int := f"
      for (v = 1; v < 24; v++) text = text "; v" v ": Int"
      text = text "\ntransitions\n  output go pre k = v0 propose k := v0 eff v0 := v0 + 1"
      while (length(text) < bytes / 200 - 60) text = text "; v" (length(text) % 24) " := v1 + v2 - (v3 + 1)"
      print text "\n  input stop eff v0 := f"
    }
    print "composition One components A: A0(1)"
  }'
}
# So many automata of 64 variables and 64 entries, and a composition of the last one.
crowd() {
  awk -v count="$1" 'BEGIN {
    for (a = 0; a < count; a++) {
      signature = "input e0"; states = "v0: Int"; transitions = " input e0 eff v0 := v0 + 1"
      for (i = 1; i < 64; i++) {
        signature = signature "; input e" i
        states = states "; v" i ": Int"
        transitions = transitions " input e" i " eff v" i " := v" i " + 1"
      }
      print "automaton A" a " signature " signature "\nstates " states "\ntransitions" transitions
    }
    print "composition One components A: A" count - 1
  }'
}
# So many actions on a queue of 256 pairs, which is full from the 256th on.
queue() {
  cat << 'END'
type Pair = tuple { a: Int, b: Bool }
type Pairs = seq 256 of Pair
automaton Queue signature input put(p: Pair); output take(p: Pair)
states q: Pairs
transitions
  input put eff if len(q) < 256 then q := append(q, p) fi
  output take pre len(q) > 0 /\ p = head(q) propose p := head(q) eff q := tail(q)
composition One components A: Queue
END
}
pairs() {
  awk -v n="$1" 'BEGIN {
    for (i = 0; i < n; i++) {
      if (i < 256 || i % 2) print "put(Pair(" i ", " (i % 3 ? "true" : "false") "))"
      else { k = (i - 256) / 2; k = k < 256 ? k : 2 * k - 255; print "take(Pair(" k ", " (k % 3 ? "true" : "false") "))" }
    }
  }'
}
bytes() { wc -c < "$work/$1"; }
log() { awk -v n="$1" 'BEGIN { for (i = 0; i < n; i++) print "{\"act\":\"tick(" 5 + i ")\",\"who\":0}"; print "{\"end\":\"done after " n "\"}" }'; }
# measured COMMAND..: runs the program with these words on the file `input`, and prints the seconds of a processor, of the best of three runs, and the
# greatest memory in bytes; what it prints stays in the file `printed`
measured() {
  python3 - "$work" "$program" "$@" << 'END'
import os, subprocess, sys
work, best, peak = sys.argv[1], None, 0
for _ in range(3):
    with open(f"{work}/input", "rb") as text, open(f"{work}/printed", "wb") as out:
        child = subprocess.Popen(sys.argv[2:], stdin=text, stdout=out)
        _, status, used = os.wait4(child.pid, 0)
    if status:
        sys.exit(f"{sys.argv[2:]} ends with {os.waitstatus_to_exitcode(status)}")
    took = used.ru_utime + used.ru_stime
    best, peak = took if best is None else min(best, took), max(peak, used.ru_maxrss * 1024)
print(best, peak)
END
}
# of INPUT COMMAND..: the same, on a file of the temporary folder
of() { cp "$work/$1" "$work/input"; shift; measured "$@"; }
# seconds SOURCE LIST [FLAGS]: of a replay of the list or, with --log, of the log
seconds() {
  # shellcheck disable=SC2086
  of "$2" replay "$work/$1" ${3-} | cut -d ' ' -f 1
}
# beside WHAT ONE OTHER: the ratio of two measures
beside() { echo "$2 $3" | awk -v what="$1" '{ printf "%s: %.3f s, beside %.3f s; ratio %.2f\n", what, $1, $3, $1 / $3 }'; }
# logged NAME SOURCE COMPOSITION SPECIFICATION LIST LOG: a log beside its list, and what is asked of it beside the log
logged() {
  by_list=$(of "$5" replay "$2" --comp "$3")
  by_log=$(of "$6" replay "$2" --comp "$3" --log)
  beside "log of $1, beside its list" "$by_log" "$by_list"
  beside "invariants of $1, beside the log" "$(of "$6" replay "$2" --comp "$3" --log --invariants)" "$by_log"
  beside "monitor of $1, beside the log" "$(of "$6" monitor "$2" --comp "$4")" "$by_log"
  echo "$by_log $by_list" | awk -v what="$1" '{ printf "memory of the log of %s: %d bytes, of its list %d; ratio %.2f\n", what, $2, $4, $2 / $4 }'
}

cp "$top/examples/counter/counter.ioa" "$work/counter.ioa"
(cat "$work/counter.ioa"; echo 'invariant of Counter: c >= start') > "$work/bounded.ioa"
(cat "$work/counter.ioa"; echo 'composition Hidden components A: Counter(5) hidden tick') > "$work/hidden.ioa"
list 100000 > "$work/small.list"
list 1000000 > "$work/large.list"
log 100000 > "$work/small.log"
log 1000000 > "$work/large.log"
source_of 107000 > "$work/small.ioa"
source_of 1048000 > "$work/large.ioa"
crowd 25 > "$work/few.ioa"
crowd 255 > "$work/many.ioa"
queue > "$work/queue.ioa"
pairs 40000 > "$work/small.pairs"
pairs 400000 > "$work/large.pairs"
printf 'go(1)\n' > "$work/one.list"
printf 'e63\n' > "$work/last.list"

small=$(seconds counter.ioa small.list)
large=$(seconds counter.ioa large.list)
awk -v s="$small" -v l="$large" 'BEGIN { printf "list of 100000: %.3f s; of 1000000: %.3f s; ratio %.1f; %d actions a second\n", s, l, l / s, 1000000 / l }'
small=$(seconds counter.ioa small.log --log)
large=$(seconds counter.ioa large.log --log)
awk -v s="$small" -v l="$large" 'BEGIN { printf "log of 100000: %.3f s; of 1000000: %.3f s; ratio %.1f; %d entries a second\n", s, l, l / s, 1000000 / l }'
small=$(seconds bounded.ioa small.log "--log --invariants")
large=$(seconds bounded.ioa large.log "--log --invariants")
awk -v s="$small" -v l="$large" 'BEGIN { printf "log of 100000 with an invariant: %.3f s; of 1000000: %.3f s; ratio %.1f; %d states a second\n", s, l, l / s, 1000001 / l }'
small=$(seconds queue.ioa small.pairs)
large=$(seconds queue.ioa large.pairs)
awk -v s="$small" -v l="$large" 'BEGIN { printf "full queue of 256 pairs, list of 40000: %.3f s; of 400000: %.3f s; ratio %.1f; %d actions a second\n", s, l, l / s, 400000 / l }'
small=$(seconds small.ioa one.list)
large=$(seconds large.ioa one.list)
awk -v s="$small" -v l="$large" -v a="$(bytes small.ioa)" -v b="$(bytes large.ioa)" 'BEGIN { printf "source of %d bytes: %.3f s; of %d: %.3f s; ratio %.1f\n", a, s, b, l, l / s }'
small=$(seconds few.ioa last.list)
large=$(seconds many.ioa last.list)
awk -v s="$small" -v l="$large" -v a="$(bytes few.ioa)" -v b="$(bytes many.ioa)" 'BEGIN { printf "25 automata (%d bytes): %.3f s; 255 (%d bytes): %.3f s; ratio %.1f\n", a, s, b, l, l / s }'
logged 'the counter' "$work/bounded.ioa" One One large.list large.log
links=$top/examples/links/links.ioa
"$program" run "$links" --comp Stenning --alone --turns 100000 --log > "$work/stenning.log"
sed -n 's/^{"act":"\(.*\)","who":[0-9]*}$/\1/p' "$work/stenning.log" > "$work/stenning.list"
logged "Stenning's protocol" "$links" Stenning ReliableFifo stenning.list stenning.log
of large.list replay "$work/counter.ioa" | awk -v list="$(bytes large.list)" -v trace="$(bytes printed)" '
  { printf "memory of 1000000 actions: %d bytes at most; list and trace: %d bytes; ratio %.1f\n", $2, list + trace, $2 / (list + trace) }'
echo "$(of large.log replay "$work/hidden.ioa" --log) $(of small.log replay "$work/hidden.ioa" --log)" | awk '
  { printf "memory of a log of 1000000 hidden actions: %d bytes, of 100000: %d; ratio %.2f\n", $2, $4, $2 / $4 }'
