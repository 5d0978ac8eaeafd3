#!/bin/sh
# Runs the examples on threads again and again: bench/soak.sh PROGRAM N
#
# Each composition of an example that performs something by itself is run N times, each time with another seed and 200 turns of each worker.
# Each log has to be accepted by `replay --log`, and by the specification that stands beside the composition, if one does. So it is with a component
# that faults while others go on, beside one that performs nothing. A run that takes longer than a minute is killed, and fails; so does one whose
# threads are refused in part.
set -u
program=$1
count=$2
case $program in /*) ;; *) program=$PWD/$program ;; esac
top=$(cd "$(dirname "$0")/.." && pwd)
work=$(mktemp -d) || exit 1
trap 'rm -rf "$work"' EXIT
runs=0
entries=0
judged=0

fail() {
  echo "soak: $1, seed $seed: $2"
  exit 1
}

# specification SOURCE COMPOSITION: the specification that the composition has to meet
specification() {
  case ${1#"$top/examples/"}:$2 in
    links/links.ioa:Stenning | links/links.ioa:AltBit | links/links.ioa:Sliding) echo ReliableFifo ;;
    links/links.ioa:Handshake) echo AtMostOnce ;;
    logs/ordered.ioa:Link) echo InOrder ;;
    peterson/peterson.ioa:Peterson | ring/ring.ioa:Ring | commit/commit.ioa:TwoPhase) echo Specification ;;
    token/token.ioa:Token | window/window.ioa:Window) echo Specification ;;
    numbered/numbered.ioa:Numbered) echo ByCounting ;;
  esac
}

# acts SOURCE COMPOSITION: whether it performs something without inputs
acts() {
  "$program" run "$1" --comp "$2" --alone --turns 20 --log > "$work/log" 2> "$work/errors" || [ $? -eq 3 ] || return 1
  grep -q '"act":' "$work/log"
}

# soaked SOURCE COMPOSITION SPECIFICATION: one run
soaked() {
  timeout -s KILL 60 "$program" run "$1" --comp "$2" --turns 200 --seed "$seed" --log > "$work/log" 2> "$work/errors"
  status=$?
  [ "$status" -eq 0 ] || [ "$status" -eq 3 ] || fail "$1 $2" "exit status $status"
  "$program" replay "$1" --comp "$2" --log < "$work/log" > "$work/trace" 2>> "$work/errors"
  [ $? -eq "$status" ] || fail "$1 $2" "the log is not replayed with exit status $status"
  if [ -n "$3" ]; then
    "$program" monitor "$1" --comp "$3" < "$work/log" > "$work/answer" 2>> "$work/errors" || fail "$1 $2" "$3 answers $(cat "$work/answer")"
    judged=$((judged + 1))
  fi
  [ -s "$work/errors" ] && fail "$1 $2" "it tells of an error"
  runs=$((runs + 1))
  entries=$((entries + $(wc -l < "$work/log") - 1))
}

# A component that faults after some hundred turns, some that go on, and one that only listens.
cat > "$work/faulting.ioa" << 'END'
automaton Full signature output go states n: Int := 9223372036854775707
transitions output go eff n := n + 1
automaton Work(i: Int) signature internal tick(const i) states n: Int
transitions internal tick eff n := n + 1
automaton Listener signature input go states n: Int transitions input go eff n := 1 - n
composition Faulting components F: Full; A: Work(1); B: Work(2); C: Work(3); L: Listener
END

# refused: runs whose threads are refused in part, for want of memory for their stacks. Such a run ends, and is refused.
refused() {
  source=$top/examples/links/links.ioa
  for kilobytes in $(seq 400000 -4000 4000); do
    few "$kilobytes"
    [ "$(cat "$work/errors")" = N3 ] && break
  done
  [ "$(cat "$work/errors")" = N3 ] || fail "$source" "no thread is refused"
  turn=0
  while [ "$turn" -lt "$count" ]; do
    few "$kilobytes"
    case $? in
      0 | 5) ;;
      *) fail "$source" "a run whose threads are refused does not end" ;;
    esac
    turn=$((turn + 1))
  done
}
# few KILOBYTES: a run with so much memory
few() {
  seed=0
  (ulimit -v "$1" && timeout -s KILL 60 "$program" run "$source" --comp Sliding --turns 200 > "$work/out" 2> "$work/errors") 2> "$work/shell"
}

from=$(date +%s)
refused
for source in "$top"/examples/*/*.ioa "$work/faulting.ioa"; do
  for composition in $(sed -n 's/^ *composition \([A-Za-z0-9_]*\).*/\1/p' "$source"); do
    acts "$source" "$composition" || continue
    wanted=$(specification "$source" "$composition")
    turn=0
    while [ "$turn" -lt "$count" ]; do
      seed=$(printf '%064d' "$turn")
      soaked "$source" "$composition" "$wanted"
      turn=$((turn + 1))
    done
  done
done
[ "$runs" -gt 0 ] || { echo "soak: there are no examples"; exit 1; }
echo "soak: $runs runs in $(($(date +%s) - from)) s, none refused; $entries entries, $judged runs monitored"
