#!/bin/sh
# Compiles the examples, and does with their objects what is done with their sources: examples/objects.sh PROGRAM
#
# Each composition of a source that the program accepts is compiled. Where neither the source nor anything else lies, its object has to be
# verified, to have the source's graph, to run as the source does by two seeds, with the actions of the log and the turns counted by the reports, and to replay each list and log of the folder, and to draw it, as the source does, with the same exit status. An object is not compiled again, and is
# no other composition's. Of what is refused no file is left, and one that was there stays as it was; so does a file that is no object, where an object should take its place.
set -u
program=$1
case $program in /*) ;; *) program=$PWD/$program ;; esac
top=$(cd "$(dirname "$0")" && pwd)
work=$(mktemp -d) || exit 1
trap 'rm -rf "$work"' EXIT
mkdir "$work/alone"
objects=0
replays=0

fail() {
  echo "objects: $1: $2"
  exit 1
}

# entries_only: what was printed, without what is told of arms and bodies, which an object does not know
entries_only() {
  grep -Ev ': (arm|else|body) [0-9.]+: (taken [0-9]+|never taken)$' "$work/printed" > "$work/entries"
  mv "$work/entries" "$work/printed"
}

# both WORDS..: the words on the source and on the object, each before the options; what they print and their exit status has to be one
both() {
  command=$1
  list=$2
  shift 2
  "$program" "$command" "$source" --comp "$composition" "$@" < "$list" > "$work/printed" 2>&1
  status=$?
  (cd "$work/alone" && "$program" "$command" object "$@" < "$list" > "$work/answer" 2>&1)
  [ $? -eq "$status" ] || fail "$source" "$command $* of $composition has another exit status by the object, for $list"
  case " $* " in *" --coverage "*) entries_only ;; esac
  cmp -s "$work/printed" "$work/answer" || fail "$source" "$command $* of $composition is another by the object, for $list"
  replays=$((replays + 1))
}

# refused STATUS TEXT WORDS..: the words have this exit status and tell this, and leave the folder as it was
refused() {
  status=$1
  text=$2
  shift 2
  ls "$work/alone" > "$work/before"
  (cd "$work/alone" && "$program" "$@" > "$work/printed" 2> "$work/errors")
  [ $? -eq "$status" ] || fail "$*" "the exit status is not $status"
  [ "$(cat "$work/errors")" = "$text" ] || fail "$*" "it tells $(cat "$work/errors") in place of $text"
  [ -s "$work/printed" ] && fail "$*" "it prints what is refused"
  ls "$work/alone" | cmp -s "$work/before" - || fail "$*" "it leaves a file"
}

for source in "$top"/*/*.ioa; do
  for composition in $(sed -n 's/^ *composition \([A-Za-z0-9_]*\).*/\1/p' "$source"); do
    "$program" compile "$source" "$work/alone/object" --comp "$composition" > "$work/printed" 2> "$work/errors" || continue
    [ "$(cat "$work/printed")" = ok ] && [ ! -s "$work/errors" ] || fail "$source" "$composition is not compiled with ok"
    [ "$("$program" check "$work/alone/object" 2>&1)" = ok ] || fail "$source" "the object of $composition is not verified"
    [ "$(ls "$work/alone")" = object ] || fail "$source" "$composition leaves other files than its object"
    objects=$((objects + 1))
    both graph /dev/null
    for digit in 0 1; do
      both run /dev/null --alone --turns 100 --log --reports --seed "$(printf '%064d' "$digit")"
      grep '^{' "$work/answer" > "$work/log"
      grep -v '^{' "$work/answer" > "$work/reports"
      awk -v turns=100 -f "$top/counted.awk" "$work/log" "$work/reports" || fail "$source" "the reports of the object of $composition do not count the actions of its log, or the turns"
    done
    for list in "$(dirname "$source")"/*.list; do
      [ -f "$list" ] || continue
      both replay "$list"
      both replay "$list" --log
      both replay "$list" --coverage
      both replay "$list" --log --coverage
      both monitor "$list"
      both chart "$list"
    done
  done
done
[ "$objects" -gt 0 ] && [ "$replays" -gt 0 ] || fail "examples" "there are none"

cd "$work/alone" || exit 1
"$program" compile "$top/counter/counter.ioa" object > "$work/printed" 2>&1 || fail "counter" "it is not compiled"
cp object "$work/kept"
refused 2 object compile object other
refused 2 object compile object object
refused 2 object replay object --log --invariants
refused 2 object replay object --states
refused 2 object replay object --log --states
refused 2 object replay object --enabled
refused 2 object replay object --log --enabled
refused 1 E17 replay object --comp Two
refused 1 E17 compile "$top/counter/counter.ioa" object --comp Nine
refused 5 io compile "$top/counter/none.ioa" object
refused 5 io compile "$top/counter/counter.ioa" none/object
refused 5 io compile "$top/counter/counter.ioa" ..
: > object.part
refused 5 io compile "$top/counter/counter.ioa" object
rm object.part
cmp -s object "$work/kept" || fail "counter" "a refusal changes the object that was there"
head -c 30 object > cut
refused 1 O3 check cut

# A file that is no object keeps its place, also where a link leads to it, but what is wrong with the source is told first. What is no file is not waited for.
cp "$top/counter/counter.ioa" source
ln -s source link
mkfifo pipe
printf '\177IO' > short
cp short other
for out in source link short pipe ..; do
  refused 5 io compile source "$out"
  refused 1 E17 compile source "$out" --comp Nine
done
cmp -s source "$top/counter/counter.ioa" || fail "source" "its object takes its place"
[ -L link ] && [ -p pipe ] && cmp -s short other || fail "source" "an object takes the place of what is none"
"$program" compile source source --explain 2> "$work/errors" && fail "source" "it is its own object"
[ "$(sed -n '1,2p' "$work/errors")" = "io
source is there and is no object" ] || fail "source" "it is not told that it is there and is no object"

# An empty file gives way, and so do an object, what begins as one, and a link to one or to nothing. A new name needs nothing to give way.
: > empty
cp object old
cp object target
printf '\177IOA' > marked
ln -s target to_object
ln -s none to_nothing
for out in empty old marked to_object to_nothing new; do
  [ "$("$program" compile source "$out" 2>&1)" = ok ] || fail "source" "its object is not put in $out"
  [ ! -L "$out" ] && cmp -s "$out" "$work/kept" || fail "source" "$out is not its object"
done
echo "objects: $objects compiled, $replays answers compared, 0 differ"
