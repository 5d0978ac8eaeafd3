#!/bin/sh
# Fails the devices of a program: examples/devices.sh PROGRAM
#
# Each command that prints is given a full device, a pipe whose reader is gone, a file that may not grow and no device at all as standard output, and has to tell `L8`, with exit
# status 5; what a file that may not grow holds is a beginning of the answer. What cannot be told on standard error, a list or a log that cannot be read and a file that cannot has exit
# status 5, too. An object that does not fit its disk or the size that a file may have, or whose folder may not be written, is refused (`io`): OUT stays as it was, and no file is left. It is
# put on another device, as asked. Where the program is killed on the way, OUT is the old object or the new one, whole.
#
# What the machine does not let do is skipped, and told.
set -u
program=$1
case $program in /*) ;; *) program=$PWD/$program ;; esac
top=$(cd "$(dirname "$0")" && pwd)
work=$(mktemp -d) || exit 1
disk=
trap '[ -z "$disk" ] || umount "$disk"; chmod -R u+w "$work"; rm -rf "$work"' EXIT
trap 'exit 130' HUP INT TERM
passed=0
skipped=

fail() {
  echo "devices: $1: $2"
  echo "devices: $passed passed, 1 failed"
  exit 1
}
skip() { skipped="$skipped; skipped: $1"; }

# told STATUS TEXT WHAT: the last status and the first line that was told are these
told() {
  [ "$status" -eq "$1" ] || fail "$3" "exit status $status in place of $1"
  [ "$(head -n 1 "$work/errors")" = "$2" ] || fail "$3" "it tells $(head -n 1 "$work/errors") in place of $2"
  passed=$((passed + 1))
}

# unprinted INPUT WORDS..: the words are answered, and then on devices that fail
unprinted() {
  input=$1
  shift
  "$program" "$@" < "$input" > "$work/whole" 2> "$work/errors" || [ $? -eq 4 ] || fail "$*" "it is not answered"
  "$program" "$@" < "$input" > /dev/full 2> "$work/errors"
  status=$?
  told 5 L8 "$* > /dev/full"
  "$program" "$@" < "$input" >&4 2> "$work/errors"
  status=$?
  told 5 L8 "$* into a pipe without a reader"
  "$program" "$@" < "$input" >&- 2> "$work/errors"
  status=$?
  told 5 L8 "$* without standard output"
  "$program" "$@" < "$input" > /dev/full 2> /dev/full
  [ $? -eq 5 ] || fail "$*" "another exit status than 5 where nothing can be told"
  passed=$((passed + 1))
}

# untold WORDS..: what is refused cannot be told
untold() {
  "$program" "$@" < /dev/null > "$work/printed" 2> "$work/errors" && [ ! -s "$work/errors" ] && fail "$*" "nothing is told"
  "$program" "$@" < /dev/null > "$work/printed" 2> /dev/full
  [ $? -eq 5 ] || fail "$*" "another exit status than 5 with a full standard error"
  "$program" "$@" < /dev/null > "$work/printed" 2>&-
  [ $? -eq 5 ] || fail "$*" "another exit status than 5 without standard error"
  passed=$((passed + 2))
}

# A pipe whose reader is gone
mkfifo "$work/gone"
: < "$work/gone" &
exec 4> "$work/gone"
wait

mkdir "$work/room"
cd "$work/room" || exit 1
cp "$top"/counter/*.ioa "$top"/counter/*.list "$top"/logs/*.ioa "$top"/logs/*.list "$top"/refused/types.ioa .
"$program" compile counter.ioa counter > "$work/printed" || fail counter "it is not compiled"
"$program" run counter.ioa --alone --turns 2000 --log > long.log || fail counter "it is not run"

unprinted /dev/null check counter.ioa
unprinted /dev/null check counter.ioa --compositions
unprinted /dev/null check counter.ioa --explain
unprinted /dev/null check counter
unprinted /dev/null dump counter
unprinted counts.list replay counter.ioa
unprinted counts.list replay counter
unprinted counts.list replay counter.ioa --states
unprinted counts.list replay counter.ioa --enabled
unprinted counts.list replay counter.ioa --coverage
unprinted counts.list replay counter.ioa --json
unprinted too_soon.list replay counter.ioa --explain
unprinted long.log replay counter.ioa --log
unprinted delivered.list replay ordered.ioa --comp Link --log
unprinted counts.list log counter.ioa
unprinted long.log monitor counter.ioa
unprinted long.log watch counter.ioa --comp One
unprinted turned.list watch ordered.ioa --comp InOrder
unprinted long.log chart counter.ioa
unprinted /dev/null graph counter.ioa
unprinted /dev/null run counter.ioa --turns 50
unprinted /dev/null run counter.ioa --turns 2000 --log
unprinted /dev/null run counter.ioa --alone
unprinted /dev/null run counter --alone --turns 5 --log --reports
unprinted /dev/null explain E7
unprinted /dev/null library
unprinted /dev/null --help
unprinted /dev/null run --help
unprinted /dev/null --version

untold check none.ioa
untold check types.ioa
untold check types.ioa --explain
untold dump counter.ioa
untold replay counter.ioa --comp Nine
untold run counter.ioa --alone --turns 2 --reports
untold run counter.ioa --alone --turns 2 --coverage
untold replay counter.ioa --coverage
untold run counter.ioa --turns many
untold explain E99
untold compile types.ioa new
[ ! -e new ] || fail "compile types.ioa new" "a file is left"

# The list or the log cannot be read: there is none, or it is a folder
for words in 'replay counter.ioa' 'log counter.ioa' 'replay counter.ioa --log' 'monitor counter.ioa' 'watch counter.ioa --comp One' 'chart counter.ioa'; do
  # shellcheck disable=SC2086
  "$program" $words <&- > "$work/printed" 2> "$work/errors"
  status=$?
  told 5 L8 "$words without standard input"
  # shellcheck disable=SC2086
  "$program" $words < "$work" > "$work/printed" 2> "$work/errors"
  status=$?
  told 5 L8 "$words < a folder"
  [ ! -s "$work/printed" ] || fail "$words" "something is printed of what cannot be read"
done
for words in 'check .' 'dump .' 'replay .' 'run counter.ioa --words .' 'run counter.ioa --inputs none' 'compile . new'; do
  # shellcheck disable=SC2086
  "$program" $words < /dev/null > "$work/printed" 2> "$work/errors"
  status=$?
  told 5 io "$words"
done

# A file that may have so many blocks holds a beginning of the answer.
for blocks in 0 1 2 7; do
  for words in 'replay counter.ioa --log' 'run counter.ioa --alone --turns 2000 --log' 'library' 'chart counter.ioa'; do
    # shellcheck disable=SC2086
    "$program" $words < long.log > "$work/whole" 2> "$work/errors"
    # shellcheck disable=SC2086
    (trap '' XFSZ && ulimit -f "$blocks" && exec "$program" $words < long.log > "$work/part" 2> "$work/told")
    status=$?
    [ "$blocks" -eq 0 ] || [ "$(head -n 1 "$work/told")" = L8 ] || fail "$words" "it does not tell L8 where its file may have $blocks blocks"
    [ "$status" -eq 5 ] || fail "$words" "exit status $status in place of 5, where its file may have $blocks blocks"
    head -c "$(wc -c < "$work/part")" "$work/whole" | cmp -s - "$work/part" || fail "$words" "what is printed in $blocks blocks is no beginning of the answer"
    passed=$((passed + 1))
  done
done

# Objects. The old one is small, the new one has some 200 KB.
awk 'BEGIN {
  print "automaton A\nsignature input a\nstates v: Int\ntransitions\n  input a eff v := 1"
  print "automaton Large\nsignature " 
  for (e = 0; e < 60; e++) printf "%sinput e%d", (e ? "; " : ""), e
  print "\nstates v: Int; w: Int\ntransitions"
  for (e = 0; e < 60; e++) {
    printf "  input e%d eff v := w", e
    for (i = 0; i < 150; i++) printf "; v := v + %d * w", i
    print ""
  }
  print "composition Small components C: A\ncomposition Big components C: Large"
}' > source.ioa
"$program" compile source.ioa small --comp Small > "$work/printed" && "$program" compile source.ioa big --comp Big > "$work/printed" || fail source "it is not compiled"
bytes=$(wc -c < big)
[ "$bytes" -gt 100000 ] || fail big "the object is small"

# kept STATUS TEXT FOLDER WORDS..: the large object is not put in the folder, where the small one stands as OUT, and no file is left
kept() {
  wanted=$1 text=$2 folder=$3
  shift 3
  ls -A "$folder" > "$work/before"
  for out in out new; do
    "$@" "$program" compile source.ioa "$folder/$out" --comp Big > "$work/printed" 2> "$work/errors"
    status=$?
    told "$wanted" "$text" "compile into $folder/$out"
    [ ! -s "$work/printed" ] || fail "compile into $folder/$out" "it prints of what is not there"
    cmp -s small "$folder/out" || fail "compile into $folder/$out" "the old object is changed"
    ls -A "$folder" | cmp -s "$work/before" - || fail "compile into $folder/$out" "it leaves a file"
  done
}

# With a file of so many blocks only
limited() { (trap '' XFSZ && ulimit -f 40 && exec "$@"); }
mkdir narrow
cp small narrow/out
kept 5 io narrow limited

# Where telling `ok` fails, the object is there.
cp small told
"$program" compile source.ioa told --comp Big > /dev/full 2> "$work/errors"
status=$?
told 5 L8 "compile > /dev/full"
cmp -s big told || fail "compile > /dev/full" "the object is not there"

# In a folder that may not be written; the user who may do everything becomes another one for it.
mkdir shut
cp small shut/out
if [ "$(id -u)" -ne 0 ]; then
  chmod 555 shut
  kept 5 io shut env
elif command -v setpriv > "$work/found"; then
  chmod 755 "$work" "$work/room" shut
  cp "$program" "$work/ioac"
  chmod 755 "$work/ioac"
  chmod 644 source.ioa
  program=$work/ioac
  if setpriv --reuid=65534 --regid=65534 --clear-groups "$program" check source.ioa > "$work/printed" 2> "$work/errors"; then
    kept 5 io shut setpriv --reuid=65534 --regid=65534 --clear-groups
    chmod 000 counts.list
    setpriv --reuid=65534 --regid=65534 --clear-groups "$program" check counts.list > "$work/printed" 2> "$work/errors"
    status=$?
    told 5 io "check of a file that may not be read"
  else
    skip "a folder that may not be written (another user cannot run the program here)"
  fi
else
  skip "a folder that may not be written (this is root, and setpriv is not here)"
fi

# On a disk that is full but for some pages, and on one that cannot be written at all
mkdir disk
if mount -t tmpfs -o size=512k none disk 2> "$work/found"; then
  disk=$work/room/disk
  cp small disk/out
  for kilobytes in 500 480 440 400 360; do
    head -c $((kilobytes * 1024)) /dev/zero > disk/filling
    kept 5 io disk env
  done
  rm disk/filling
  "$program" compile source.ioa disk/out --comp Big > "$work/printed" 2>&1 && cmp -s big disk/out || fail disk "the object is not put on another device"
  cp small disk/out
  mount -o remount,ro disk
  kept 5 io disk env
  umount disk
  disk=
else
  skip "a full disk (this user may not mount one)"
fi

# On another device
if [ -w /dev/shm ] && other=$(mktemp -d /dev/shm/devices.XXXXXX 2> "$work/found"); then
  "$program" compile source.ioa "$other/out" --comp Big > "$work/printed" 2>&1
  status=$?
  cmp -s big "$other/out"
  same=$?
  rm -rf "$other"
  [ "$status" -eq 0 ] && [ "$same" -eq 0 ] || fail /dev/shm "the object is not put on another device"
  passed=$((passed + 1))
else
  skip "another device (/dev/shm is not here)"
fi

# Killed on the way: after times of up to twice what it takes, and every other time once it writes
[ -z "$(ls -A | grep '\.part$')" ] || fail compile "it leaves a file"
cp small out
from=$(date +%s%N)
"$program" compile source.ioa timed --comp Big > "$work/printed"
took=$((($(date +%s%N) - from) / 1000))
kills=0
old=0
parts=0
turn=0
while [ "$turn" -lt 200 ]; do
  turn=$((turn + 1))
  signal=KILL
  [ $((turn % 4)) -ne 0 ] || signal=TERM
  : > "$work/printed"
  "$program" compile source.ioa out --comp Big > "$work/printed" 2> "$work/errors" &
  compiling=$!
  looks=0
  if [ $((turn % 2)) -eq 0 ]; then
    sleep "$(awk -v took="$took" -v turn="$turn" 'BEGIN { srand(turn); printf "%.6f", rand() * 2 * took / 1000000 }')"
  else
    while [ ! -e out.part ] && [ ! -s "$work/printed" ] && [ "$looks" -lt 1000000 ]; do looks=$((looks + 1)); done
  fi
  kill -s "$signal" "$compiling" 2> "$work/found"
  wait "$compiling" 2> "$work/found"
  status=$?
  if cmp -s small out; then
    [ "$status" -gt 128 ] || fail "compile, killed" "it has exit status $status, and the old object stands"
    old=$((old + 1))
  else
    cmp -s big out || fail "compile, killed" "out is neither the old object nor the new one"
  fi
  [ "$status" -le 128 ] || kills=$((kills + 1))
  [ ! -e out.part ] || parts=$((parts + 1))
  rm -f out.part
  cp small out
  passed=$((passed + 1))
done
echo "killed $turn times on the way: $kills before its end, $parts while it wrote; the old object stood $old times$skipped"
echo "devices: $passed passed, 0 failed"
