#!/bin/sh
# What names cost that somebody chose so that they collide: bench/names.sh PROGRAM
#
# Checks a source of about 1 MB that declares 29,000 names of 32 letters, and its object. The names are plain, or such as a hash of a fixed seed takes for one
# another: behind 24 letters that bring it to zero, the last eight make no difference to it. It prints the seconds of both and their ratio, which is to be 2 at
# most: names are found by their order. Each is the best of three runs. The figures are of this machine and this run.
#
# Everything is written into a temporary folder, which goes with the script.
set -eu
program=$1
case $program in /*) ;; *) program=$PWD/$program ;; esac
names=29000
work=$(mktemp -d)
trap 'rm -rf "$work"' EXIT

# source_of PREFIX: enumerations of 250 names that begin with these 24 letters, and a composition
source_of() {
  awk -v prefix="$1" -v names="$names" 'BEGIN {
    for (i = 0; i < names; i++) {
      if (i % 250 == 0) printf "%stype T%d = enum { ", (i ? " }\n" : ""), i / 250
      else printf ", "
      printf "%s%08d", prefix, i
    }
    print " }\nautomaton A signature input a transitions input a\ncomposition One components C: A"
  }'
}
# seconds FILE: of a check, the best of three runs
seconds() {
  best=
  for turn in 1 2 3; do
    from=$(date +%s.%N)
    "$program" check "$1" > "$work/printed"
    till=$(date +%s.%N)
    best=$(awk -v a="$from" -v b="$till" -v best="$best" 'BEGIN { took = b - a; print (best == "" || took < best) ? took : best }')
  done
  echo "$best"
}
# told WHAT PLAIN COLLIDING: compares the checks of two files
told() {
  awk -v what="$1" -v names="$names" -v bytes="$(wc -c < "$2")" -v plain="$(seconds "$2")" -v colliding="$(seconds "$3")" 'BEGIN {
    printf "%s of %d names, %d bytes: plain %.3f s; colliding %.3f s; ratio %.1f\n", what, names, bytes, plain, colliding, colliding / plain
  }'
}

source_of abcdefghijklmnopqrstuvwx > "$work/plain.ioa"
source_of collidinbtjnaaaabGazmctD > "$work/colliding.ioa"
for kind in plain colliding; do
  "$program" compile "$work/$kind.ioa" "$work/$kind" > "$work/printed"
done
told "source" "$work/plain.ioa" "$work/colliding.ioa"
told "object" "$work/plain" "$work/colliding"
