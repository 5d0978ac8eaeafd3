#!/bin/sh
# Shows the main job on an example: examples/demo.sh PROGRAM
#
# Where the program stands, it replays a list of actions on the counter. Until `make` has proved and built it, a small program does the same by the same
# crates, without the rest of the command line: it is put together here, read and compiled without proofs, which takes some 80 seconds of processors; what is being done is told on
# standard error meanwhile.
set -u
program=$1
top=$(cd "$(dirname "$0")/.." && pwd)
example=$top/examples/counter

echo "replaying examples/counter/counts.list on examples/counter/counter.ioa" >&2
if [ -x "$program" ]; then
  exec "$program" replay "$example/counter.ioa" < "$example/counts.list"
fi
echo "the program is not proved here yet ('make' proves it): a small one, of the crates that replay lists, is read and compiled without proofs now" >&2
work=$(mktemp -d) || exit 1
begun=$(date +%s)

# A repository of the sources here, with one crate more.
mkdir -p "$work/crates/demo/src" "$work/made"
for it in "$top"/crates/*; do
  mkdir "$work/crates/${it##*/}"
  cp -r "$it/src" "$it/specs" "$work/crates/${it##*/}" 2> /dev/null
done
cp "$top/HANDLES" "$work"
{ cat "$top/crates.txt" && echo "demo: ioa_replay ioa_device ioa_compile ioa_compose ioa_check ioa_syntax"; } > "$work/crates.txt"
cat > "$work/crates/demo/src/main.rt" << 'END'
//! Replays the list on standard input in the last composition of a source, as `ioac replay` does.
#![tactic(auto)]

use ioa_check::check;
use ioa_compile::compile;
use ioa_compose::compose;
use ioa_device::Counted;
use ioa_replay::replay_list;
use ioa_syntax::parse;
use std::process::ExitCode;
use std::{env, fs};

fn main(rt: HostRuntime) -> ExitCode {
    match replayed(&rt) {
        Some(()) => ExitCode::SUCCESS,
        None => ExitCode::FAILURE,
    }
}

/// Replays the list in the source that the first word names; `None` where something is refused.
fn replayed(rt: &HostRuntime) -> Option<()> {
    let words: Vec<String> = env::args(rt).ok()?.collect(rt.alloc()).ok()?;
    let text = fs::read(rt, words.get(1)?.as_str()).ok()?;
    let source = parse(rt.alloc(), text.as_slice()).ok()?;
    let checked = check(rt.alloc(), source).ok()?;
    let composed = compose(rt.alloc(), &checked, None).ok()?;
    let program = compile(rt.alloc(), &composed).ok()?;
    let mut input = Counted::new(rt.stdin());
    let mut output = Counted::new(rt.stdout());
    replay_list(rt.alloc(), &program, &mut input, &mut output).ok()?;
    Some(())
}
END

# Code for the machine stands in the folder that is lent to the compiler once all sources are read.
doing() {
  if [ -n "$(find "$work/made" -name '*.bc' 2> /dev/null)" ]; then
    echo "compiling them"
  else
    echo "reading the sources, of this program and of the libraries that it stands on"
  fi
}

elapsed() {
  echo $(($(date +%s) - begun))
}

# Tells what is being done, when it changes and each ten seconds, until it is stopped. The code is put away before the program has ended, so what
# was told of compiling stays told.
tell() {
  told=
  now=
  seconds=0
  while :; do
    [ "$now" = "compiling them" ] || now=$(doing)
    if [ "$now" != "$told" ] || [ $((seconds % 10)) -eq 0 ]; then
      echo "  $(elapsed) s: $now" >&2
      told=$now
    fi
    sleep 1
    seconds=$((seconds + 1))
  done
}

tell &
teller=$!
trap 'kill "$teller" 2> /dev/null; rm -rf "$work"' EXIT
trap 'exit 130' HUP INT TERM
(cd "$work/crates/demo" && TMPDIR=$work/made rt try -- "$example/counter.ioa" < "$example/counts.list" > "$work/printed" 2> "$work/told")
status=$?
kill "$teller"
echo "  $(elapsed) s: done" >&2
cat "$work/printed"
[ "$status" -eq 0 ] || cat "$work/told" >&2
exit "$status"
