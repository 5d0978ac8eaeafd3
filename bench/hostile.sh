#!/bin/sh
# What bytes cost that somebody chose so that they cost much: bench/hostile.sh PROGRAM
#
# Checks and compiles sources, checks objects, replays lists and logs, and reads words and scripts, each beside a plain one of its length: sources and objects up to 1 MiB, the
# others of 8 MiB. It prints the seconds of a processor (the best of three runs, or of as many as take 2 seconds) with their ratio, and the greatest memory with K, how many times the
# bytes it is, beyond what the program takes for its version. Ratios are to be 3 at most, and K is to be below 100. What is marked `*` is not so: its bytes name something large again and again,
# which is there each time. Such are the automata of components and the first values of variables, and, of objects, values whose items have a byte each, or whose types are
# declared over one another. Last it runs an effect of as many instructions as there may be, each of which copies a value of as many words as there may be, and the same on numbers, and prints
# beside the seconds what an instruction costs a word. The figures are of this machine and this run.
#
# Everything is written into a temporary folder, which goes with the script. It wants Python 3; no more than 4 GB of memory is taken.
set -eu
program=$1
case $program in /*) ;; *) program=$PWD/$program ;; esac
top=$(cd "$(dirname "$0")/.." && pwd)
work=$(mktemp -d)
trap 'rm -rf "$work"' EXIT
cp "$top/examples/counter/counter.ioa" "$work/counter.ioa"
ulimit -v 4000000

# made: makes the files, and prints a line for each: what it is, its name, that of the plain one, and the words, with FILE for the name, or < for standard input
made() {
  python3 - "$program" "$work" << 'END'
import struct, subprocess, sys
from pathlib import Path

PROGRAM, WORK, SOURCE, TEXT = sys.argv[1], Path(sys.argv[2]), 1 << 20, 1 << 23
END = "\nautomaton Z signature input z transitions input z\ncomposition One components C: Z\n"
BEGIN = "automaton A signature output go states v: Int transitions output go pre "
EFFECT = "automaton A signature input a states v: Int transitions input a eff "
LOOP = "type S = seq 3 of Int\nautomaton A signature input a states s: S; v: Int transitions input a eff "


def put(name, content):
    content = content.encode() if isinstance(content, str) else content
    (WORK / name).write_bytes(content)
    return len(content)


def filled(head, piece, tail="", size=SOURCE):
    """As many pieces as there is room for."""
    return head + piece * ((size - len(head) - len(tail)) // len(piece)) + tail


def automaton(number, entries):
    """An automaton of so many entries with long effects, some 12 KB each."""
    names = [f"e{number}x{it}" for it in range(entries)]
    states = "; ".join(f"v{it}: Int" for it in range(24))
    effect = "v0 := 0" + "".join(f"; v{it % 24} := v1 + v2 - (v3 + 1)" for it in range(440))
    signature = "; ".join(f"input {it}" for it in names)
    return f"automaton A{number} signature {signature}\nstates {states}\ntransitions\n" + "".join(f"  input {it} eff {effect}\n" for it in names)


def plain_source(size):
    """A source of this length: automata, a composition of them, and a comment, which fills it up."""
    rest, names, text = 100 + 10 * 32, [], ""
    while len(names) < 32:
        entries = min(3, (size - len(text) - rest) // 13000)
        if entries < 1:
            break
        text += automaton(len(names), entries)
        names.append(len(names))
    composed = "composition All components " + "; ".join(f"C{it}: A{it}" for it in names) if names else END
    return filled(text + composed + "%", "x", "\n", max(size, len(text + composed) + 2))


def compiled(name):
    subprocess.run([PROGRAM, "compile", WORK / name, WORK / f"{name}.object"], check=True, stdout=subprocess.DEVNULL)
    return f"{name}.object"


def told(what, name, plain, *words):
    print("\t".join([what, name, plain, " ".join(words)]))


def source(what, name, text, *words):
    size = put(name, text)
    plain = f"plain{size // 1000}.ioa"
    if not (WORK / plain).exists():
        put(plain, plain_source(size))
    told(what, name, plain, *(words or ("check", "FILE")))


def number(count):
    return struct.pack("<H", count)


def text(word):
    return bytes([len(word)]) + word.encode()


def entry(name, constants, code=b"", count=0):
    """An input, with its effect's code of so many instructions."""
    return b"\0" + text(name) + number(0) + number(len(constants)) + b"".join(constants) + number(count) + code


def object_of(types, values, entries):
    component = text("A") + number(len(values)) + b"".join(values) + number(len(entries)) + b"".join(entries)
    return b"\x7fIOA\x01" + number(len(types)) + b"".join(types) + text("X") + number(1) + component + number(0)


def object_row(what, name, content):
    size = put(name, content)
    put(f"{name}.ioa", plain_source(size))
    told(what, name, compiled(f"{name}.ioa"), "check", "FILE")


def names(prefix):
    """Enumerations of 250 names that begin with these 24 letters."""
    types = (f"type T{at} = enum {{ " + ", ".join(f"{prefix}{at * 250 + it:08d}" for it in range(250)) + " }\n" for at in range(116))
    return "".join(types) + END


def deep(count):
    return "type Deep0 = tuple { f: Int }\n" + "".join(f"type Deep{it} = tuple {{ f: Deep{it - 1} }}\n" for it in range(1, count))


def wide():
    """A type of 4,096 words."""
    fields = lambda item: ", ".join(f"f{it}: {item}" for it in range(16))
    return f"type Row = tuple {{ {fields('Int')} }}\ntype Rows = tuple {{ {fields('Row')} }}\ntype Wide = tuple {{ {fields('Rows')} }}\n"


def components(automaton):
    return "components " + "; ".join(f"C{it}: {automaton}" for it in range(32)) + "\n"


def loops():
    """An automaton of 40 entries, of 1,000 loops each."""
    names = [f"e{it}" for it in range(40)]
    signature = "; ".join(f"input {it}" for it in names)
    effects = "".join(f"  input {it} eff {'for y in s do v := y od; ' * 1000}\n" for it in names)
    return f"type S = seq 3 of Int\nautomaton A signature {signature}\nstates s: S; v: Int\ntransitions\n{effects}composition One components C: A\n"


def sources():
    # 24 letters that bring a hash of a fixed seed to zero
    put("names.ioa", names("abcdefghijklmnopqrstuvwx"))
    put("colliding.ioa", names("collidinbtjnaaaabGazmctD"))
    told("source: names that collide", "colliding.ioa", "names.ioa", "check", "FILE")
    source("source: ( up to its end", "open.ioa", filled(BEGIN, "("))
    source("source: 400,000 ( and )", "closed.ioa", BEGIN + "(" * 400000 + "true" + ")" * 400000 + END)
    source("source: a comment", "comment.ioa", filled("%", "x", END))
    source("source: a number", "number.ioa", filled(BEGIN, "9", END))
    source("source: a sum", "sum.ioa", filled(BEGIN + "v = v", "+v", END))
    source("source: a value's field's field", "fields.ioa", filled(BEGIN + "v", ".v", END))
    source("source: ~ up to its end", "nots.ioa", filled(BEGIN, "~", "true" + END))
    source("source: an if in an if", "ifs.ioa", filled(EFFECT, "if true then ", END))
    source("source: elseif after elseif", "elseifs.ioa", filled(EFFECT + "if true then v:=1 ", "elseif true then v:=1 ", "fi" + END))
    source("source: a for in a for", "fors.ioa", filled(LOOP, "for x in s do ", END))
    source("source: loops one after another", "loops.ioa", loops())
    source("source: an effect", "effect.ioa", filled(EFFECT + "v:=1", ";v:=1", END))
    source("source: empty lines", "lines.ioa", filled("", "\n", END))
    source("source: empty comments", "comments.ioa", filled("", "%\n", END))
    source("source: types 1,024 deep", "deep.ioa", deep(1024) + END)
    source("source: types of 4,096 words", "wide.ioa", wide() + "".join(f"type S{it} = tuple {{ f: Wide }}\n" for it in range(1000)) + END)
    once = "".join(automaton(it, 50) for it in range(1))
    source("compilation: an automaton", "once.ioa", once + "composition One components C: A0\n", "compile", "FILE", "out")
    source("compilation: an automaton, 32 times*", "again.ioa", once + "composition One " + components("A0"), "compile", "FILE", "out")
    source("compilation: loops one after another", "loops_compiled.ioa", loops(), "compile", "FILE", "out")
    values = "automaton A signature input a states " + "; ".join(f"v{it}: Wide" for it in range(64)) + " transitions input a\n"
    source("compilation: 64 variables of 4,096 words, 32 times*", "values.ioa", wide() + values + "composition One " + components("A"), "compile", "FILE", "out")
    again = once + "".join(f"composition X{it} " + components("A0") for it in range(4))
    source("its compositions: an automaton, 4 times 32 times*", "compositions.ioa", again, "check", "--compositions", "FILE")


def objects():
    put("enough.ioa", plain_source(SOURCE))
    told("object: names that collide", compiled("colliding.ioa"), compiled("names.ioa"), "check", "FILE")
    one, true = number(1) + bytes(8), number(0) + b"\1"
    object_row("object: 65,535 constants", "ints.object", object_of([], [], [entry("a", [one] * 65535)]))
    object_row("object: 65,535 truth values, 5 times", "bools.object", object_of([], [], [entry(f"a{it}", [true] * 65535) for it in range(5)]))
    stack = b"\x01\0\0" * 32000 + b"\x04\0\0" * 32000
    object_row("object: a stack of 32,000", "stack.object", object_of([], [one], [entry(f"a{it}", [one], stack, 64000) for it in range(5)]))
    jumps = (b"\x01\1\0\x06" + number(64000)) * 32000
    object_row("object: 32,000 jumps to one place", "jumps.object", object_of([], [one], [entry(f"a{it}", [one, true], jumps, 64000) for it in range(5)]))
    items = number(2) + number(256) + b"\1" * 256
    kinds = [b"\3" + text("S") + number(256) + number(0)]
    object_row("object: 256 truth values, 4,000 times*", "items.object", object_of(kinds, [], [entry("a", [items] * 4000)]))
    kinds = [b"\2" + text(f"T{it}") + number(1) + text("f") + number(1 + it) for it in range(1024)]
    object_row("object: types 1,024 deep, 3,000 values*", "deep.object", object_of(kinds, [], [entry("a", [number(1025) + bytes(8)] * 3000)]))


def lists():
    put("plain.list", filled("", "tick(123)\n", size=TEXT))
    for what, name, content in (
        ("no action", "ticks", filled("tick(", "9", ")\n", TEXT)),
        ("a number with its zeros", "zeros", filled("tick(", "0", "5)\n", TEXT)),
        ("( up to its end", "open", filled("tick", "(", size=TEXT)),
        ("a name", "name", filled("", "a", size=TEXT)),
        ("empty lines", "lines", filled("", "\n", size=TEXT)),
        ("comments", "comments", filled("", "%\n", size=TEXT)),
        ("the least actions", "resets", filled("", "reset\n", size=TEXT)),
    ):
        put(f"{name}.list", content)
        told(f"list: {what}", f"{name}.list", "plain.list", "replay", "counter.ioa", "<")


def logs():
    put("plain.log", filled("", '{"act":"reset","who":1}\n', '{"end":"done after 1"}\n', TEXT))
    for what, name, content in (
        ("[ up to its end", "open", filled("", "[", size=TEXT)),
        ("objects in objects", "inner", filled("", '{"a":', size=TEXT)),
        ("an array", "array", filled('{"act":[', "1,", '1],"who":1}\n', TEXT)),
        ("the two keys again and again", "keys", filled("{", '"act":"reset","who":1,', '"act":"reset","who":1}\n', TEXT)),
        ("many keys", "many", "{" + ",".join(f'"{it}":1' for it in range(TEXT // 12)) + "}\n"),
        ("escapes", "escapes", filled('{"act":"', "\\u0041", '","who":1}\n', TEXT)),
        ("a number", "number", filled('{"act":"reset","who":', "1", "}\n", TEXT)),
        ("a fraction", "fraction", filled('{"act":"reset","who":0.', "0", "1}\n", TEXT)),
        ("an exponent", "exponent", filled('{"act":"reset","who":1e', "9", "}\n", TEXT)),
        ("blanks in an action", "blanks", filled('{"act":"reset', " ", '","who":1}\n', TEXT)),
    ):
        put(f"{name}.log", content)
        told(f"log: {what}", f"{name}.log", "plain.log", "replay", "counter.ioa", "--log", "<")


def words():
    run = ["run", "counter.ioa", "--alone", "--turns", "2"]
    put("plain.words", filled("", "12345 ", "1\n", TEXT))
    for what, name, content in (
        ("the least ones", "ones", filled("", "1 ", "1\n", TEXT)),
        ("one with its zeros", "zeros", filled("", "0", "1\n", TEXT)),
        ("empty lines", "lines", filled("", "\n", size=TEXT)),
    ):
        put(f"{name}.words", content)
        told(f"words: {what}", f"{name}.words", "plain.words", *run, "--words", "FILE")
    told("script: the least actions", "resets.list", "plain.list", *run, "--inputs", "FILE")


def running():
    """An effect of 4,096 instructions that copies what is as wide as it may be, and one on numbers, with lists of so many of it."""
    for name, kind in (("copies", "Wide"), ("numbers", "Int")):
        effect = "; ".join(["v := w", "w := v"] * 1024)
        put(f"{name}.ioa", wide() + f"automaton A signature input a states v: {kind}; w: {kind} transitions input a eff {effect}\ncomposition One components C: A\n")
    put("4.actions", "a\n" * 4)
    put("2000.actions", "a\n" * 2000)


sources()
objects()
lists()
logs()
words()
running()
END
}

# seconds FILE WORDS..: the least seconds of a processor that the words take, with FILE for the name
seconds() {
  python3 -c 'import resource, subprocess, sys
name, words = sys.argv[1], sys.argv[2:]
times, taken = [], 0.0
while len(times) < 3 and taken < 2:
    given = open(name, "rb") if words[-1] == "<" else subprocess.DEVNULL
    ran = subprocess.run([name if it == "FILE" else it for it in words if it != "<"], stdin=given, stdout=subprocess.DEVNULL, stderr=subprocess.DEVNULL)
    if ran.returncode not in range(5):
        sys.exit(f"{name}: exit status {ran.returncode}")
    used = resource.getrusage(resource.RUSAGE_CHILDREN)
    times.append(used.ru_utime + used.ru_stime - taken)
    taken = used.ru_utime + used.ru_stime
print(min(times))' "$@"
}

# peak FILE WORDS..: the greatest memory, in KiB, where the machine can tell it
peak() {
  name=$1
  shift
  given=/dev/null
  for word in "$@"; do
    shift
    case $word in
      FILE) set -- "$@" "$name" ;;
      '<') given=$name ;;
      *) set -- "$@" "$word" ;;
    esac
  done
  if [ -x /usr/bin/time ]; then
    /usr/bin/time -f %M -o "$work/peak" "$@" < "$given" > "$work/printed" 2> "$work/errors" || :
    tail -n 1 "$work/peak"
  else
    echo 0
  fi
}

made > "$work/table"
cd "$work"
least=$(peak none "$program" --version)
tab=$(printf '\t')
while IFS=$tab read -r what name plain words; do
  # shellcheck disable=SC2086
  set -- "$program" $words
  slow=$(seconds "$name" "$@" < /dev/null)
  beside="$plain.of.$2"
  [ -e "$beside" ] || seconds "$plain" "$@" < /dev/null > "$beside"
  awk -v what="$what" -v bytes="$(wc -c < "$name")" -v slow="$slow" -v plain="$(cat "$beside")" -v most="$(peak "$name" "$@")" -v least="$least" 'BEGIN {
    printf "%s, %d bytes: %.3f s; plain %.3f s; ratio %.1f", what, bytes, slow, plain, slow / plain
    if (most) printf "; %.1f MB, K %.1f", most / 1024, (most - least) * 1024 / bytes
    print ""
  }'
done < table
awk -v wide="$(seconds 4.actions "$program" replay copies.ioa '<')" -v plain="$(seconds 2000.actions "$program" replay numbers.ioa '<')" 'BEGIN {
  printf "running: 4 actions of 4096 instructions on values of 4096 words: %.3f s, %.1f ns a word of an instruction; 2000 actions of 4096 on numbers: %.3f s, %.1f ns\n",
    wide, wide / (4 * 4096 * 4096) * 1e9, plain, plain / (2000 * 4096) * 1e9
}'
