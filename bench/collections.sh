#!/bin/sh
# Measures sequences and dictionaries: keys that come in descending and in random order, a sequence that is emptied from its front, one that
# grows at its end, a loop over one, and reads by index, each for n and 4n. Run by hand; nothing in the gate looks at time. Each ratio
# should be at most 6. With the word --small it takes a tenth of each n.
#   bench/collections.sh [--small] [PROGRAM]          with the wrapper, or with this built program
set -eu

top=$(cd "$(dirname "$0")/.." && pwd)
work=$(mktemp -d)
trap 'rm -rf "$work"' EXIT

part=1
if [ "${1-}" = --small ]; then
  part=10
  shift
fi
program=${1:-$top/epl}
: >"$work/events.evt"

# A dictionary that gets so many keys, the greatest first.
descending() {
  printf 'monitor M { dictionary<integer, integer> d; action onload() { integer i := %s; while i > 0 { d[i] := i; i := i - 1; } print d.size().toString(); } }\n' "$1" >"$work/program.mon"
}

# A dictionary that gets so many keys in an order like that of chance: the steps of a generator whose period is 2^31.
random() {
  printf 'monitor M { dictionary<integer, integer> d; action onload() { integer i := 0; integer k := 1; while i < %s { k := (k * 1103515245 + 12345) %% 2147483648; d[k] := i; i := i + 1; } print d.size().toString(); } }\n' "$1" >"$work/program.mon"
}

# The beginning of a program whose sequence gets so many elements.
begin() {
  printf 'monitor M { sequence<integer> s; action onload() { integer i := 0; while i < %s { s.append(i); i := i + 1; } ' "$1"
}

append() {
  { begin "$1"; echo 'print s.size().toString(); } }'; } >"$work/program.mon"
}

# Emptied from its front.
front() {
  { begin "$1"; echo 'while s.size() > 0 { s.remove(0); } print s.size().toString(); } }'; } >"$work/program.mon"
}

loop() {
  { begin "$1"; echo 'integer sum := 0; for x in s { sum := sum + x; } print sum.toString(); } }'; } >"$work/program.mon"
}

index() {
  { begin "$1"; echo 'integer sum := 0; i := 0; while i < s.size() { sum := sum + s[i]; i := i + 1; } print sum.toString(); } }'; } >"$work/program.mon"
}

# Seconds that the run takes, with three places; a run that fails ends the measuring.
seconds() {
  begun=$(date +%s%N)
  "$program" run --serial --fuel 20000000 --events "$work/events.evt" "$work/program.mon" >"$work/out" || { echo "failed: $1" >&2; exit 1; }
  ended=$(date +%s%N)
  awk -v a="$begun" -v b="$ended" 'BEGIN { printf "%.3f", (b - a) / 1e9 }'
}

measure() {
  kind=$1
  small=$(($2 / part))
  "$kind" "$small"
  first=$(seconds "$kind")
  "$kind" $((4 * small))
  second=$(seconds "$kind")
  printf '%-10s %8s: %s s, %8s: %s s, ratio ' "$kind" "$small" "$first" $((4 * small)) "$second"
  awk -v a="$first" -v b="$second" 'BEGIN { printf "%.2f\n", b / a }'
}

# The first run proves and builds the program where that is needed.
append 1
seconds append >"$work/built"
measure descending 50000
measure random 50000
measure front 50000
measure append 50000
measure loop 50000
measure index 50000
