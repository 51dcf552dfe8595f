#!/bin/sh
# Measures bodies: a loop, a sequence that grows by append, and events of eight fields, each for n and 4n. Run by hand; nothing in
# the gate looks at time. Each ratio should be at most 6.
set -eu

top=$(cd "$(dirname "$0")/.." && pwd)
work=$(mktemp -d)
trap 'rm -rf "$work"' EXIT

# A loop of so many turns.
loop() {
  : >"$work/events.evt"
  printf 'monitor M { action onload() { integer i := 0; while i < %s { i := i + 1; } print i.toString(); } }\n' "$1" >"$work/program.mon"
}

# A sequence that gets so many elements, one by one.
append() {
  : >"$work/events.evt"
  printf 'monitor M { sequence<integer> s; action onload() { integer i := 0; while i < %s { s.append(i); i := i + 1; } print s.size().toString(); } }\n' "$1" >"$work/program.mon"
}

# So many events of eight fields, of which a callback reads two.
events() {
  awk -v count="$1" 'BEGIN { for (i = 0; i < count; i++) printf "E(%d,2,3,4,\"a\",\"b\",\"c\",\"d\")\n", i }' >"$work/events.evt"
  cat >"$work/program.mon" <<'PROGRAM'
event E { integer a; integer b; integer c; integer d; string e; string f; string g; string h; }
monitor M {
  integer sum;
  action onload() { on all E() as x { sum := sum + x.a % 7; } }
}
PROGRAM
}

# Seconds that the run takes, with three places; a run that fails ends the measuring.
seconds() {
  begun=$(date +%s%N)
  "$top/epl" run --serial --fuel 20000000 --events "$work/events.evt" "$work/program.mon" >"$work/out" || { echo "failed: $1" >&2; exit 1; }
  ended=$(date +%s%N)
  awk -v a="$begun" -v b="$ended" 'BEGIN { printf "%.3f", (b - a) / 1e9 }'
}

measure() {
  kind=$1
  small=$2
  "$kind" "$small"
  first=$(seconds "$kind")
  "$kind" $((4 * small))
  second=$(seconds "$kind")
  printf '%-7s %8s: %s s, %8s: %s s, ratio ' "$kind" "$small" "$first" $((4 * small)) "$second"
  awk -v a="$first" -v b="$second" 'BEGIN { printf "%.2f\n", b / a }'
}

# The first run proves and builds the program where that is needed.
loop 1
seconds loop >"$work/built"
measure loop 250000
measure append 10000
measure events 10000
