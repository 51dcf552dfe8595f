#!/bin/sh
# Measures event files and event expressions, each for n and 4n: short events; events with nested values; times; 1,000 listeners whose
# constraints don't fit; waits that fire at each time; and a row `all A() -> B()` of n copies. Run by hand; nothing in the gate
# looks at time. Each ratio should be at most 6, but that of the copies: each event goes by the copies of all before it, so 16 is
# what is asked for there, and at most 24 is good.
set -eu

top=$(cd "$(dirname "$0")/.." && pwd)
work=$(mktemp -d)
trap 'rm -rf "$work"' EXIT

# So many events of one field, which a listener takes.
short() {
  awk -v count="$1" 'BEGIN { for (i = 0; i < count; i++) printf "A(%d)\n", i }' >"$work/events.evt"
  cat >"$work/program.mon" <<'PROGRAM'
event A { integer id; }
monitor M { action onload() { on all A() { } } }
PROGRAM
}

# So many events that hold events, sequences and dictionaries.
nested() {
  awk -v count="$1" 'BEGIN { for (i = 0; i < count; i++) printf "Book(%d,[1,2,3,4],{\"b\":2,\"a\":1},Side(7,true),[Side(1,true),Side(2,false)])\n", i }' >"$work/events.evt"
  cat >"$work/program.mon" <<'PROGRAM'
event Side { integer price; boolean firm; }
event Book { integer id; sequence<integer> levels; dictionary<string, integer> counts; Side best; sequence<Side> sides; }
monitor M { action onload() { on all Book() { } } }
PROGRAM
}

# So many times, at none of which anything is due.
clock() {
  awk -v count="$1" 'BEGIN { for (i = 0; i < count; i++) printf "&TIME(%d.%d)\n", i / 10, i % 10 }' >"$work/events.evt"
  echo 'monitor M { action onload() { on wait(999999999) { } } }' >"$work/program.mon"
}

# So many times, at each of which a wait fires and begins anew.
waits() {
  awk -v count="$1" 'BEGIN { for (i = 0; i < count; i++) printf "&TIME(%d.%d)\n", i / 10, i % 10 }' >"$work/events.evt"
  echo 'monitor M { action onload() { on all wait(0.1) { } } }' >"$work/program.mon"
}

# So many events, and 1,000 listeners of which none takes any.
unfit() {
  awk -v count="$1" 'BEGIN { for (i = 0; i < count; i++) printf "A(%d)\n", i }' >"$work/events.evt"
  cat >"$work/program.mon" <<'PROGRAM'
event A { integer id; }
monitor M {
  action onload() {
    integer i := 1;
    while i <= 1000 {
      on all A(id=-i) { }
      i := i + 1;
    }
  }
}
PROGRAM
}

# So many copies, one for each event, which one more event completes together.
copies() {
  awk -v count="$1" 'BEGIN { for (i = 0; i < count; i++) printf "A(%d)\n", i; print "B(0)" }' >"$work/events.evt"
  cat >"$work/program.mon" <<'PROGRAM'
event A { integer id; }
event B { integer id; }
monitor M {
  integer count;
  action onload() { on all A() as a -> B() { count := count + 1; } }
}
PROGRAM
}

# Seconds that the run takes, with three places; a run that fails ends the measuring.
seconds() {
  begun=$(date +%s%N)
  "$top/epl" run --serial --fuel 20000000 --events "$work/events.evt" "$work/program.mon" >"$work/out" || { echo "failed: $1" >&2; exit 1; }
  ended=$(date +%s%N)
  awk -v a="$begun" -v b="$ended" 'BEGIN { printf "%.3f", (b - a) / 1e9 }'
}

measure() {
  kind=$1
  small=$2
  "$kind" "$small"
  first=$(seconds "$kind")
  "$kind" $((4 * small))
  second=$(seconds "$kind")
  printf '%-7s %8s: %s s, %8s: %s s, ratio ' "$kind" "$small" "$first" $((4 * small)) "$second"
  awk -v a="$first" -v b="$second" 'BEGIN { printf "%.2f\n", b / a }'
}

# The first run proves and builds the program where that is needed.
short 1
seconds short >"$work/built"
measure short 100000
measure nested 10000
measure clock 100000
measure waits 100000
measure unfit 1000
measure copies 2000
