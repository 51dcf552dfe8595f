#!/bin/sh
# Runs the programs that need the tallest stack: each nesting at its limit, times the deepest calls, and the deepest value that two
# program files can spell. Each is to end with status 0 or 7, and to print what stands behind it. Run by hand:
#   bench/deep.sh [PROGRAM]          with the wrapper, or with this built program
#   bench/deep.sh --write FOLDER     only writes the programs, one folder each
set -eu

top=$(cd "$(dirname "$0")/.." && pwd)

# So many times a text.
repeat() {
  awk -v n="$1" -v t="$2" 'BEGIN { for (i = 0; i < n; i++) printf "%s", t }'
}

# A monitor whose action calls itself 250 deep, with the call in this expression (before and behind it) or statement.
calling() {
  printf 'monitor M {\n  sequence<integer> s := [0];\n  action f(integer n) returns integer {\n    if n < 1 { return 0; }\n'
  printf '    %sf(n - 1)%s\n    return 0;\n  }\n  action onload() { print f(250).toString(); }\n}\n' "$1" "$2"
}

minus() { calling "return $(repeat 190 '- ')" ';'; }

indexes() { calling "return $(repeat 190 's[')" "$(repeat 190 ']');"; }

loops() { calling "$(repeat 190 'while true { ')return " ";$(repeat 190 ' }')"; }

# All three at once, each as deep as the others leave room for.
mixed() { calling "$(repeat 190 'while true { ')return $(repeat 95 '- s[')" "$(repeat 95 ']');$(repeat 190 ' }')"; }

# 120 event types, each a sequence, 100 deep, of the one before.
types() {
  printf 'event T0 { integer n; }\n'
  awk 'BEGIN { for (t = 1; t <= 120; t++) { printf "event T%d { ", t; for (i = 0; i < 100; i++) printf "sequence<"; printf "T%d", t - 1; for (i = 0; i < 100; i++) printf ">"; print " f; }" } }'
}

# The value of the last of these types, made, copied, stored and printed.
value() {
  printf 'monitor M {\n  T120 kept;\n  action onload() {\n    T0 v0 := T0(7);\n'
  awk 'BEGIN { for (t = 1; t <= 120; t++) { printf "    T%d v%d := T%d(", t, t, t; for (i = 0; i < 100; i++) printf "["; printf "v%d.clone()", t - 1; for (i = 0; i < 100; i++) printf "]"; print ");" } }'
  printf '    kept := v120.clone();\n    print kept.toString().length().toString();\n  }\n}\n'
}

write() {
  for kind in minus indexes loops mixed; do
    mkdir -p "$1/$kind"
    "$kind" >"$1/$kind/program.mon"
    : >"$1/$kind/events.evt"
  done
  mkdir -p "$1/value"
  types >"$1/value/types.mon"
  value >"$1/value/program.mon"
  : >"$1/value/events.evt"
}

if [ "${1-}" = --write ]; then
  write "$2"
  exit
fi

program=${1:-$top/epl}
work=$(mktemp -d)
trap 'rm -rf "$work"' EXIT
write "$work"
ulimit -s 8192
for kind in minus indexes loops mixed value; do
  begun=$(date +%s%N)
  set +e
  (cd "$work/$kind" && "$program" run --serial --fuel 20000000 --events events.evt $(ls | grep '\.mon$' | sort -r) >"$work/out" 2>"$work/err")
  status=$?
  set -e
  ended=$(date +%s%N)
  printf '%-6s status %s, %s, %s s\n' "$kind" "$status" "$(cat "$work/out" "$work/err" | tr '\n' ' ')" "$(awk -v a="$begun" -v b="$ended" 'BEGIN { printf "%.2f", (b - a) / 1e9 }')"
done
