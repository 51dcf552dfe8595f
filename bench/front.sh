#!/bin/sh
# Measures the front: how long it takes to read programs of 4, 32 and 128 KiB into tokens and trees, flat ones and ones
# nested 190 deep. Run by hand; nothing in the gate looks at time. The ratio of 128 KiB to 32 KiB should be at most 6.
# It proves and builds its program in a copy outside the repository, with the crates as they stand, which takes some minutes.
set -eu

top=$(cd "$(dirname "$0")/.." && pwd)
work=$(mktemp -d)
trap 'rm -rf "$work"' EXIT

# The program that is measured: it reads the file that its word names, so many times.
make_program() {
  mkdir -p "$work/crates"
  crates="lists grammar_forms epl_values span_text epl_lexer epl_tree expr_parser event_parser decl_parser outside"
  for crate in $crates; do
    cp -r "$top/crates/$crate" "$work/crates/"
    grep "^$crate:" "$top/crates.txt" >>"$work/crates.txt"
  done
  cp "$top/HANDLES" "$work/"
  echo "front_time: epl_values outside epl_lexer epl_tree decl_parser" >>"$work/crates.txt"
  mkdir -p "$work/crates/front_time/src"
  cat >"$work/crates/front_time/src/main.rt" <<'PROGRAM'
//! Reads a program file again and again, and answers 0 where it has a tree.
#![tactic(auto)]

use decl_parser::unit;
use epl_lexer::tokens_of_bytes;
use outside::{DiskShelf, read_whole};
use std::alloc::Global;
use std::env;
use std::process::ExitCode;

/// The most bytes that are read, which is more than a program file may have.
const MOST_BYTES: usize = 1_000_000;

fn has_tree(alloc: Global, bytes: &[u8]) -> bool {
    if bytes.len() > MOST_BYTES {
        return false;
    }
    match tokens_of_bytes(alloc, bytes) {
        Ok(tokens) => unit(alloc, &tokens).is_ok(),
        Err(_) => false,
    }
}

fn reads(alloc: Global, bytes: &[u8], times: u64) -> bool {
    let mut good = true;
    for _ in 0..times {
        good = has_tree(alloc, bytes);
    }
    good
}

fn main(rt: HostRuntime) -> ExitCode {
    let alloc = rt.alloc();
    let Ok(mut args) = env::args(&rt) else {
        return ExitCode::from(1);
    };
    let _program = args.next();
    let (Some(name), Some(times)) = (args.next(), args.next()) else {
        return ExitCode::from(1);
    };
    let mut shelf = DiskShelf::new(&rt);
    let Ok(bytes) = read_whole(alloc, &mut shelf, name.as_str(), MOST_BYTES) else {
        return ExitCode::from(2);
    };
    let times = times.as_str().parse::<u64>().unwrap_or(1);
    if reads(alloc, bytes.as_slice(), times) {
        ExitCode::from(0)
    } else {
        ExitCode::from(3)
    }
}
PROGRAM
}

# A flat program of about so many bytes: actions of short statements.
flat() {
  awk -v size="$1" 'BEGIN {
    printf "monitor M { action onload() {\n"; n = 34
    while (n < size - 40) { line = "integer v" n " := (1 + 2 * 3) % 7;\n"; printf "%s", line; n += length(line) }
    printf "} }\n"
  }'
}

# A program of about so many bytes whose expressions, blocks and types nest 190 deep.
nested() {
  awk -v size="$1" '
    function times(text, count,  all, i) { all = ""; for (i = 0; i < count; i++) all = all text; return all }
    BEGIN {
      deep[0] = "integer x := " times("(", 190) "1" times(")", 190) ";\n"
      deep[1] = times("{", 190) times("}", 190) "\n"
      deep[2] = times("sequence<", 190) "integer" times(">", 190) " s;\n"
      deep[3] = "boolean b := " times("not ", 190) "true;\n"
      deep[4] = "on " times("(", 190) "A()" times(")", 190) " {}\n"
      printf "monitor M { action onload() {\n"; n = 34
      for (i = 0; n + length(deep[i % 5]) < size - 10; i++) { printf "%s", deep[i % 5]; n += length(deep[i % 5]) }
      printf "} }\n"
    }'
}

# Seconds that a call takes, with three places; a call that fails ends the run.
seconds() {
  begun=$(date +%s%N)
  "$@" || { echo "failed: $*" >&2; exit 1; }
  ended=$(date +%s%N)
  awk -v a="$begun" -v b="$ended" 'BEGIN { printf "%.3f", (b - a) / 1e9 }'
}

measure() {
  kind=$1
  for kib in 4 32 128; do
    "$kind" $((kib * 1024)) >"$work/$kind.$kib.mon"
    taken=$(seconds "$program" "$work/$kind.$kib.mon" 20)
    printf '%-7s %4s KiB, read 20 times: %s s\n' "$kind" "$kib" "$taken"
    eval "taken_$kib=$taken"
  done
  awk -v kind="$kind" -v a="$taken_32" -v b="$taken_128" 'BEGIN { printf "%-7s 128 KiB to 32 KiB: %.2f\n", kind, b / a }'
}

make_program
(cd "$work/crates/front_time" && rt run -- none 1 >"$work/build.log" 2>&1) || true
program="$work/crates/front_time/out/front_time"
if [ ! -x "$program" ]; then
  cat "$work/build.log" >&2
  exit 1
fi
measure flat
measure nested
