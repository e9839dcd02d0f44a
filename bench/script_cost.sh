#!/usr/bin/env bash
# Instructions of a script's reader, by valgrind's callgrind over a small proved program, which this script writes into a
# folder of its own beside copies of the crates: `read_script` reads scripts of 20,000 schedule lines, once of `nav go` and
# `nav reached` alone and once of twelve kinds of input in turn, 20,000 words of turns, and 16 plans of 4,096 rows. Taking
# the bytes from standard input is subtracted. Asked for are at most 500 a schedule line.
# With a PROGRAM of the same job that has `replay`, what it takes for the same scripts is told beside, and by how much the
# reader is above it: its last line is made one that no script may have, so that it reads all and runs nothing.
# Usage: bench/script_cost.sh [PROGRAM], where rt is found.
set -euo pipefail
root=$(cd "$(dirname "$0")/.." && pwd)
work=$(mktemp -d)
trap 'rm -rf "$work"' EXIT
peer=${1:+$(realpath "$1")}
mkdir -p "$work/crates/script_cost/src"
cp "$root/HANDLES" "$work"
for crate in io_edges nav_text nav_num mission_model wpl_items run_script; do
    cp -a "$root/crates/$crate" "$work/crates"
    grep "^$crate:" "$root/crates.txt" >>"$work/crates.txt"
done
printf 'script_cost: io_edges run_script\n' >>"$work/crates.txt"
cd "$work/crates/script_cost"

cat >src/main.rt <<'E'
//! Reads standard input to its end, and as a script if there is a word.
#![tactic(auto)]

use io_edges::{StdSource, read_to_end};
use run_script::read_script;
use std::env;
use std::process::ExitCode;

/// The most bytes that are read.
const LIMIT: usize = 4_194_304;

fn main(rt: HostRuntime) -> ExitCode {
    let words = match env::args(&rt) {
        Ok(args) => args.count(),
        Err(_) => 0,
    };
    let mut input = StdSource::new(rt.stdin());
    let Ok(bytes) = read_to_end(rt.alloc(), &mut input, LIMIT) else {
        return ExitCode::from(7);
    };
    if words == 1 || bytes.len() > LIMIT {
        return ExitCode::from(0);
    }
    match read_script(rt.alloc(), &bytes) {
        Ok(_) => ExitCode::from(0),
        Err(_) => ExitCode::from(9),
    }
}
E

rt run </dev/null >"$work/built" 2>&1 || {
    cat "$work/built"
    exit 1
}

# The instructions of a command over standard input, whatever its status.
instructions() {
    valgrind --tool=callgrind --callgrind-out-file=/dev/null "$@" 2>"$work/log" >/dev/null || true
    awk '/Collected/ { print $4 }' "$work/log"
}

# Rows of a mission from 0 on.
rows() {
    awk -v count="$1" 'BEGIN { srand(7); for (k = 0; k < count; k++)
        printf "%d\t%d\t0\t16\t0\t0\t0\t0\t%.7f\t%.7f\t10\t1\n", k, k == 0, 47 + rand() / 10, 8 + rand() / 10 }'
}

plan() {
    printf 'plan %s mission\nQGC WPL 110\n' "$1"
    rows "$2"
    printf 'end\n'
}

head=$(printf 'px4 script 1\n'; plan m 10; printf 'boot\n')
{ echo "$head"; awk 'BEGIN { for (k = 0; k < 10000; k++) print "nav go\nnav reached" }'; } >"$work/steps"
{ echo "$head"; awk 'BEGIN { srand(7); for (k = 0; k < 20000; k++) { l = k % 8
    if (k % 12 == 0) print "nav go"
    if (k % 12 == 1) print "nav reached"
    if (k % 12 == 2) print "link " l " set-current 3"
    if (k % 12 == 3) print "link " l " cancel"
    if (k % 12 == 4) print "nav tick"
    if (k % 12 == 5) print "link 0 meet " k % 16 " 2"
    if (k % 12 == 6) print "nav meet " k % 16 " 2"
    if (k % 12 == 7) print "link " l " item " k % 10 " m " k % 10
    if (k % 12 == 8) printf "watch %d do 2 %d %d\n", k % 4, 455000000 + 40000000 * rand(), 65000000 + 40000000 * rand()
    if (k % 12 == 9) print "nav mode mission"
    if (k % 12 == 10) print "link " l " timeout"
    if (k % 12 == 11) printf "nav position %.7f %.7f\n", 47 + rand(), 8 + rand() } }'; } >"$work/inputs"
{ echo "$head"; awk 'BEGIN { srand(7); for (k = 0; k < 200; k++) { line = "turns"
    for (j = 0; j < 100; j++) { n = int(11 * rand()); line = line " " (n < 2 ? "w" : n == 2 ? "n" : "l" (n - 3)) }
    print line } }'; } >"$work/turns"
{ printf 'px4 script 1\n'; for k in $(seq 16); do plan "p$k" 4096; done; printf 'boot\n'; } >"$work/plans"

program=out/script_cost
printf '%-8s %9s %6s %8s' script lines bytes 'a line'
[ -z "$peer" ] || printf ' %8s %6s' its ratio
printf '\n'
for name in steps:20000 inputs:20000 turns:20000 plans:65536; do
    script=$work/${name%:*}
    read=$(($(instructions "$program" w <"$script") - $(instructions "$program" <"$script")))
    awk -v name="${name%:*}" -v lines="${name#*:}" -v bytes="$(wc -c <"$script")" -v sum="$read" \
        'BEGIN { printf "%-8s %9d %6.1f %8.0f", name, lines, bytes / lines, sum / lines }'
    if [ -n "$peer" ]; then
        { cat "$script"; printf 'nav\n'; } >"$work/faulty"
        its=$(instructions "$peer" replay <"$work/faulty")
        awk -v lines="${name#*:}" -v sum="$read" -v its="$its" 'BEGIN { printf " %8.0f %6.2f", its / lines, sum / its }'
    fi
    printf '\n'
done
