#!/usr/bin/env bash
# Instructions of a record's text, by valgrind's callgrind over a small proved program, which this script writes into a
# folder of its own beside copies of the crates: 100,000 lines of a flight, the recorded one of a long mission again and
# again, are read by `read_record`, and written by `append_line` into one buffer, which begins empty and grows. Taking the
# bytes from standard input is subtracted from the first, a walk over the lines that writes nothing from the second.
# With a PROGRAM of the same job that has `replay` and `audit`, what those two cost for each line of its record is told,
# too, by a long and a short flight. All that they do is counted there, as no command of it reads or writes alone.
# Usage: bench/record_cost.sh [PROGRAM], where rt is found.
set -euo pipefail
root=$(cd "$(dirname "$0")/.." && pwd)
work=$(mktemp -d)
trap 'rm -rf "$work"' EXIT
peer=${1:+$(realpath "$1")}
mkdir -p "$work/crates/record_cost/src"
cp "$root/HANDLES" "$work"
for crate in io_edges mission_model record_text; do
    cp -a "$root/crates/$crate" "$work/crates"
    grep "^$crate:" "$root/crates.txt" >>"$work/crates.txt"
done
printf 'record_cost: io_edges mission_model record_text\n' >>"$work/crates.txt"
cd "$work/crates/record_cost"

cat >src/main.rt <<'E'
//! Reads standard input to its end, and does with it as much as the number of words says.
#![tactic(auto)]

use io_edges::{StdSource, read_to_end};
use mission_model::Line;
use record_text::{append_line, is_printable, read_record};
use std::alloc::Global;
use std::env;
use std::process::ExitCode;

/// The most bytes that are read.
const LIMIT: usize = 1_000_000_000;

/// How many of the lines are printable.
fn walked(lines: &[Line]) -> usize {
    let mut count: usize = 0;
    for line in lines {
        if is_printable(line) {
            count = count.wrapping_add(1);
        }
    }
    count
}

/// How many bytes the lines' texts have.
fn written(alloc: Global, lines: &[Line]) -> usize {
    let mut out = Vec::new(alloc);
    for line in lines {
        if is_printable(line) {
            match append_line(&mut out, line) {
                Ok(()) => {}
                Err(_) => return 0,
            }
        }
    }
    out.len()
}

fn main(rt: HostRuntime) -> ExitCode {
    let words = match env::args(&rt) {
        Ok(args) => args.count(),
        Err(_) => 0,
    };
    let mut input = StdSource::new(rt.stdin());
    let Ok(bytes) = read_to_end(rt.alloc(), &mut input, LIMIT) else {
        return ExitCode::from(7);
    };
    if words == 1 {
        return ExitCode::from(0);
    }
    let Ok(lines) = read_record(rt.alloc(), &bytes) else {
        return ExitCode::from(8);
    };
    let done = match words {
        2 => true,
        3 => walked(&lines) == lines.len(),
        _ => written(rt.alloc(), &lines) == bytes.len(),
    };
    ExitCode::from(if done { 0 } else { 9 })
}
E

rt run </dev/null >"$work/built" 2>&1 || {
    cat "$work/built"
    exit 1
}

# The instructions of the program and its words over standard input, of which each has to end well.
instructions() {
    valgrind --tool=callgrind --callgrind-out-file=/dev/null "$@" >/dev/null 2>"$work/log" || {
        cat "$work/log" >&2
        exit 1
    }
    awk '/Collected/ { print $4 }' "$work/log"
}

lines=100000
flight=$root/examples/long_mission.record
for ((done = 0; done < lines; done += $(wc -l <"$flight"))); do cat "$flight"; done | sed -n "1,${lines}p" >"$work/record"
bytes=$(wc -c <"$work/record")
program=out/record_cost
taken=$(instructions "$program" <"$work/record")
read=$(instructions "$program" w <"$work/record")
walked=$(instructions "$program" w w <"$work/record")
written=$(instructions "$program" w w w <"$work/record")
printf '%d lines of %d bytes\n' "$lines" "$bytes"
printf '%-12s %8s %8s\n' call 'a line' 'a byte'
# Prints a row: its name, and its instructions in all.
row() {
    awk -v name="$1" -v sum="$2" -v lines="$lines" -v bytes="$bytes" \
        'BEGIN { printf "%-12s %8.0f %8.1f\n", name, sum / lines, sum / bytes }'
}
row read_record $((read - taken))
row append_line $((written - walked))

if [ -n "$peer" ]; then
    # The record that the program makes of a flight's script, and what its audit is given: the script and the record.
    for name in first_flight long_mission; do
        cp "$root/examples/$name.script" "$work/$name"
        "$peer" replay <"$work/$name" >"$work/$name.record"
        { cat "$work/$name"; printf 'px4 record 1\n'; cat "$work/$name.record"; } >"$work/$name.audited"
    done
    lines=$(($(wc -l <"$work/long_mission.record") - $(wc -l <"$work/first_flight.record")))
    bytes=$(($(wc -c <"$work/long_mission.record") - $(wc -c <"$work/first_flight.record")))
    row 'its replay' $(($(instructions "$peer" replay <"$work/long_mission") - $(instructions "$peer" replay <"$work/first_flight")))
    row 'its audit' $(($(instructions "$peer" audit <"$work/long_mission.audited") - $(instructions "$peer" audit <"$work/first_flight.audited")))
fi
