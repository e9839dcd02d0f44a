#!/usr/bin/env bash
# Instructions of `replay` for each line of its record, by valgrind's callgrind over the proved program: missions of 10
# to 500 rows that are flown to their end, and 1 to 200 uploads of a mission of two rows, alone and with a tick of the
# Navigator after each, at which it reads the new plan. Reading the script and starting the program are counted, too, so
# short records cost more a line. Last, instructions of `check` for each line of what it prints, over missions of 500 rows,
# which is accepted item by item, and of 4,096 rows, which is over the limit and refused before any item is looked at.
# Usage: bench/flight_cost.sh [PROGRAM]; `rt run` in crates/px4_flight leaves the program there.
set -euo pipefail
cd "$(dirname "$0")/.."
program=${1:-crates/px4_flight/out/px4_flight}
work=$(mktemp -d)
trap 'rm -rf "$work"' EXIT

# A plan text of $1 rows.
plan_text() {
    printf 'QGC WPL 110\n'
    for ((row = 0; row < $1; row++)); do
        printf '%d 1 0 16 0 0 0 0 %d %d 10 1\n' "$row" $((row % 90)) $((row % 180))
    done
}

# A script that uploads a mission of $1 rows and flies it to its end.
long_mission() {
    printf 'px4 script 1\nplan p mission\n'
    plan_text "$1"
    printf 'end\nboot\nlink 0 upload p\nlink 0 meet 0 2\nnav meet 0 2\nnav mode mission\n'
    for ((row = 0; row < $1; row++)); do
        printf 'nav go\nnav reached\n'
    done
    printf 'nav go\n'
}

# The head of a script with a mission of two rows.
two_rows() {
    printf 'px4 script 1\nplan p mission\nQGC WPL 110\n'
    printf '0 1 0 16 0 0 0 0 47 8 10 1\n1 0 0 16 0 0 0 0 48 9 20 1\nend\nboot\n'
}

# A script that uploads a mission of two rows $1 times.
many_uploads() {
    two_rows
    for ((upload = 0; upload < $1; upload++)); do
        printf 'link 0 upload p\n'
    done
}

# The same with a tick of the Navigator after each upload: the turns of an upload, then the tick, which finds the new plan
# and asks for its rows, and the turns in which they are read.
ticked_uploads() {
    two_rows
    printf 'nav mode mission\nturns n\n'
    for ((upload = 0; upload < $1; upload++)); do
        printf 'link 0 upload p\nnav tick\nturns l0 l0 w w l0 l0 w w l0 w w l0 n w w n w w n\n'
    done
}

# Runs a command, by its words behind a name and a number, over the input and prints its row of the table.
measure() {
    valgrind --tool=callgrind --callgrind-out-file=/dev/null "$program" "${@:3}" \
        <"$work/script" >"$work/record" 2>"$work/log"
    lines=$(wc -l <"$work/record")
    instructions=$(awk '/Collected/ { print $4 }' "$work/log")
    printf '%-10s %6d %8d %14d %8d\n' "$1" "$2" "$lines" "$instructions" $((instructions / lines))
}

printf '%-10s %6s %8s %14s %8s\n' script count lines instructions 'a line'
for rows in 10 50 100 200 500; do
    long_mission "$rows" >"$work/script"
    measure rows "$rows" replay
done
for uploads in 1 10 50 100 200; do
    many_uploads "$uploads" >"$work/script"
    measure uploads "$uploads" replay
done
for uploads in 1 10 50 100 200; do
    ticked_uploads "$uploads" >"$work/script"
    measure ticked "$uploads" replay
done
for rows in 500 4096; do
    plan_text "$rows" >"$work/script"
    measure check "$rows" check mission
done
