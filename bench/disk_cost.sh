#!/usr/bin/env bash
# Instructions of a disk in memory, by valgrind's callgrind over a proved program that asks for calls of one kind: a write and
# a sync behind it, of 1 and of 48 bytes, at both ends of disks of 267,264 bytes, which is a store's length, and of 1,048,576;
# the six calls of a payload that is swapped whole; and 2,000 records of an item with one sync behind them, a record. Each
# number is the difference of two runs, so that what starts the program and makes the disk is not counted; that of a write
# alone shows what is the sync's. Asked for are under 1,000 for a sync, 5,000 for six calls and 300 a record.
# Usage: bench/disk_cost.sh [PROGRAM]; `rt run` in crates/disk_cost leaves the program there.
set -euo pipefail
cd "$(dirname "$0")/.."
program=${1:-crates/disk_cost/out/disk_cost}

# The instructions of one run.
instructions() {
    valgrind --tool=callgrind --callgrind-out-file=/dev/null "$program" "$@" 2>&1 >/dev/null | awk '/Collected/ { print $4 }'
}

# Prints the row of a kind, by its words, with the numbers of calls of the two runs behind them.
row() {
    local few many
    few=$(instructions "${@:1:4}" "$5")
    many=$(instructions "${@:1:4}" "$6")
    printf '%-8s %8d %8d %4d %8d\n' "${@:1:4}" $(((many - few) / ($6 - $5)))
}

printf '%-8s %8s %8s %4s %8s\n' kind size at len each
for size in 267264 1048576; do
    for len in 1 48; do
        for at in 0 $((size - len)); do
            row write "$size" "$at" "$len" 1000 2000
            row sync "$size" "$at" "$len" 1000 2000
        done
    done
done
row commit 267264 32 15 1000 2000
row items 267264 66048 48 0 2000
