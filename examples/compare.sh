#!/usr/bin/env bash
# Flies each example by the built program and compares what it prints with the record beside it.
# Usage: examples/compare.sh [PROGRAM]; `rt run` in crates/px4_flight leaves the program there.
. "$(dirname "$0")/built.sh"
for script in *.script; do
    "$program" replay <"$script" | cmp - "${script%.script}.record"
    echo "${script%.script}: as recorded"
done
