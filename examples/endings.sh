#!/usr/bin/env bash
# Runs the built program where it ends with a status other than 0, and compares its number and what it prints to standard
# error; standard output must stay empty. Then runs its command `check`, and compares what it tells of a plan that is
# accepted and of one that is refused. Usage: examples/endings.sh [PROGRAM]; `rt run` in crates/px4_flight leaves the
# program there.
. "$(dirname "$0")/built.sh"

# ends NUMBER TEXT WORD..: the program with these words over the file $work/input.
ends() {
    local number=$1 text=$2 status=0
    shift 2
    "$program" "$@" <"$work/input" >"$work/out" 2>"$work/err" || status=$?
    if [ "$status" -ne "$number" ] || [ -s "$work/out" ] || [ "$(cat "$work/err")" != "$text" ]; then
        echo "endings.sh: $* ended with $status and: $(cat "$work/err")" >&2
        exit 1
    fi
    echo "status $number: as told"
}

# tells WORD..: the program with these words over the file $work/input prints the file $work/told and no more.
tells() {
    local status=0
    "$program" "$@" <"$work/input" >"$work/out" 2>"$work/err" || status=$?
    if [ "$status" -ne 0 ] || [ -s "$work/err" ] || ! cmp "$work/told" "$work/out" >&2; then
        echo "endings.sh: $* ended with $status and told another thing: $(cat "$work/err")" >&2
        exit 1
    fi
    echo "$(head -n 1 "$work/told"): as told"
}

usage='usage: px4_flight fly [--store P], replay [--store P], check KIND, init --store P, case N'
: >"$work/input"
ends 2 "$usage" replay now
ends 2 "$usage"
printf 'px4 script 1\nboot\nnav hover\n' >"$work/input"
ends 3 'script line 3: Unknown' replay
head -c 4194305 /dev/zero | tr '\0' '\n' >"$work/input"
ends 7 'input too long' replay
printf 'QGC WPL 110\n0 1 0 16 0 0 0 0 47 8 10 1\n2 0 0 16 0 0 0 0 48 9 20 1\n' >"$work/input"
ends 3 'plan: BadIndex' check mission

printf 'QGC WPL 110\n0 1 3 16 0 0 0 0 47.3760 8.55 10 1\n' >"$work/input"
{
    printf 'plan mission 1 accepted\n'
    printf 'QGC WPL 110\n'
    printf '0\t1\t3\t16\t0\t0\t0\t0\t47.376\t8.55\t10\t1\n'
} >"$work/told"
tells check mission
# The second row jumps to itself.
printf 'QGC WPL 110\n0 1 3 16 0 0 0 0 47.376 8.55 10 1\n1 0 2 177 1 2 0 0 0 0 0 1\n' >"$work/input"
{
    printf 'plan mission 2 refused 1 5\n'
    printf 'QGC WPL 110\n'
    printf '0\t1\t3\t16\t0\t0\t0\t0\t47.376\t8.55\t10\t1\n'
    printf '1\t0\t2\t177\t1\t2\t0\t0\t0\t0\t0\t1\n'
} >"$work/told"
tells check mission
