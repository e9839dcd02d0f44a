# For the scripts beside it, which read it in: goes into this folder, and leaves in `program` a copy of the program that
# their first word names, or of the one that `rt run` or the gate left in crates/px4_flight; `work` is a folder that goes at
# the end. A copy, since a program that the gate kept from an earlier run may lack the right to be run.
set -euo pipefail
[ $# -eq 0 ] || set -- "$(realpath "$1")"
cd "$(dirname "$0")"
work=$(mktemp -d)
trap 'rm -rf "$work"' EXIT
program=$work/px4_flight
install -m 755 "${1:-../crates/px4_flight/out/px4_flight}" "$program"
