#!/usr/bin/env bash
# Instructions of the Navigator's caches, by valgrind's callgrind over a small proved program, which this script writes into
# a folder of its own beside copies of the crates: of a boot's three caches, with 32, 16 and 16 places, as they are made and
# let go again; of the same with their first adoption of a mission of 2,000 items, a fence of 64 and 32 safe points; and of
# each `look_at` of a mission's window of 7 places whose items are all in flight, as its seqs are looked at in turn. Two
# lengths of each loop are run, and what the longer one takes more is told for each turn. Asked for are under 10,000 for a
# boot's caches with their adoption, and under 100 for a look.
# Usage: bench/cache_cost.sh, where rt is found.
set -euo pipefail
root=$(cd "$(dirname "$0")/.." && pwd)
work=$(mktemp -d)
trap 'rm -rf "$work"' EXIT
mkdir -p "$work"/crates/cache_cost/{src,proofs/run/looked}
cp "$root/HANDLES" "$work"
for crate in mission_model request_board client_cache; do
    cp -a "$root/crates/$crate" "$work/crates"
    grep "^$crate:" "$root/crates.txt" >>"$work/crates.txt"
done
printf 'cache_cost: mission_model request_board client_cache\n' >>"$work/crates.txt"
cd "$work/crates/cache_cost"

cat >src/main.rt <<'E'
//! Runs the loop that the number of words names.
#![tactic(auto)]

mod run;

use client_cache::Cache;
use mission_model::{Client, PlanType};
use request_board::Board;
use run::{HEADS, PLACES, adopted, look, looked, made};
use std::alloc::Global;
use std::env;
use std::process::ExitCode;

/// Looks so often at a window that one look before has asked.
fn looks(alloc: Global, turns: u16) -> u16 {
    let Ok(mut board) = Board::new(alloc, 0, 0, HEADS) else {
        return u16::MAX;
    };
    let Ok(mut cache) = Cache::new(alloc, Client::Nav, PlanType::Mission, PLACES) else {
        return u16::MAX;
    };
    let [mission, _, _] = HEADS;
    cache.adopt(mission);
    look(&mut cache, &mut board, 0);
    if looked(&mut cache, &mut board, turns) == turns {
        0
    } else {
        u16::MAX
    }
}

fn main(rt: HostRuntime) -> ExitCode {
    let words = match env::args(&rt) {
        Ok(args) => args.count(),
        Err(_) => 0,
    };
    let turns = if words % 2 == 1 { 1000 } else { 2000 };
    let sum = match words {
        1 | 2 => made(rt.alloc(), turns),
        3 | 4 => adopted(rt.alloc(), turns),
        _ => looks(rt.alloc(), turns),
    };
    ExitCode::from(if sum == u16::MAX { 9 } else { 0 })
}
E

cat >src/run.rt <<'E'
//! The loops that are measured, and what comes before them.

ghost use Rattle.std.specs.Prelude.{◌≡◌};
ghost use Rattle.mission_model.specs.declared.request.Client.TheVariants as client;

use client_cache::Cache;
use mission_model::{Client, Look, PlanHead, PlanType};
use request_board::Board;
use std::alloc::{AllocError, Global};

/// The plans of the store that is booted.
pub const HEADS: [PlanHead; 3] = [
    PlanHead { id: 1, count: 2000 },
    PlanHead { id: 2, count: 64 },
    PlanHead { id: 3, count: 32 },
];

/// The three caches of a boot.
fn three(alloc: Global) -> Result<(Cache, Cache, Cache), AllocError> {
    let mission = Cache::new(alloc, Client::Nav, PlanType::Mission, 32)?;
    let fence = Cache::new(alloc, Client::Nav, PlanType::Fence, 16)?;
    let safe = Cache::new(alloc, Client::Nav, PlanType::Safe, 16)?;
    Ok((mission, fence, safe))
}

/// The caches of so many boots are made, and let go.
pub fn made(alloc: Global, boots: u16) -> u16 {
    let mut sum: u16 = 0;
    for _ in 0..boots {
        match three(alloc) {
            Ok((mission, fence, safe)) => {
                sum = sum.wrapping_add(mission.count() | fence.count() | safe.count());
            }
            Err(_) => return u16::MAX,
        }
    }
    sum
}

/// The same, where each adopts its plan.
pub fn adopted(alloc: Global, boots: u16) -> u16 {
    let [of_mission, of_fence, of_safe] = HEADS;
    let mut sum: u16 = 0;
    for _ in 0..boots {
        match three(alloc) {
            Ok((mut mission, mut fence, mut safe)) => {
                mission.adopt(of_mission);
                fence.adopt(of_fence);
                safe.adopt(of_safe);
                sum = (mission.count() | fence.count() | safe.count()) ^ sum;
            }
            Err(_) => return u16::MAX,
        }
    }
    sum
}

/// The item at the seq is looked at: whether it is not known yet.
pub fn look(cache: &mut Cache, board: &mut Board, seq: u16) -> bool
    requires { cache.old.client ≡ client.Nav }
    ensures { cache.new.client ≡ client.Nav }
{
    match cache.look_at(board, seq) {
        Look::Here(_) => false,
        Look::Pending => true,
    }
}

/// How many places the window has that is looked at, as many as a first look asks.
pub const PLACES: u16 = 7;

/// How many of so many looks at the window's seqs in turn found nothing known yet.
pub fn looked(cache: &mut Cache, board: &mut Board, looks: u16) -> u16
    requires { cache.old.client ≡ client.Nav }
{
    let mut found: u16 = 0;
    for turn in 0..looks {
        if look(cache, board, turn % PLACES) {
            found = found.wrapping_add(1);
        }
    }
    found
}
E

cat >proofs/run/looked/Invariants.antt <<'E'
use Rattle.std.proofs.Common.{◌≡◌}
use Rattle.mission_model.specs.declared.request.Client.TheVariants as client
use Rattle.cache_cost.proofs.run.looked.Given as goal

abbrev pub invariant-loop-turn : goal.invariant-loop-turn
invariant-loop-turn l = l.cache.client ≡ client.Nav
E

rt run >"$work/built" 2>&1 || {
    cat "$work/built"
    exit 1
}

# The instructions of the loop that this many words name, which has to end well.
instructions() {
    local words=()
    for ((word = 1; word < $1; word++)); do words+=(w); done
    valgrind --tool=callgrind --callgrind-out-file=/dev/null out/cache_cost "${words[@]}" 2>"$work/log" || {
        cat "$work/log" >&2
        exit 1
    }
    awk '/Collected/ { print $4 }' "$work/log"
}

printf '%-28s %8s\n' loop 'a turn'
row=1
for name in 'new, 32 16 16' 'new and adopt, 32 16 16' 'look_at, all 7 in flight'; do
    few=$(instructions "$row")
    many=$(instructions $((row + 1)))
    printf '%-28s %8d\n' "$name" $(((many - few) / 1000))
    row=$((row + 2))
done
