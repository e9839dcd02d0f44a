#!/usr/bin/env bash
# Instructions of a fence, by valgrind's callgrind over a small proved program, which this script writes into a folder of
# its own beside copies of the crates: of each `allows`, over a polygon of 64 vertices of which two edges hold each
# latitude that is asked for, over one of which four do, and over 21 triangles one above the other; of making the first of
# them anew; and of each `leg_of` over it. Two lengths of each loop are run, and what the longer one takes more is told for
# each call.
# Usage: bench/fence_cost.sh, where rt is found.
set -euo pipefail
root=$(cd "$(dirname "$0")/.." && pwd)
work=$(mktemp -d)
trap 'rm -rf "$work"' EXIT
mkdir -p "$work/crates/fence_cost/src"
cp "$root/HANDLES" "$work"
for crate in mission_model fence_polygon leg_fence; do
    cp -a "$root/crates/$crate" "$work/crates"
    grep "^$crate:" "$root/crates.txt" >>"$work/crates.txt"
done
printf 'fence_cost: mission_model fence_polygon leg_fence\n' >>"$work/crates.txt"
cd "$work/crates/fence_cost"

cat >src/main.rt <<'E'
//! Runs the loop that the number of words names.
#![tactic(auto)]

ghost use Rattle.mission_model.specs.PlanCode.{PlanValid};
ghost use Rattle.mission_model.specs.declared.plan.PlanType.TheVariants as kind;

use fence_polygon::Fence;
use leg_fence::{LegSight, leg_of};
use mission_model::Param::{Milli, Unset};
use mission_model::{Item, PlanType, check_plan};
use std::env;
use std::process::ExitCode;

fn vertex(count: i32, x: i32, y: i32) -> Item {
    Item {
        frame: 0,
        command: 5001,
        p1: Milli(count),
        p2: Unset,
        p3: Unset,
        p4: Unset,
        x,
        y,
        z: 0,
        auto: true,
    }
}

/// How many of the places the fence allows.
fn asked(fence: &Fence, calls: u16) -> u16 {
    let mut allowed: u16 = 0;
    for call in 0..calls {
        if fence.allows(i32::from(call % 31) * 1000 + 7, 500) {
            allowed = allowed.wrapping_add(1);
        }
    }
    allowed
}

/// How many fences hold the edge that begins at the first vertex.
fn made(items: &[Item], calls: u16) -> u16
    requires { PlanValid kind.Fence items.now }
{
    let mut held: u16 = 0;
    for call in 0..calls {
        let fence = Fence::from_items(items);
        if fence.edges_at(i32::from(call)) & 1 == 1 {
            held = held.wrapping_add(1);
        }
    }
    held
}

/// How many of the legs are clear.
fn seen(items: &[Item], calls: u16) -> u16
    requires { PlanValid kind.Fence items.now }
{
    let fence = Fence::from_items(items);
    let mut clear: u16 = 0;
    for call in 0..calls {
        let x = i32::from(call % 30) * 1000 + 7;
        if leg_of(&fence, items, (x, 400), (x + 1000, 600)) == LegSight::Clear {
            clear = clear.wrapping_add(1);
        }
    }
    clear
}

fn main(rt: HostRuntime) -> ExitCode {
    let words = match env::args(&rt) {
        Ok(args) => args.count(),
        Err(_) => 0,
    };
    let mut ring = [vertex(64_000, 0, 0); 64];
    let mut comb = [vertex(64_000, 0, 0); 64];
    let mut tower = [vertex(3_000, 0, 0); 63];
    for place in 0..64 {
        let at = place as i32;
        let row = if at < 32 { at } else { 63 - at };
        ring[place] = vertex(64_000, row * 1000, if at < 32 { 0 } else { 1000 });
        let quarter = at % 32;
        let step = if quarter < 16 { quarter } else { 31 - quarter };
        comb[place] = vertex(64_000, step * 2000, at / 16 * 400);
    }
    for place in 0..63 {
        let at = place as i32;
        tower[place] = vertex(
            3_000,
            at / 3 * 1500 + at % 3 / 2 * 1499,
            if at % 3 == 1 { 2000 } else { 0 },
        );
    }
    if check_plan(PlanType::Fence, &ring).is_err()
        || check_plan(PlanType::Fence, &comb).is_err()
        || check_plan(PlanType::Fence, &tower).is_err()
    {
        return ExitCode::from(9);
    }
    let calls = if words % 2 == 1 { 1000 } else { 2000 };
    let sum = match words {
        1 | 2 => asked(&Fence::from_items(&ring), calls),
        3 | 4 => asked(&Fence::from_items(&comb), calls),
        5 | 6 => asked(&Fence::from_items(&tower), calls),
        7 | 8 => made(&ring, calls),
        _ => seen(&ring, calls),
    };
    ExitCode::from(if sum == u16::MAX { 9 } else { 0 })
}
E

rt run >"$work/built" 2>&1 || {
    cat "$work/built"
    exit 1
}

# The instructions of the loop that this many words name.
instructions() {
    local words=()
    for ((word = 1; word < $1; word++)); do words+=(w); done
    valgrind --tool=callgrind --callgrind-out-file=/dev/null out/fence_cost "${words[@]}" 2>"$work/log"
    awk '/Collected/ { print $4 }' "$work/log"
}

printf '%-28s %8s\n' call 'a call'
row=1
for name in 'allows, 2 edges of 64' 'allows, 4 edges of 64' 'allows, 21 triangles' 'from_items, 64 vertices' 'leg_of, 64 vertices'; do
    printf '%-28s %8d\n' "$name" $((($(instructions $((row + 1))) - $(instructions "$row")) / 1000))
    row=$((row + 2))
done
