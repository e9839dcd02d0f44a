#!/usr/bin/env bash
# Instructions of the judge for each waypoint that it is fed, by valgrind's callgrind over a small proved program, which
# this script writes into a folder of its own beside copies of the crates: a mission is taken item by item by the check of
# plans alone, then by the check and a judge without a fence, then with a fence of 64 vertices of which two edges hold each
# latitude. Two lengths of each are run, and what the longer one takes more is told for each item; a row of the judge is
# that less the row of the check.
# Usage: bench/judge_cost.sh, where rt is found.
set -euo pipefail
root=$(cd "$(dirname "$0")/.." && pwd)
work=$(mktemp -d)
trap 'rm -rf "$work"' EXIT
mkdir -p "$work"/crates/judge_cost/{src,proofs/run/fed}
cp "$root/HANDLES" "$work"
for crate in mission_model fence_polygon feasibility; do
    cp -a "$root/crates/$crate" "$work/crates"
    grep "^$crate:" "$root/crates.txt" >>"$work/crates.txt"
done
printf 'judge_cost: mission_model fence_polygon feasibility\n' >>"$work/crates.txt"
cd "$work/crates/judge_cost"

cat >src/main.rt <<'E'
//! Runs the loop that the number of words names.
#![tactic(auto)]

mod run;

use fence_polygon::Fence;
use mission_model::{Home, Params, PlanType, check_plan};
use run::{checked, fed, item};
use std::env;
use std::process::ExitCode;

fn main(rt: HostRuntime) -> ExitCode {
    let (words, longest) = match env::args(&rt) {
        Ok(args) => args.fold((0, 0), |(count, longest): (usize, usize), word| {
            (count.saturating_add(1), word.len().max(longest))
        }),
        Err(_) => (0, 0),
    };
    // a waypoint, which the compiler is not told
    let command = if longest < 1000 { 16 } else { 93 };
    let mut vertices = [item(5001, 0, 64_000, 0, 0); 64];
    for place in 0..64 {
        let row = if place < 32 { place as i32 } else { 63 - place as i32 };
        let y = if place < 32 { 0 } else { 1000 };
        vertices[place] = item(5001, 0, 64_000, row * 1000, y);
    }
    if check_plan(PlanType::Fence, &vertices).is_err() {
        return ExitCode::from(9);
    }
    if check_plan(PlanType::Fence, &[]).is_err() {
        return ExitCode::from(9);
    }
    let params = Params {
        tko_land: 0,
        takeoff_min: 0,
        max_alt: 120_000,
        rtl_type: 0,
    };
    let home = Some(Home { x: 0, y: 0, z: 0 });
    let free = Fence::from_items(&[]);
    let fence = Fence::from_items(&vertices);
    let status = match words {
        1 => checked(command, 1000),
        2 => checked(command, 2000),
        3 => fed(params, home, &free, command, 1000),
        4 => fed(params, home, &free, command, 2000),
        5 => fed(params, home, &fence, command, 1000),
        _ => fed(params, home, &fence, command, 2000),
    };
    ExitCode::from(status)
}
E

cat >src/run.rt <<'E'
//! The loops that are measured.

ghost use Rattle.std.specs.Prelude.{◌≤◌};
ghost use Rattle.mission_model.specs.declared.limits.TheConstants.{MAX_MISSION_ITEMS};

use feasibility::{Judge, Verdict};
use fence_polygon::Fence;
use mission_model::Param::{Milli, Unset};
use mission_model::{Home, Item, Params, PlanCheck, PlanType};

pub fn item(command: u16, frame: u16, p1: i32, x: i32, y: i32) -> Item {
    Item {
        frame,
        command,
        p1: Milli(p1),
        p2: Milli(0),
        p3: Unset,
        p4: Unset,
        x,
        y,
        z: 10_000,
        auto: true,
    }
}

fn item_at(command: u16, place: u16) -> Item {
    item(command, 3, 0, i32::from(place % 31) * 1000 + 7, 500)
}

pub fn checked(command: u16, count: u16) -> u8
    requires { count ≤ MAX_MISSION_ITEMS }
{
    let mut check = PlanCheck::begin(PlanType::Mission, count);
    for place in 0..count {
        if !check.has_room() {
            return 7;
        }
        match check.next(&item_at(command, place)) {
            Ok(()) => {}
            Err(_) => return 9,
        }
    }
    0
}

pub fn fed(params: Params, home: Option<Home>, fence: &Fence, command: u16, count: u16) -> u8
    requires { count ≤ MAX_MISSION_ITEMS }
{
    let mut check = PlanCheck::begin(PlanType::Mission, count);
    let mut judge = Judge::begin(params, home, fence, count);
    for place in 0..count {
        if !check.has_room() {
            return 7;
        }
        let next = item_at(command, place);
        match check.next(&next) {
            Ok(()) => judge.feed(&next),
            Err(_) => return 9,
        }
    }
    match judge.verdict() {
        Some(Verdict::Feasible) => 0,
        Some(Verdict::Broken { .. }) => 1,
        None => 2,
    }
}
E

printf 'pub mod Runs\n' >proofs/Lib.antt
cat >proofs/Runs.antt <<'E'
-- What a check and a judge took together.
use Rattle.std.specs.Prelude.{ℕ, List, Option}
use Rattle.mission_model.specs.declared.plan.Home.{Home}
use Rattle.mission_model.specs.declared.plan.Item.{Item}
use Rattle.mission_model.specs.declared.plan.Params.{Params}
use Rattle.mission_model.specs.declared.plan.PlanType.TheVariants.{Mission}
use Rattle.mission_model.specs.declared.plan_check.PlanCheck.{PlanCheck}
use Rattle.mission_model.specs.PlanCheck.{Checked}
use Rattle.feasibility.specs.declared.judge.Judge.{Judge}
use Rattle.feasibility.specs.Judged.{Judged}

pub record Both (check : PlanCheck) (judge : Judge) (params : Params) (home : Option Home) (fence : List Item) (count : ℕ) : Type 0 where
  pub items : List Item
  pub checked : Checked check Mission count items
  pub judged : Judged judge params home fence count items
E
cat >proofs/run/fed/Invariants.antt <<'E'
use Rattle.judge_cost.proofs.Runs.{Both}
use Rattle.judge_cost.proofs.run.fed.Given as goal

abbrev pub invariant-loop-place : goal.invariant-loop-place
invariant-loop-place l = Both l.check l.judge l.fn.params l.fn.home l.fence l.fn.count
E
cat >proofs/run/fed/Answers.antt <<'E'
use Rattle.std.proofs.Common.{◌++◌, ◌∷◌, [], rules}
use Rattle.mission_model.specs.declared.plan.PlanType.TheVariants.{Mission}
use Rattle.feasibility.specs.Accepting.{CanFeed-checked}
use Rattle.judge_cost.proofs.run.fed.Goals as goal

pub feed-requires : goal.feed-requires
feed-requires c =
    let b = c.loop-place.invariant in
    CanFeed-checked c.loop-place.judge c.args.params c.args.home c.args.fence.now c.args.count b.items c.loop-place.check c.item_at-next.result b.judged b.checked (search rules) c.in-Ok.ensures.code c.requires

pub loop-place-preserved : goal.loop-place-preserved
loop-place-preserved c =
    let b = c.loop-place.invariant in
    record {
      items = b.items ++ c.item_at-next.result ∷ [];
      checked = c.in-Ok.ensures.ok Mission c.args.count b.items b.checked;
      judged = c.feed.ensures c.args.params c.args.home c.args.fence.now c.args.count b.items b.judged;
    }
E

rt run >"$work/built" 2>&1 || {
    cat "$work/built"
    exit 1
}

# The instructions of the loop that this many words name.
instructions() {
    local words=()
    for ((word = 1; word < $1; word++)); do words+=(w); done
    valgrind --tool=callgrind --callgrind-out-file=/dev/null out/judge_cost "${words[@]}" 2>"$work/log"
    awk '/Collected/ { print $4 }' "$work/log"
}

check=$((($(instructions 2) - $(instructions 1)) / 1000))
free=$((($(instructions 4) - $(instructions 3)) / 1000 - check))
fenced=$((($(instructions 6) - $(instructions 5)) / 1000 - check))
printf '%-24s %8s\n' call 'an item'
printf '%-24s %8d\n' 'check' "$check" 'feed without a fence' "$free" 'feed with 64 vertices' "$fenced"
