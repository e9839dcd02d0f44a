#!/usr/bin/env bash
# Instructions of the core's steps, by valgrind's callgrind over a small proved program, which this script writes into a
# folder of its own beside copies of the crates: a link's message that is answered at once; a tick of the Navigator in mode
# Mission that shows a leg, all items being known; a step of an actor that has nothing to do. The core has one link. Two
# lengths of each loop are run over one boot, and what the longer one takes more is told for each step. Asked for are under
# 400 for a message, under 500 for a tick, under 40 for an idle actor.
# Usage: bench/core_cost.sh, where rt is found.
set -euo pipefail
root=$(cd "$(dirname "$0")/.." && pwd)
work=$(mktemp -d)
trap 'rm -rf "$work"' EXIT
mkdir -p "$work"/crates/core_cost/{src,proofs/run/{inputs,looked_on,stepped}}
cp "$root/HANDLES" "$work"

# The crates that vehicle_core stands on, in the order of the list.
needed=' vehicle_core '
while :; do
    more=$needed
    for crate in $needed; do
        for below in $(sed -n "s/^$crate: *//p" "$root/crates.txt"); do
            case "$more" in *" $below "*) ;; *) more="$more$below " ;; esac
        done
    done
    [ "$more" = "$needed" ] && break
    needed=$more
done
for crate in $(sed -n 's/^\([a-z_]*\):.*/\1/p' "$root/crates.txt"); do
    case "$needed" in
    *" $crate "*)
        cp -a "$root/crates/$crate" "$work/crates"
        grep "^$crate:" "$root/crates.txt" >>"$work/crates.txt"
        ;;
    esac
done
printf 'core_cost: mission_model request_board vehicle_core\n' >>"$work/crates.txt"
cd "$work/crates/core_cost"

cat >src/main.rt <<'E'
//! Runs the loop that the number of words names.
#![tactic(auto)]

mod run;

use mission_model::Actor;
use run::{booted, inputs, looked_on, stepped};
use std::alloc::{AllocError, Global};
use std::env;
use std::process::ExitCode;

/// How many of so many steps made a line.
fn measured(alloc: Global, row: usize, steps: u16) -> Result<u16, AllocError> {
    let actor = if row == 1 { Actor::Nav } else { Actor::Link(0) };
    let input = if row == 0 { 1 } else { 2 };
    let mut core = booted(alloc, inputs(alloc, input)?)?;
    if row == 1 {
        looked_on(&mut core);
    }
    Ok(stepped(&mut core, actor, steps))
}

fn main(rt: HostRuntime) -> ExitCode {
    let words = match env::args(&rt) {
        Ok(args) => args.count(),
        Err(_) => 0,
    };
    let steps = if words % 2 == 1 { 1000 } else { 2000 };
    let row = words.saturating_sub(1) / 2;
    match measured(rt.alloc(), row, steps) {
        Ok(made) => ExitCode::from(if made == steps || row == 2 { 0 } else { 9 }),
        Err(_) => ExitCode::from(8),
    }
}
E

cat >src/run.rt <<'E'
//! The boot whose steps are measured, and what comes before them.

ghost use Rattle.std.specs.Prelude.{IfOk};
ghost use Rattle.std.specs.List.{All};
ghost use Rattle.mission_model.specs.BootScripts.{ActorInput};
ghost use Rattle.mission_model.specs.BootStates.{StateInLimits};
ghost use Rattle.mission_model.specs.Replies.{Suits};
ghost use Rattle.mission_model.specs.Shown.{asked_of};
ghost use Rattle.request_board.specs.Silence.{nothing_read};
ghost use Rattle.vehicle_core.specs.CoreState.{CoreFits};

use mission_model::{
    Actor, BootScript, BootState, Counts, InputLine, Inputs, Item, Mark, Message, Mode, Param,
    Params, PlanHead, Reply, Request, Turns, VehicleLine,
};
use request_board::NoWatch;
use std::alloc::{AllocError, Global};
use vehicle_core::{Core, StepOut};

const WAYPOINT: Item = Item {
    frame: 0,
    command: 16,
    p1: Param::Milli(0),
    p2: Param::Milli(0),
    p3: Param::Milli(0),
    p4: Param::Milli(0),
    x: 473_760_000,
    y: 85_500_000,
    z: 10_000,
    auto: true,
};

/// The store that is booted: a mission of three waypoints.
fn state() -> BootState
    ensures { StateInLimits result }
{
    BootState {
        heads: [
            PlanHead { id: 1, count: 3 },
            PlanHead { id: 0, count: 0 },
            PlanHead { id: 0, count: 0 },
        ],
        mark: Mark {
            id: 1,
            index: 0,
            counts: Counts::new(),
        },
    }
}

/// 2,500 messages of the link where `kind` is 1; else 2,500 ticks of the Navigator in mode Mission.
pub fn inputs(alloc: Global, kind: u8) -> Result<Vec<(Actor, InputLine)>, AllocError>
    ensures { IfOk result (λ inputs. All (ActorInput 1 0) inputs.items) }
{
    let mut inputs = Vec::with_capacity(alloc, 2501)?;
    if kind == 2 {
        inputs.push((Actor::Nav, InputLine::Vehicle(VehicleLine::Mode(Mode::Mission))))?;
    }
    for _ in 0..2500 {
        if kind == 1 {
            inputs.push((Actor::Link(0), InputLine::Message(Message::Timeout)))?;
        } else {
            inputs.push((Actor::Nav, InputLine::Vehicle(VehicleLine::Tick)))?;
        }
    }
    Ok(inputs)
}

/// The boot.
pub fn booted(
    alloc: Global,
    inputs: Vec<(Actor, InputLine)>,
) -> Result<Core<NoWatch>, AllocError>
    requires { All (ActorInput 1 0) inputs.items }
    ensures { IfOk result (λ core. CoreFits (λ w. nothing_read) core) }
{
    let boot = BootScript {
        cut: None,
        inputs: Inputs::from_vec(inputs),
        turns: Turns::from_vec(Vec::new(alloc)),
        params: Params {
            tko_land: 0,
            takeoff_min: 0,
            max_alt: 0,
            rtl_type: 0,
        },
        home: None,
        links: 1,
        watchers: 0,
    };
    Core::new(alloc, boot, &state(), Vec::new(alloc))
}

fn reply_to(request: &Request) -> Reply
    ensures { Suits (asked_of request.now) result }
{
    match request {
        Request::Read { .. } => Reply::Item(WAYPOINT),
        _ => Reply::Done,
    }
}

/// The worker's turn.
fn work(core: &mut Core<NoWatch>)
    requires { CoreFits (λ w. nothing_read) core.old }
    ensures { CoreFits (λ w. nothing_read) core.new }
{
    match core.taken() {
        Some(request) => {
            core.step(Actor::Worker, Some(reply_to(&request)));
        }
        None => {
            core.step(Actor::Worker, None);
        }
    }
}

/// Mode Mission, and ticks until the whole mission was read and taken.
pub fn looked_on(core: &mut Core<NoWatch>)
    requires { CoreFits (λ w. nothing_read) core.old }
    ensures { CoreFits (λ w. nothing_read) core.new }
{
    for _ in 0..40 {
        core.step(Actor::Nav, None);
        work(core);
    }
}

/// A turn of a link or of the Navigator; whether it made a line.
fn turn(core: &mut Core<NoWatch>, actor: Actor) -> bool
    requires { CoreFits (λ w. nothing_read) core.old }
    ensures { CoreFits (λ w. nothing_read) core.new }
{
    match actor {
        Actor::Link(number) => matches!(core.step(Actor::Link(number), None), StepOut::Made(_)),
        Actor::Nav => matches!(core.step(Actor::Nav, None), StepOut::Made(_)),
        _ => false,
    }
}

/// How many of so many steps of the actor made a line.
pub fn stepped(core: &mut Core<NoWatch>, actor: Actor, steps: u16) -> u16
    requires { CoreFits (λ w. nothing_read) core.old }
{
    let mut made: u16 = 0;
    for _ in 0..steps {
        if turn(core, actor) {
            made = made.wrapping_add(1);
        }
    }
    made
}
E

cat >proofs/run/inputs/Invariants.antt <<'E'
use Rattle.std.specs.List.{All}
use Rattle.mission_model.specs.BootScripts.{ActorInput}
use Rattle.core_cost.proofs.run.inputs.Given as goal

abbrev pub invariant-loop : goal.invariant-loop
invariant-loop l = All (ActorInput 1 0) l.inputs.items
E

for loop in looked_on stepped; do
    cat >"proofs/run/$loop/Invariants.antt" <<E
use Rattle.request_board.specs.Silence.{nothing_read}
use Rattle.vehicle_core.specs.CoreState.{CoreFits}
use Rattle.core_cost.proofs.run.$loop.Given as goal

abbrev pub invariant-loop : goal.invariant-loop
invariant-loop l = CoreFits (λ w. nothing_read) l.core
E
done

rt run >"$work/built" 2>&1 || {
    cat "$work/built"
    exit 1
}

# The instructions of the loop that this many words name, which has to end well.
instructions() {
    local words=()
    for ((word = 1; word < $1; word++)); do words+=(w); done
    valgrind --tool=callgrind --callgrind-out-file=/dev/null out/core_cost "${words[@]}" 2>"$work/log" || {
        cat "$work/log" >&2
        exit 1
    }
    awk '/Collected/ { print $4 }' "$work/log"
}

printf '%-28s %8s\n' step instructions
row=1
for name in 'a message' 'a tick, all known' 'an idle actor'; do
    few=$(instructions "$row")
    many=$(instructions $((row + 1)))
    printf '%-28s %8d\n' "$name" $(((many - few) / 1000))
    row=$((row + 2))
done
