#!/usr/bin/env bash
# Instructions of an event of the Navigator once all is known, by valgrind's callgrind over a small proved program, which this
# script writes into a folder of its own beside copies of the crates: over a mission of 4 items, a fence of 4 vertices and 2
# safe points that were taken whole, a tick in mode Mission that shows a leg, a tick in mode Return that shows a safe point, a
# tick in mode Hold, and a `reached` that is ignored. Each event includes the heads that it meets and the mark that it compares.
# Two lengths of each loop are run, and what the longer one takes more is told for each event. Wanted are a few hundred for a
# tick in mode Mission, which is missed.
# Usage: bench/navigator_cost.sh, where rt is found.
set -euo pipefail
root=$(cd "$(dirname "$0")/.." && pwd)
work=$(mktemp -d)
trap 'rm -rf "$work"' EXIT
mkdir -p "$work"/crates/navigator_cost/{src,specs,proofs/run/begin,proofs/run/event,proofs/run/hear,proofs/run/hear_all,proofs/run/turns}
cp "$root/HANDLES" "$work"
for crate in mission_model request_board client_cache fence_polygon feasibility jump_counts leg_machine return_mode navigator; do
    cp -a "$root/crates/$crate" "$work/crates"
    grep "^$crate:" "$root/crates.txt" >>"$work/crates.txt"
done
printf 'navigator_cost: mission_model request_board client_cache navigator\n' >>"$work/crates.txt"
cd "$work/crates/navigator_cost"

cat >src/main.rt <<'E'
//! Runs the loop that the number of words names.
#![tactic(auto)]

mod run;

use mission_model::{Mode, VehicleLine};
use request_board::Board;
use run::{HEADS, begin, flown, turns};
use std::alloc::Global;
use std::env;
use std::process::ExitCode;

/// So many events of a line, in a mode that was entered and in which all is known: 0, where the last entry is of this kind.
fn measured(alloc: Global, mode: Mode, line: VehicleLine, times: u16, kind: u8) -> u8 {
    let Ok(mut board) = Board::new(alloc, 0, 0, HEADS) else {
        return 9;
    };
    let Some(mut navigator) = begin(alloc, &board) else {
        return 9;
    };
    flown(&mut navigator, &mut board, mode);
    if turns(&mut navigator, &mut board, &line, times) == kind {
        0
    } else {
        9
    }
}

fn main(rt: HostRuntime) -> ExitCode {
    let words = match env::args(&rt) {
        Ok(args) => args.count(),
        Err(_) => 0,
    };
    let times = if words % 2 == 1 { 1000 } else { 2000 };
    let alloc = rt.alloc();
    ExitCode::from(match words {
        1 | 2 => measured(alloc, Mode::Mission, VehicleLine::Tick, times, 1),
        3 | 4 => measured(alloc, Mode::Return, VehicleLine::Tick, times, 2),
        5 | 6 => measured(alloc, Mode::Hold, VehicleLine::Tick, times, 3),
        _ => measured(alloc, Mode::Hold, VehicleLine::Reached, times, 4),
    })
}
E

cat >src/run.rt <<'E'
//! The loops that are measured, and what comes before them.

ghost use Rattle.std.specs.Prelude.{◌≡◌, ◌≤◌, IfSome, IsTrue, None};
ghost use Rattle.mission_model.specs.declared.plan.PlanType.{PlanType as KindValue};
ghost use Rattle.mission_model.specs.BootStates.{StateInLimits};
ghost use Rattle.mission_model.specs.PlanTypes.{head_of, limit_of};
ghost use Rattle.navigator_cost.specs.Fits.{Fits};

use mission_model::Param::{Milli, Unset};
use mission_model::{
    Asked, BootMark, Counts, Home, Item, Mark, Mode, NavEntry, NavWhat, Param, Params, PlanHead,
    PlanType, Reply, VehicleLine, head_of, limit_of,
};
use navigator::Navigator;
use request_board::Board;
use std::alloc::Global;

/// The plans of the store that is booted.
pub const HEADS: [PlanHead; 3] = [
    PlanHead { id: 1, count: 4 },
    PlanHead { id: 2, count: 4 },
    PlanHead { id: 3, count: 2 },
];

/// Whether each plan is within its limit.
fn is_within(heads: &[PlanHead; 3]) -> bool
    ensures { IsTrue result → (type : KindValue) → (head_of heads.now type).count ≤ limit_of type }
{
    let mission = head_of(heads, PlanType::Mission).count <= limit_of(PlanType::Mission);
    let fence = head_of(heads, PlanType::Fence).count <= limit_of(PlanType::Fence);
    let safe = head_of(heads, PlanType::Safe).count <= limit_of(PlanType::Safe);
    mission && fence && safe
}

/// Whether a boot may begin so.
fn is_boot(boot: &BootMark) -> bool
    ensures { IsTrue result → StateInLimits boot.now }
{
    let mission = head_of(&boot.heads, PlanType::Mission);
    if boot.mark.id != mission.id || boot.mark.index > mission.count {
        return false;
    }
    boot.mark.counts.len() == 0 && is_within(&boot.heads)
}

/// The Navigator of a boot over these plans, beside a new board.
pub fn begin(alloc: Global, board: &Board) -> Option<Navigator>
    requires { board.now.index ≡ None }
    ensures { IfSome result (λ navigator. Fits navigator board.now) }
{
    let boot = BootMark {
        heads: board.published(),
        mark: Mark {
            id: 1,
            index: 0,
            counts: Counts::new(),
        },
    };
    if !is_boot(&boot) {
        return None;
    }
    let params = Params {
        tko_land: 0,
        takeoff_min: 0,
        max_alt: 0,
        rtl_type: 0,
    };
    let home = Some(Home {
        x: 470_000_000,
        y: 80_000_000,
        z: 400_000,
    });
    match Navigator::new(alloc, params, home, &boot) {
        Ok(navigator) => Some(navigator),
        Err(_) => None,
    }
}

fn item(command: u16, p1: Param, x: i32, y: i32) -> Item {
    Item {
        frame: 0,
        command,
        p1,
        p2: Unset,
        p3: Unset,
        p4: Unset,
        x,
        y,
        z: 10_000,
        auto: true,
    }
}

/// The item of a plan at a seq: waypoints within a square, and two safe points beside them.
fn planned(kind: PlanType, seq: u16) -> Item {
    match kind {
        PlanType::Mission => item(
            16,
            Unset,
            470_000_000 + i32::from(seq.min(4)) * 1_000,
            80_000_000,
        ),
        PlanType::Fence => {
            let x = if seq < 2 { 469_000_000 } else { 471_000_000 };
            let y = if seq == 0 || seq == 3 {
                79_000_000
            } else {
                81_000_000
            };
            item(5001, Milli(4000), x, y)
        }
        PlanType::Safe => item(
            5100,
            Unset,
            470_000_000,
            80_500_000 + i32::from(seq.min(4)) * 1_000,
        ),
    }
}

/// One event.
fn event(navigator: &mut Navigator, board: &mut Board, line: &VehicleLine) -> NavEntry
    requires { Fits navigator.old board.old }
    ensures { Fits navigator.new board.new }
{
    navigator.tick(board, line)
}

/// The reply to a read of an item comes.
fn hear(navigator: &mut Navigator, board: &Board, kind: PlanType, id: u32, seq: u16)
    requires { Fits navigator.old board.now }
    ensures { Fits navigator.new board.now }
{
    navigator.got(
        &Asked::Read { kind, id, seq },
        &Reply::Item(planned(kind, seq)),
    );
}

/// All items come.
fn hear_all(navigator: &mut Navigator, board: &Board)
    requires { Fits navigator.old board.now }
    ensures { Fits navigator.new board.now }
{
    for seq in 0..4 {
        hear(navigator, board, PlanType::Mission, 1, seq);
        hear(navigator, board, PlanType::Fence, 2, seq);
        hear(navigator, board, PlanType::Safe, 3, seq);
    }
}

/// A mission is flown, of which all is known, and then this mode is entered at the first safe point.
pub fn flown(navigator: &mut Navigator, board: &mut Board, mode: Mode)
    requires { Fits navigator.old board.old }
    ensures { Fits navigator.new board.new }
{
    let _ = event(navigator, board, &VehicleLine::Mode(Mode::Mission));
    hear_all(navigator, board);
    let _ = event(navigator, board, &VehicleLine::Tick);
    let place = VehicleLine::Position {
        x: 470_000_000,
        y: 80_500_000,
    };
    let _ = event(navigator, board, &place);
    let _ = event(navigator, board, &VehicleLine::Mode(mode));
    let _ = event(navigator, board, &VehicleLine::Tick);
}

/// So many events of one line: the kind of the last entry.
pub fn turns(navigator: &mut Navigator, board: &mut Board, line: &VehicleLine, times: u16) -> u8
    requires { Fits navigator.old board.old }
{
    let mut last = 9;
    for _turn in 0..times {
        last = kind_of(&event(navigator, board, line).what);
    }
    last
}

/// A number for each kind of entry that is measured, and 9 for others.
fn kind_of(what: &NavWhat) -> u8 {
    match what {
        NavWhat::Leg { .. } => 1,
        NavWhat::ReturnSafe { .. } => 2,
        NavWhat::Idle => 3,
        NavWhat::Ignored => 4,
        _ => 9,
    }
}
E

cat >specs/Fits.antt <<'E'
-- A Navigator beside a board on which an event may happen.
use Rattle.std.specs.Prelude.{List}
use Rattle.mission_model.specs.declared.plan.Item.{Item}
use Rattle.request_board.specs.BoardState.{BoardState}
use Rattle.navigator.specs.NavState.{NavState, with_taken, HasShown}
use Rattle.navigator.specs.Asking.{HasAsked, StandsBeside}

pub record Fits (n : NavState) (b : BoardState) : Type 0 where
  pub items : List Item
  pub shown : HasShown n items
  pub asked : HasAsked (with_taken n items) b
  pub stands : StandsBeside n.mission.cache.head b
E

cat >specs/Lib.antt <<'E'
pub mod Fits
E

cat >proofs/Keeping.antt <<'E'
-- The Navigator fits its board at a boot, and still after an event and after the reply to a read.
use Rattle.std.proofs.Common.{◌≡◌, ℕ, ◌<◌, ◌≤◌, true, List, [], Option, None, refl, sym, ap, subst, ◌∙◌, arith}
use Rattle.std.specs.Prelude.{IfSome}
use Rattle.std.specs.List.{All}
use Rattle.mission_model.specs.declared.counts.Mark.{Mark}
use Rattle.mission_model.specs.declared.plan.Home.{Home}
use Rattle.mission_model.specs.declared.plan.Item.{Item}
use Rattle.mission_model.specs.declared.plan.Params.{Params}
use Rattle.mission_model.specs.declared.plan.PlanHead.{PlanHead}
use Rattle.mission_model.specs.declared.plan.PlanType.{PlanType}
use Rattle.mission_model.specs.declared.plan.PlanType.TheVariants.{Mission, Fence, Safe}
use Rattle.mission_model.specs.declared.request.Asked.{Asked}
use Rattle.mission_model.specs.declared.request.Asked.TheVariants as about
use Rattle.mission_model.specs.declared.request.Reply.{Reply}
use Rattle.mission_model.specs.declared.vehicle.BootState.{BootState}
use Rattle.mission_model.specs.declared.vehicle.NavEntry.{NavEntry}
use Rattle.mission_model.specs.declared.vehicle.VehicleLine.{VehicleLine}
use Rattle.mission_model.specs.BootStates.{StateInLimits}
use Rattle.mission_model.specs.PlanTypes.{head_of, limit_of}
use Rattle.request_board.specs.BoardState.{BoardState}
use Rattle.client_cache.specs.CacheState.{has_id, count_of}
use Rattle.navigator.specs.Caches.{SamePlan, SamePlan-got}
use Rattle.navigator.specs.NavState.{NavState, NavTaken, with_taken, HasShown, cache_of}
use Rattle.navigator.specs.Meeting.{after_reply}
use Rattle.navigator.specs.EventLaw.{Obeys, CanTick, nav_at_boot}
use Rattle.navigator.specs.NavCalls.{Happens}
use Rattle.navigator.specs.Asking.{HasAsked, StandsBeside}
use Rattle.navigator.specs.Outstanding.{asked_at_boot, asked_by_call, stands_by_call, can_tick}
use Rattle.navigator_cost.specs.Fits.{Fits}

pub fits_tick : (n : NavState) (b : BoardState) → Fits n b → CanTick n b
fits_tick n b f = can_tick n f.items b f.asked f.stands

pub fits_event : (n n' : NavState) (b b' : BoardState) (line : VehicleLine) (entry : NavEntry) → Fits n b → ((items : List Item) → HasShown n items → Obeys n items b line entry n' b') → Fits n' b'
fits_event n n' b b' line entry f obeys =
    let o = obeys f.items f.shown in
    record {
      items = o.items';
      shown = o.fed;
      asked = asked_by_call (Happens line entry) (with_taken n f.items) b (with_taken n' o.items') b' o.law f.asked;
      stands = stands_by_call (Happens line entry) (with_taken n f.items) b (with_taken n' o.items') b' tt o.law f.asked f.stands;
    }

same_windows : (n : NavState) (items : List Item) (kind : PlanType) (id seq : ℕ) (given : Reply) (k : PlanType) → SamePlan (cache_of k (with_taken n items)) (cache_of k (with_taken (after_reply n (about.Read kind id seq) given) items))
same_windows n items kind id seq given Mission = SamePlan-got n.mission.cache (about.Read kind id seq) given
same_windows n items kind id seq given Fence = SamePlan-got n.fence.cache (about.Read kind id seq) given
same_windows n items kind id seq given Safe = SamePlan-got n.safe.cache (about.Read kind id seq) given

pub fits_read : (n n' : NavState) (b : BoardState) (kind : PlanType) (id seq : ℕ) (given : Reply) → Fits n b → n' ≡ after_reply n (about.Read kind id seq) given → ((items : List Item) → HasShown n items → HasShown n' items) → Fits n' b
fits_read n n' b kind id seq given f is shown =
    let same = same_windows n f.items kind id seq given in
    let head = (same Mission).head in
    let m : NavState = after_reply n (about.Read kind id seq) given in
    let kept : HasShown m f.items = subst (λ (k : NavState). HasShown k f.items) is (shown f.items f.shown) in
    subst (λ (k : NavState). Fits k b) (sym is) (record {
      items = f.items;
      shown = kept;
      asked = record {
        windows = record { client = λ k. (same k).client ∙ f.asked.windows.client k; kind = λ k. (same k).kind ∙ f.asked.windows.kind k };
        earlier = f.asked.earlier;
        marks = f.asked.marks;
        ids = subst (λ (h : Option PlanHead). All (λ (mark : Mark). has_id h mark.id ≡ true) n.flight.marks.asked) (sym head) f.asked.ids;
      };
      stands = subst (λ (h : Option PlanHead). StandsBeside h b) (sym head) f.stands;
    })

pub fits_boot : (n : NavState) (b : BoardState) (params : Params) (home : Option Home) (boot : BootState) → with_taken n [] ≡ nav_at_boot params home boot → HasShown n [] → StateInLimits boot → b.published ≡ boot.heads → b.index ≡ None → Fits n b
fits_boot n b params home boot begun shown limits heads index =
    let adopted : Option PlanHead = (nav_at_boot params home boot).mission.cache.head in
    let stands : StandsBeside adopted b = record {
      counts = subst (λ (l : List PlanHead). (kind : PlanType) → (head_of l kind).count ≤ limit_of kind) (sym heads) limits.counts;
      same = subst (λ (l : List PlanHead). has_id adopted (head_of l Mission).id ≡ true → (head_of l Mission).count ≡ count_of adopted) (sym heads) (λ h. refl);
      index = subst (λ (o : Option (ℕ × ℕ)). IfSome o (λ at. at.0 ≡ (head_of b.published Mission).id → at.1 < (head_of b.published Mission).count)) (sym index) tt;
    } in
    record {
      items = [];
      shown = shown;
      asked = subst (λ (v : NavTaken). HasAsked v b) (sym begun) (asked_at_boot params home boot b);
      stands = subst (λ (v : NavTaken). StandsBeside v.mission.cache.head b) (sym begun) stands;
    }
E

cat >proofs/Lib.antt <<'E'
pub mod Keeping
E

cat >proofs/run/begin/Answers.antt <<'E'
use Rattle.std.proofs.Common.{◌≡◌, rules}
use Rattle.mission_model.specs.BootStates.{StateInLimits}
use Rattle.navigator_cost.proofs.Keeping.{fits_boot}
use Rattle.navigator_cost.proofs.run.begin.Goals as goal

pub returns-in-Ok : goal.returns-in-Ok
returns-in-Ok c = fits_boot c.in-Ok.navigator c.args.board.now _ _ _ c.in-Ok.ensures.begun c.in-Ok.ensures.shown (c.is_boot.ensures (search rules)) (search rules) c.requires
E

cat >proofs/run/event/Answers.antt <<'E'
use Rattle.navigator_cost.proofs.Keeping.{fits_tick, fits_event}
use Rattle.navigator_cost.proofs.run.event.Goals as goal

pub tick-requires : goal.tick-requires
tick-requires c = fits_tick c.args.navigator.now c.args.board.now c.requires

pub returns : goal.returns
returns c = fits_event c.args.navigator.now c.tick.new.self c.args.board.now c.tick.new.board c.args.line.now c.tick.result c.requires c.tick.ensures
E

cat >proofs/run/hear/Answers.antt <<'E'
use Rattle.mission_model.specs.declared.request.Reply.TheVariants as reply
use Rattle.navigator_cost.proofs.Keeping.{fits_read}
use Rattle.navigator_cost.proofs.run.hear.Goals as goal

pub returns : goal.returns
returns c = fits_read c.args.navigator.now c.got.new.self c.args.board.now c.args.kind c.args.id c.args.seq (reply.Item c.planned.result) c.requires c.got.ensures.state c.got.ensures.shown
E

cat >proofs/run/hear_all/Invariants.antt <<'E'
use Rattle.navigator_cost.specs.Fits.{Fits}
use Rattle.navigator_cost.proofs.run.hear_all.Given as goal

abbrev pub invariant-loop-seq : goal.invariant-loop-seq
invariant-loop-seq l = Fits l.navigator l.board
E

cat >proofs/run/turns/Invariants.antt <<'E'
use Rattle.navigator_cost.specs.Fits.{Fits}
use Rattle.navigator_cost.proofs.run.turns.Given as goal

abbrev pub invariant-loop-turn : goal.invariant-loop-turn
invariant-loop-turn l = Fits l.navigator l.board
E

rt run >"$work/built" 2>&1 || {
    cat "$work/built"
    exit 1
}

# The instructions of the loop that this many words name, which has to end well.
instructions() {
    local words=()
    for ((word = 1; word < $1; word++)); do words+=(w); done
    valgrind --tool=callgrind --callgrind-out-file=/dev/null out/navigator_cost "${words[@]}" 2>"$work/log" || {
        cat "$work/log" >&2
        exit 1
    }
    awk '/Collected/ { print $4 }' "$work/log"
}

printf '%-36s %8s\n' event instructions
row=1
for name in 'tick in Mission, shows a leg' 'tick in Return, shows a safe point' 'tick in Hold' 'reached, ignored'; do
    few=$(instructions "$row")
    many=$(instructions $((row + 1)))
    printf '%-36s %8d\n' "$name" $(((many - few) / 1000))
    row=$((row + 2))
done
