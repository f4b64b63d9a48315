#!/usr/bin/env bash
# How fast literals are propagated: by the library's watches, and by a plain body that goes through all clauses until a pass adds nothing. Builds a
# small program over a copy of the crates that it needs. Both sides get the same random problem of three literals, with 4.2 clauses a variable, and
# the same random decisions. A round decides until a conflict, or so many literals; then all are taken back. Counted are the literals that were true
# before the conflict, decisions too, and both sides have to count as many; the time is that of the rounds alone. The plain body has its clauses in
# one flat list, and looks values up by variable, so it is no slower than it need be. Each side runs five times, and the shortest time counts. It is
# no part of the gate.
#
#   bench/propagation_speed.sh [DECISIONS]      at 100,000 variables at most 2000 decisions a round where no number is given: a whole round has
#                                               some 19,000, and takes the plain body minutes
set -eu
decisions=${1:-2000}
top=$(cd "$(dirname "$0")/.." && pwd)
work=$(mktemp -d)
trap 'rm -rf "$work"' EXIT

cp "$top/HANDLES" "$work"
mkdir -p "$work/crates/propagation_speed/src" "$work/crates/propagation_speed/proofs/watch/Watches/attach"
for crate in gi_lit gi_store gi_chains gi_prop; do
  cp -r "$top/crates/$crate" "$work/crates"
  grep "^$crate:" "$top/crates.txt" >> "$work/crates.txt"
done
echo 'propagation_speed: gi_lit gi_store gi_prop anyhow' >> "$work/crates.txt"
cd "$work/crates/propagation_speed"

cat > src/main.rt <<'PROGRAM'
//! Decides random literals of a random problem until a conflict, in rounds, and propagates after each. Prints how many literals became true, and the
//! nanoseconds. Arguments: 1 for watches or 0 for passes, variables, rounds, decisions of a round at most.
#![tactic(auto)]

mod draw;
mod scan;
mod watch;

use anyhow::Result;
use gi_lit::Lit;
use scan::Passes;
use std::env;
use std::time::Instant;
use watch::Watches;

/// What a round is played on.
trait Side {
    /// Makes the literal true if its variable is free.
    fn decides(&mut self, l: Lit) -> bool;

    /// False at a conflict.
    fn propagates(&mut self) -> bool;

    /// How many literals are true.
    fn count(&self) -> u64;

    /// Takes all literals away.
    fn clear(&mut self);
}

/// Decides literals until a conflict, at most so many, and counts those that were true before it.
fn round(side: &mut impl Side, vars: u32, seed: &mut u64, most: u32) -> u64 {
    let mut settled = 0;
    for _ in 0..most {
        let Some(l) = draw::literal(seed, vars) else {
            return settled;
        };
        if side.decides(l) {
            if !side.propagates() {
                return settled;
            }
            settled = side.count();
        }
    }
    settled
}

/// Plays rounds, and prints what they took.
fn play(rt: &HostRuntime, side: &mut impl Side, vars: u32, rounds: u32, most: u32) -> Result<()> {
    let mut seed = 2;
    let mut literals = 0u64;
    let start = Instant::now(rt)?;
    for _ in 0..rounds {
        literals = literals.saturating_add(round(side, vars, &mut seed, most));
        side.clear();
    }
    let took = start.elapsed(rt)?;
    println!(rt; "{literals} {}", took.as_nanos())?;
    Ok(())
}

/// The number that the word is, or 0.
fn number(word: Option<String>) -> u32 {
    match word {
        None => 0,
        Some(word) => word.parse::<u32>().unwrap_or(0),
    }
}

fn main(rt: HostRuntime) -> Result<()> {
    let mut words = env::args(&rt)?.skip(1);
    let is_watched = number(words.next()) == 1;
    let vars = number(words.next());
    let rounds = number(words.next());
    let most = number(words.next());
    let clauses = draw::problem(rt.alloc(), vars)?;
    if is_watched {
        let mut watches = Watches::new(rt.alloc(), vars, clauses.as_slice())?;
        play(&rt, &mut watches, vars, rounds, most)
    } else {
        let mut passes = Passes::new(rt.alloc(), vars, clauses)?;
        play(&rt, &mut passes, vars, rounds, most)
    }
}
PROGRAM

cat > src/draw.rt <<'PROGRAM'
use anyhow::{Result, bail};
use gi_lit::{Lit, Var};
use std::alloc::Global;

/// The next of a row of numbers that look drawn.
fn next(seed: u64) -> u64 {
    seed.wrapping_mul(6_364_136_223_846_793_005)
        .wrapping_add(1_442_695_040_888_963_407)
}

/// A literal of the variables 1 to `vars`.
pub fn literal(seed: &mut u64, vars: u32) -> Option<Lit> {
    *seed = next(*seed);
    let at = ((*seed >> 33) as u32).checked_rem(vars)?;
    let v = Var::new(at.checked_add(1)?)?;
    *seed = next(*seed);
    if (*seed >> 33) % 2 == 0 {
        Some(v.positive())
    } else {
        Some(v.negative())
    }
}

/// Three literals of different variables.
fn clause(seed: &mut u64, vars: u32) -> Option<[Lit; 3]> {
    for _ in 0..1000 {
        let a = literal(seed, vars)?;
        let b = literal(seed, vars)?;
        let c = literal(seed, vars)?;
        if a.var() != b.var() && a.var() != c.var() && b.var() != c.var() {
            return Some([a, b, c]);
        }
    }
    None
}

/// A random problem with 4.2 clauses a variable.
pub fn problem(alloc: Global, vars: u32) -> Result<Vec<[Lit; 3]>> {
    let mut seed = 1;
    let mut clauses = Vec::new(alloc);
    for _ in 0..vars as u64 * 42 / 10 {
        match clause(&mut seed, vars) {
            Some(three) => clauses.push(three)?,
            None => bail!("three variables or more"),
        }
    }
    Ok(clauses)
}
PROGRAM

cat > src/scan.rt <<'PROGRAM'
use crate::Side;
use gi_lit::Lit;
use std::alloc::{AllocError, Global};

/// What a clause asks for: nothing, a literal, or an end, since all of it is false.
enum Found {
    Nothing,
    Forced(Lit),
    Conflict,
}

fn value(values: &[Option<bool>], l: Lit) -> Option<bool> {
    match values.get(l.var().index() as usize) {
        Some(Some(positive)) => Some(*positive != l.is_negative()),
        _ => None,
    }
}

fn look(values: &[Option<bool>], clause: &[Lit]) -> Found {
    let mut left = None;
    for l in clause {
        match value(values, *l) {
            Some(true) => return Found::Nothing,
            Some(false) => {}
            None => match left {
                Some(_) => return Found::Nothing,
                None => left = Some(*l),
            },
        }
    }
    match left {
        Some(l) => Found::Forced(l),
        None => Found::Conflict,
    }
}

fn assign(values: &mut [Option<bool>], l: Lit, count: &mut u64) {
    if let Some(value) = values.get_mut(l.var().index() as usize) {
        *value = Some(!l.is_negative());
        *count = count.saturating_add(1);
    }
}

/// Goes through all clauses once; false at a conflict.
fn pass(clauses: &[[Lit; 3]], values: &mut [Option<bool>], count: &mut u64) -> bool {
    for clause in clauses {
        match look(values, clause) {
            Found::Nothing => {}
            Found::Forced(l) => assign(values, l, count),
            Found::Conflict => return false,
        }
    }
    true
}

/// The clauses in one list, and the value of each variable.
#[derive(Drop)]
pub struct Passes {
    clauses: Vec<[Lit; 3]>,
    values: Vec<Option<bool>>,
    count: u64,
}

impl Passes {
    pub fn new(alloc: Global, vars: u32, clauses: Vec<[Lit; 3]>) -> Result<Passes, AllocError> {
        let mut values = Vec::new(alloc);
        values.resize(vars as usize + 1, None)?;
        Ok(Passes {
            clauses,
            values,
            count: 0,
        })
    }
}

impl Side for Passes {
    fn decides(&mut self, l: Lit) -> bool {
        let is_free = value(self.values.as_slice(), l).is_none();
        if is_free {
            assign(self.values.as_mut_slice(), l, &mut self.count);
        }
        is_free
    }

    fn propagates(&mut self) -> bool {
        for _ in 0..u64::MAX {
            let before = self.count;
            if !pass(
                self.clauses.as_slice(),
                self.values.as_mut_slice(),
                &mut self.count,
            ) {
                return false;
            }
            if self.count == before {
                return true;
            }
        }
        true
    }

    fn count(&self) -> u64 {
        self.count
    }

    fn clear(&mut self) {
        self.values.fill(None);
        self.count = 0;
    }
}
PROGRAM

cat > src/watch.rt <<'PROGRAM'
use crate::Side;
use anyhow::{Result, bail};
use gi_lit::Lit;
use gi_prop::{Prop, Trail};
use gi_store::Store;
use std::alloc::Global;
use std::marker::Model;

/// The library's propagator.
#[derive(Drop)]
pub struct Watches {
    store: Store,
    trail: Trail,
    prop: Prop,
}

impl Model for Watches {
    ghost use Rattle.gi_prop.specs.Attached.{Attached, Goes};

    ghost Value = { Attached };

    ghost view = { λ w. w.prop };

    ghost invariant = { λ w. Goes w.prop w.store w.trail };
}

impl Watches {
    pub fn new(alloc: Global, vars: u32, clauses: &[[Lit; 3]]) -> Result<Watches> {
        if vars > 1_048_576 {
            bail!("at most 1048576 variables");
        }
        let mut store = Store::new(alloc);
        let mut trail = Trail::new(alloc);
        store.grow(vars)?;
        trail.grow(vars)?;
        let prop = Prop::new(alloc);
        let mut watches = Watches { store, trail, prop };
        for clause in clauses {
            watches.attach(clause)?;
        }
        Ok(watches)
    }

    fn attach(&mut self, clause: &[Lit]) -> Result<()> {
        if !self.store.is_plain(clause) {
            bail!("variables of the problem");
        }
        let key = self.store.add(clause)?;
        if self.store.vars() as usize > self.trail.vars()
            || !self.store.is_within(self.store.clause(key))
        {
            bail!("variables of the trail");
        }
        self.prop.attach(&self.store, &self.trail, key)?;
        Ok(())
    }
}

impl Side for Watches {
    fn decides(&mut self, l: Lit) -> bool {
        if l.var().index() as usize > self.trail.vars() {
            return false;
        }
        match self.trail.value(l) {
            Some(_) => false,
            None => {
                self.trail.assign(l, None);
                true
            }
        }
    }

    fn propagates(&mut self) -> bool {
        self.prop.propagate(&self.store, &mut self.trail).is_none()
    }

    fn count(&self) -> u64 {
        self.trail.lits().len() as u64
    }

    fn clear(&mut self) {
        self.trail.clear();
    }
}
PROGRAM

cat > proofs/watch/Watches/attach/Answers.antt <<'PROGRAM'
use Rattle.std.proofs.Common.{◌≡◌, ℕ, ◌≤◌, List, [], ◌∷◌, ◌++◌, map, inl, inr, sym, subst, arith}
use Rattle.std.proofs.lemmas.List.Elements.{Contains-append_left, Contains-append_right, Contains-append_cases}
use Rattle.gi_store.specs.Held.{Entry, Held, Holds, IsLive, IsWithin, Keeps, full_entry, with_plain}
use Rattle.gi_prop.specs.Assigned.{Assigned}
use Rattle.gi_prop.specs.Attached.{Attached, IsAttached, Goes}
use Rattle.gi_prop.proofs.Keys.{goes_edit, goes_clause}
use Rattle.gi_prop.proofs.Adding.{held_live}
use Rattle.propagation_speed.proofs.watch.Watches.attach.Goals as goal

-- a key in use stays so where a clause is added
live_more : (s : Held) (key : ℕ) (c : List ℕ) (k : ℕ) (d : List ℕ) → Holds s k d → IsLive (with_plain key c s) k
live_more s key c k d h =
    let rest : List Entry = map full_entry s.pairs ++ s.learnt in
    let added : Entry = record { key = key; lits = c } in
    held_live (with_plain key c s) k d (elim (Contains-append_cases s.plain rest (record { key = k; lits = d }) h) [
      | inl a ↦ Contains-append_left (s.plain ++ added ∷ []) rest _ (Contains-append_left s.plain (added ∷ []) _ a)
      | inr b ↦ Contains-append_right (s.plain ++ added ∷ []) rest _ b
    ])

-- so a propagator that goes with a store goes with it then
goes_more : (p : Attached) (old new : Held) (t : Assigned) (key : ℕ) (c : List ℕ) → Goes p old t → Keeps old new → new ≡ with_plain key c old → Goes p new t
goes_more p old new t key c g keeps e = goes_edit p old new t g keeps (λ k h.
    let d = goes_clause p old t g k h in
    subst (λ (s : Held). IsLive s k) (sym e) (live_more old key c k d.clause d.held))

-- a key that isn't in use isn't attached
free_fresh : (p : Attached) (s : Held) (t : Assigned) (key : ℕ) → Goes p s t → (IsLive s key → ⊥) → IsAttached p key → ⊥
free_fresh p s t key g fresh h =
    let d = goes_clause p s t g key h in
    fresh (held_live s key d.clause d.held)

pub invariant_of-self-then-vars : goal.invariant_of-self-then-vars
invariant_of-self-then-vars c = goes_more c.self.inside.prop c.self.inside.store c.add.new.self c.self.inside.trail c.in_ok-key.key c.args.clause.now c.self.invariant c.in_ok-key.ensures.keeps c.in_ok-key.ensures.ok

pub attach-requires-clause-goes : goal.attach-requires-clause-goes
attach-requires-clause-goes c = goes_more c.self.inside.prop c.self.inside.store c.add.new.self c.self.inside.trail c.in_ok-key.key c.args.clause.now c.self.invariant c.in_ok-key.ensures.keeps c.in_ok-key.ensures.ok

pub attach-requires-clause-free : goal.attach-requires-clause-free
attach-requires-clause-free c = free_fresh c.self.inside.prop c.self.inside.store c.self.inside.trail c.in_ok-key.key c.self.invariant c.in_ok-key.ensures.fresh

pub attach-requires-clause-within : goal.attach-requires-clause-within
attach-requires-clause-within c = λ clause held. subst (IsWithin c.self.inside.trail.vars) (c.clause.ensures.only clause held) (λ k d kl.
    let w = c.is_within.ensures.0 c.if-not-is_within.false k d kl in
    (w.0, omega (arith, w.1, c.if-vars.false, c.vars.ensures.value, c.vars-2.ensures)))
PROGRAM

rt run -- 1 10 1 1 < /dev/null > "$work/build.log" 2>&1 || { tail -5 "$work/build.log"; exit 1; }

# VARIABLES DECISIONS: a round of both sides
compare() {
  local before=
  for side in 0 1; do
    for _ in 1 2 3 4 5; do
      ./out/propagation_speed "$side" "$1" 1 "$2"
    done | sort -n -k 2 > "$work/times"
    read -r literals nanoseconds < "$work/times"
    [ "${before:-$literals}" = "$literals" ] || { echo 'the sides differ'; exit 1; }
    before=$literals
    awk -v side="$side" -v variables="$1" -v literals="$literals" -v nanoseconds="$nanoseconds" 'BEGIN {
      printf "%-9s %7d variables  %7d literals  %10.2f ms  %9.0f ns a literal\n",
        side ? "watching" : "scanning", variables, literals, nanoseconds / 1e6, nanoseconds / literals }'
  done
}

compare 10000 10000
compare 100000 "$decisions"
