//! Each call of the solver once more, on its sheet turned round (02, item 13): what was compared, and the smallest form of a difference.

use super::shrink;
use crate::together::call::{Call, Effect};
use crate::together::expected;
use crate::together::random::Random;
use crate::together::turned::{difference, exchanged_pairs, scribbled_call, turned_call};
use std::collections::BTreeMap;

/// Of so many calls the turned form of one is put to the oracle too.
pub const ASKED: u32 = 8;

/// What was compared of a function. All but the first figure are of calls in which a pair of sides did change places.
#[derive(Default)]
struct Tally {
    calls: u64,
    exchanged: u64,
    accepted: u64,
    /// A move was made; `constraints_hold`: they do.
    moved: u64,
    /// A search was cut, as far as is told: a solve does not tell it.
    cut: u64,
}

#[derive(Default)]
pub struct Tallies(BTreeMap<&'static str, Tally>);

impl Tallies {
    /// Counts a call, its turned form, and the effects that both have.
    pub fn count(&mut self, call: &Call, turned: &Call, effects: &[Effect]) {
        let tally = self.0.entry(call.function()).or_default();
        tally.calls += 1;
        if exchanged_pairs(call, turned).is_some_and(|pairs| pairs > 0) {
            let any = |has: fn(&Effect) -> bool| u64::from(effects.iter().any(has));
            tally.exchanged += 1;
            tally.accepted += any(|effect| effect.refusal == 0);
            tally.moved += any(|effect| effect.refusal == 0 && effect.number > 0);
            tally.cut += any(|effect| effect.cut > 0);
        }
    }

    pub fn report(&self) {
        println!("\n| turned sheet | calls | sides exchanged | of these accepted | with a move, or hold | with a cut search |");
        println!("|---|---|---|---|---|---|");
        for (function, tally) in &self.0 {
            let Tally { calls, exchanged, accepted, moved, cut } = tally;
            println!("| {function} | {calls} | {exchanged} | {accepted} | {moved} | {cut} |");
        }
    }

    /// All calls, and those in which sides were exchanged.
    pub fn calls(&self) -> [u64; 2] {
        self.0.values().fold([0; 2], |[calls, exchanged], tally| [calls + tally.calls, exchanged + tally.exchanged])
    }
}

/// The call turned by this seed, with other values where nothing is read; none if it has no region.
pub fn of_call(call: &Call, seed: u64) -> Option<Call> {
    let mut random = Random::new(seed);
    scribbled_call(&turned_call(call, &mut random)?, &mut random)
}

/// Seeds that are tried beside the one that a difference was found by, since a smaller call is turned otherwise by that one.
const SEEDS: u64 = 4;

/// Smaller calls that are tried at most: each is made once for every seed.
const TRIES: usize = 2_000;

/// A turned form of the call that differs from what is expected of the call: by this seed or by a few others, plain if that is enough.
fn different_form(call: &Call, seed: u64) -> Option<Call> {
    let expected = expected::effects(call).ok()?;
    let plain = [seed].into_iter().chain(0..SEEDS).filter_map(|seed| turned_call(call, &mut Random::new(seed)));
    plain.chain(of_call(call, seed)).find(|turned| difference(&expected, &turned.made()).is_some())
}

/// The smallest call found with such a form, and the form.
pub fn smallest(call: Call, seed: u64) -> Option<(Call, Call)> {
    let call = shrink::smaller(call, TRIES, |call| different_form(call, seed).is_some());
    let turned = different_form(&call, seed)?;
    Some((call, turned))
}
