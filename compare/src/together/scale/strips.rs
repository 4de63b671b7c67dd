//! Strips (02, item 2): calls of lay on tiles of which opposite sides list no edge, so that their breaks are not read; and the same calls
//! once more with other breaks there, which must change nothing.

use crate::generate_strips::odd_breaks;
use crate::lay;
use crate::limits::SIDE;
use crate::together::call::{Call, Effect, Sides};
use crate::together::random::Random;
use crate::together::speed::even;

/// What was compared: calls of lay with an empty pair of sides.
#[derive(Default)]
pub struct Tally {
    calls: u64,
    accepted: u64,
    /// Both pairs are empty.
    both: u64,
}

impl Tally {
    pub fn count(&mut self, call: &Call, effects: &[Effect]) {
        self.calls += 1;
        self.accepted += u64::from(effects.iter().all(|effect| effect.refusal == 0));
        self.both += u64::from(matches!(call, Call::Lay { record, .. } if lay::unread(record) == [true; 4]));
    }

    pub fn report(&self) {
        let Tally { calls, accepted, both } = self;
        println!("{calls} of them lay with an empty pair of sides, and once more with other breaks there");
        println!("{accepted} of these strips are accepted, {both} have both pairs empty");
    }
}

/// How many breaks a side has that are not read: mostly a few, also about as many as a side or a seam may have.
fn length(random: &mut Random) -> usize {
    let length = match random.below(16) {
        0..=3 => 0,
        4..=12 => random.within(1, 4),
        13 => random.within(31, 35),
        14 => random.within(5, 40),
        _ if random.chance(8) => random.within(1023, 1028),
        _ => random.within(5, 300),
    };
    length as usize
}

/// Breaks that are not read: any number, of any values.
pub fn any_breaks(random: &mut Random) -> Vec<f64> {
    let length = length(random);
    match random.below(5) {
        0 => even(length.max(1)).into_iter().take(length).collect(),
        1 => odd_breaks(length),
        2 => vec![f64::NAN; length],
        3 => (0..length).map(|_| random.unit()).collect(),
        _ => (0..length).map(|_| f64::from_bits(random.bits())).collect(),
    }
}

/// The sides that a tile loses: most often a pair, or both, or one side; now and then one more.
fn chosen(random: &mut Random) -> [bool; 4] {
    let mut empty = match random.below(8) {
        0..=2 => [true, false, true, false],
        3..=5 => [false, true, false, true],
        6 => [true; 4],
        _ => [false; 4],
    };
    if empty == [false; 4] || random.chance(12) {
        empty[random.below(4) as usize] = true;
    }
    empty
}

/// Takes the edges of some sides away. Their breaks are anything, but for those that are read, which mostly are as many as they must.
pub fn empty(random: &mut Random, record: &mut [u16], breaks: &mut Sides) {
    let empty = chosen(random);
    for side in (0..4).filter(|&side| empty[side]) {
        if let Some(number) = record.get_mut(side * SIDE) {
            *number = 0;
        }
        let alone = !empty[(side + 2) % 4];
        breaks[side] = if alone && !random.chance(4) { vec![random.pick(&[0.0, 1.0, f64::NAN])] } else { any_breaks(random) };
    }
}

/// The call with other breaks on each side of which they are not read; none if there is no such side.
pub fn with_other_breaks(call: &Call, random: &mut Random) -> Option<Call> {
    let mut other = call.clone();
    let Call::Lay { record, breaks, .. } = &mut other else {
        return None;
    };
    let unread = lay::unread(record);
    for (list, _) in breaks.iter_mut().zip(unread).filter(|(_, unread)| *unread) {
        *list = any_breaks(random);
    }
    unread.contains(&true).then_some(other)
}
