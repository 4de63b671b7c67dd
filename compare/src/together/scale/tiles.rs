//! Tiles of farms: a list of regions, many of them strips (02, item 2), is solved, and each of its regions is laid from the counts; then
//! rounds are made on these counts, and each is laid again. 01 says of such a tile: "lay never answers it with 22, whatever breaks, curves
//! and output it is lent", and 02 that this "covers such strips too".

use super::geometry::{curves, lent, seam};
use super::solver::{farm, solve_spacing, step};
use super::strips::any_breaks;
use crate::farm::without_pairs;
use crate::lay;
use crate::limits::{CELLS, RECORD, SEARCH, SIDE};
use crate::together::call::{Call, Effect, Sides, LENT_NUMBER};
use crate::together::random::Random;

/// What was compared.
#[derive(Default)]
pub struct Tally {
    /// Farms of which a solve was accepted.
    farms: u64,
    tiles: u64,
    /// Tiles with an empty pair of sides, and those of them that were accepted.
    strips: u64,
    accepted: u64,
    /// 22, which never comes.
    unequal: u64,
}

impl Tally {
    pub fn farm(&mut self) {
        self.farms += 1;
    }

    /// Counts a tile; whether it is answered with 22.
    pub fn tile(&mut self, record: &[u16], effects: &[Effect]) -> bool {
        let answered = |number: u32| effects.iter().any(|effect| effect.refusal == number);
        self.tiles += 1;
        if lay::unread(record).contains(&true) {
            self.strips += 1;
            self.accepted += u64::from(answered(0));
        }
        self.unequal += u64::from(answered(22));
        answered(22)
    }

    pub fn report(&self) {
        let Tally { farms, tiles, strips, accepted, unequal } = self;
        println!("{tiles} of them tiles of {farms} solved farms, {unequal} with 22");
        println!("{strips} of these tiles with an empty pair of sides, {accepted} of which are accepted");
    }
}

/// A solve of a farm of which every third pair of sides is emptied, by any limit that is accepted. Just the counts that it needs are lent.
pub fn solve(random: &mut Random) -> Call {
    let farm = farm(random);
    let regions = without_pairs(&farm.regions, || random.chance(3));
    let limit = random.pick(&[None, Some(2), Some(20), Some(1000), Some(SEARCH)]);
    Call::Solve { regions, spacing: solve_spacing(random, farm.edges), counts: vec![LENT_NUMBER; farm.edges], limit }
}

/// Rounds of either kind, with ideals of their own, which may be refused.
pub fn rounds(random: &mut Random, regions: &[u16], counts: &[u32]) -> Call {
    let steps = (0..random.within(1, 4)).map(|_| step(random, counts.len())).collect();
    Call::Rounds { regions: regions.to_vec(), counts: counts.to_vec(), steps }
}

/// A region of the list, laid from the counts.
pub fn tile(random: &mut Random, record: &[u16], counts: &[u32]) -> Call {
    let breaks: Sides = std::array::from_fn(|side| match record[side * SIDE] {
        0 => any_breaks(random),
        _ if random.chance(24) => any_breaks(random),
        edges => seam(random, edges.into()),
    });
    let needed = 8 * cells(record, counts, 0) * cells(record, counts, 3);
    Call::Lay { record: record.to_vec(), counts: counts.to_vec(), breaks, curves: curves(random), out: lent(random, needed) }
}

/// The cells along a side; none where there are too many.
fn cells(record: &[u16], counts: &[u32], side: usize) -> usize {
    if lay::unread(record)[side] {
        return 1;
    }
    let edges = &record[side * SIDE + 1..][..record[side * SIDE].into()];
    let sum: u64 = edges.iter().map(|&edge| u64::from(counts[usize::from(edge)])).sum();
    if sum > u64::from(CELLS) {
        return 0;
    }
    sum as usize
}

/// The regions of a solve, each by itself.
pub fn regions(solve: &mut Call) -> Vec<Vec<u16>> {
    solve.regions().map_or_else(Vec::new, |regions| regions.chunks_exact(RECORD).map(<[u16]>::to_vec).collect())
}

#[cfg(test)]
mod tests {
    use super::*;
    use crate::farm::record;

    #[test]
    fn unequal() {
        let told = |refusal| [Effect { refusal, ..Effect::default() }];
        let mut tally = Tally::default();
        assert!(!tally.tile(&record([&[], &[0], &[], &[0]]), &told(0)));
        assert!(!tally.tile(&record([&[0], &[], &[], &[]]), &told(18)));
        assert!(tally.tile(&record([&[0]; 4]), &told(22)));
        let Tally { farms, tiles, strips, accepted, unequal } = tally;
        assert_eq!([farms, tiles, strips, accepted, unequal], [0, 3, 2, 1, 1]);
    }
}
