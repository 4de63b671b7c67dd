//! Cases on sheets and on the same sheets turned round (02, item 13), by ideals and within ranges. Turned, a case is put to the oracle or
//! to the model again, and an accepted one that is answered otherwise is an error here.

use crate::dice::Dice;
use crate::farm::{brick_wall, record, Farm};
use crate::generate::{expected, field, lent, odd_shapes, Cases};
use crate::generate_wide::stack;
use crate::limits::{RECORD, SEARCH, SIDE, SIDE_EDGES};
use crate::pack;
use crate::refusal::Refusal;
use crate::stored::{self, Case, Spacing};
use crate::turned::{numbered, scribbled, turned};

pub fn all() -> Cases {
    Ok([fields()?, every_choice()?, refused()?].concat())
}

/// The case on its records changed, answered anew. All but the records must be as it was.
pub fn turned_case(case: &Case, change: impl FnOnce(&[u16]) -> Vec<u16>) -> Result<Case, String> {
    let with = |case: &Case, records: Vec<u16>| {
        let mut changed = case.clone();
        changed.records().into_iter().for_each(|list| list.clone_from(&records));
        changed
    };
    let records = case.clone().records().cloned().unwrap_or_default();
    let after = stored::asked_again(&with(case, change(&records)))?;
    if pack::one(&with(&after, records))? == pack::one(case)? {
        Ok(after)
    } else {
        Err(format!("on the turned sheet the answer is another:\n{case:?}\n{after:?}"))
    }
}

/// Some records with other values where nothing is read: mostly numbers that edges may have.
fn scribble(dice: &mut Dice, records: &[u16]) -> Vec<u16> {
    scribbled(records, || dice.pick(&[0, 1, 2, 3, 4, 5, 6, 7, 255, 256, u16::MAX]))
}

// ------------------------------------------------------------------------------------------------------------------------------------
// Fields, turned at random
// ------------------------------------------------------------------------------------------------------------------------------------

/// A tile with a T-junction on its top.
fn tile() -> Farm {
    Farm { regions: record([&[0], &[1], &[2, 3], &[4]]), edges: 5 }
}

/// The same with two tiles above it.
fn three_tiles() -> Farm {
    let above = [record([&[2], &[5], &[6], &[7]]), record([&[3], &[8], &[9], &[5]])].concat();
    Farm { regions: [tile().regions, above].concat(), edges: 10 }
}

/// Regions side by side with lines of several edges between them; the middle line is listed by one region downwards.
fn side_by_side() -> Farm {
    let regions = [record([&[], &[2, 3, 4], &[], &[0, 1]]), record([&[7], &[5, 6], &[8, 9], &[4, 3, 2]])].concat();
    Farm { regions, edges: 10 }
}

/// Fields with T-junctions, brick walls, sides of several edges, empty sides, loops, edges in both pairs of a region.
fn sheets(dice: &mut Dice) -> Vec<Farm> {
    let mut farms = vec![tile(), three_tiles(), side_by_side(), stack(&[3, 4, 2]), brick_wall(2, 2), field(dice, 2, 3)];
    farms.extend(odd_shapes().into_iter().map(|(regions, edges)| Farm { regions, edges }));
    farms
}

/// Limits at which searches of these fields are cut, or not: none is among them.
const LIMITS: [Option<u32>; 11] = [Some(0), Some(1), Some(2), Some(3), Some(4), Some(6), Some(9), Some(14), Some(20), None, Some(SEARCH)];

/// Rounds by these limits, of the kinds in turn.
fn by_limits(kinds: &[&Spacing], limits: &[Option<u32>]) -> Vec<(Spacing, Option<u32>)> {
    kinds.iter().cycle().map(|&spacing| spacing.clone()).zip(limits.iter().copied()).collect()
}

/// A round, and of either kind a solve and a list of rounds; a list of rounds of both kinds.
fn calls(dice: &mut Dice, Farm { regions, edges }: &Farm) -> Cases {
    let kinds = [Spacing::Ideals(dice.ideals(*edges)), dice.ranges(*edges)];
    let any = dice.below(2) as usize;
    let mut cases = vec![stored::round(regions.clone(), kinds[any].clone(), dice.counts(*edges, 5), dice.pick(&LIMITS))?];
    for (kind, spacing) in kinds.iter().enumerate() {
        let limit = if kind == any { None } else { Some(2 + dice.below(19)) };
        cases.push(stored::solve(regions.clone(), spacing.clone(), lent(edges + 1), limit)?);
        cases.push(stored::rounds(regions.clone(), dice.counts(*edges, 9), by_limits(&[spacing], &LIMITS))?);
    }
    let both = by_limits(&[&kinds[1], &kinds[0]], &LIMITS);
    cases.push(stored::rounds(regions.clone(), dice.counts(*edges, 9), both)?);
    Ok(cases)
}

/// Each case, then the same on its sheet turned.
pub fn fields() -> Cases {
    let mut dice = Dice(0x5EED_0401);
    let mut cases = Vec::new();
    for farm in sheets(&mut dice) {
        for case in calls(&mut dice, &farm)? {
            // At least one pair is exchanged.
            let choices = 1 << (2 * farm.regions.len() / RECORD);
            let choice = numbered(u64::from(1 + dice.below(choices - 1)));
            let after = turned_case(&case, |records| scribble(&mut dice, &turned(records, choice)))?;
            cases.extend([case, after]);
        }
    }
    Ok(cases)
}

// ------------------------------------------------------------------------------------------------------------------------------------
// Every choice
// ------------------------------------------------------------------------------------------------------------------------------------

/// Two tiles with a T-junction between them and an edge in both pairs of the upper one.
fn two_tiles() -> Farm {
    Farm { regions: [record([&[0], &[1], &[2, 3], &[4]]), record([&[2, 3], &[5, 6], &[6], &[7]])].concat(), edges: 8 }
}

/// All ways to turn one region and two.
fn every_choice() -> Cases {
    let mut dice = Dice(0x5EED_0402);
    let mut cases = Vec::new();
    for Farm { regions, edges } in [tile(), two_tiles()] {
        let [ideals, ranges] = [dice.ideals(edges).into(), dice.ranges(edges)];
        let limits = [Some(3), None, Some(7), Some(SEARCH)];
        let as_it_was = [
            stored::rounds(regions.clone(), dice.counts(edges, 5), by_limits(&[&ideals, &ranges], &limits))?,
            stored::solve(regions.clone(), ideals, lent(edges), 6)?,
            stored::solve(regions.clone(), ranges, lent(edges), None)?,
            stored::hold(regions.clone(), dice.counts(edges, 2))?,
        ];
        for case in as_it_was {
            for choice in 0..1 << (2 * regions.len() / RECORD) {
                cases.push(turned_case(&case, |records| turned(records, numbered(choice)))?);
            }
        }
    }
    Ok(cases)
}

// ------------------------------------------------------------------------------------------------------------------------------------
// Not accepted
// ------------------------------------------------------------------------------------------------------------------------------------

/// Lists that are not accepted, whose refusals may change, with both: as they are and with all pairs exchanged.
pub fn not_accepted() -> Vec<(Vec<u16>, [Refusal; 2])> {
    let at = |number, first, second| Refusal { number, first, second };
    let good = record([&[0], &[1], &[2], &[3]]);
    let mut long = good.clone();
    long[3 * SIDE] = SIDE_EDGES as u16 + 1;
    vec![
        (record([&[4], &[], &[0, 0], &[]]), [at(3, 0, 0), at(4, 0, 0)]),
        ([&good[..], &record([&[], &[1, 1], &[], &[4]])].concat(), [at(4, 1, 1), at(3, 1, 1)]),
        (record([&[0], &[2], &[1], &[3, 2]]), [at(5, 0, 1), at(5, 0, 1)]),
        (record([&[], &[0], &[], &[1]]).repeat(3), [at(6, 0, 0), at(6, 0, 0)]),
        (long, [at(1, 0, 0), at(1, 0, 0)]),
    ]
}

/// Edges of these lists.
pub const EDGES: usize = 4;

fn refused() -> Cases {
    let ranges = Spacing::Within { least: vec![1.5; EDGES], most: vec![2.5; EDGES] };
    let mut cases = Vec::new();
    for (records, refusals) in not_accepted() {
        let lists = [records.clone(), turned(&records, |_| [true, true])];
        for (records, refusal) in lists.into_iter().zip(refusals) {
            cases.push(expected(stored::round(records.clone(), vec![1.5; EDGES], vec![1; EDGES], 9)?, refusal)?);
            cases.push(expected(stored::solve(records, ranges.clone(), lent(EDGES), None)?, refusal)?);
        }
    }
    Ok(cases)
}
