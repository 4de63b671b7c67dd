//! Cases of the search limit (02, item 5): solves by a limit, solves and rounds without one, by ideals and within ranges. Their answers are
//! the oracle's and the model's.

use crate::dice::Dice;
use crate::farm::{self, record, Farm};
use crate::generate::{field, lent, row, Cases};
use crate::generate_wide::{sparse, stack};
use crate::limits::{SEARCH, SEARCH_UNSTATED, SIDE_EDGES};
use crate::ranges;
use crate::stored::{self, Spacing};

pub fn all() -> Cases {
    Ok([solves()?, rounds()?, lists_of_rounds()?, last_ways()?].concat())
}

/// A farm, and what is wanted of its edges: ideals, and ranges.
struct Field {
    farm: Farm,
    kinds: [Spacing; 2],
}

impl Field {
    /// The ranges are from these ideals to so many times as much.
    fn new(farm: Farm, ideals: Vec<f64>, factor: f64) -> Field {
        let most = ideals.iter().map(|ideal| factor * ideal).collect();
        Field { farm, kinds: [Spacing::Ideals(ideals.clone()), Spacing::Within { least: ideals, most }] }
    }

    /// Ideals in quarters, and ranges from them up.
    fn random(dice: &mut Dice, farm: Farm) -> Field {
        let ideals = dice.ideals(farm.edges);
        Field::new(farm, ideals, 1.25)
    }
}

/// Nothing; a free edge; bench case A; a row; T-junctions; wide sides.
fn fields() -> Vec<Field> {
    let mut dice = Dice(0x5EED_0301);
    let bench = [record([&[0], &[1], &[2], &[3]]), record([&[4], &[5], &[6], &[1]])].concat();
    let wide = stack(&[SIDE_EDGES, SIDE_EDGES]);
    let few = sparse(wide.edges, 9);
    let cut = field(&mut dice, 3, 3);
    vec![
        Field::new(Farm { regions: Vec::new(), edges: 0 }, Vec::new(), 1.0),
        Field::new(Farm { regions: Vec::new(), edges: 1 }, vec![3.0], 1.5),
        Field::new(Farm { regions: bench, edges: 7 }, vec![4.0, 2.0, 4.0, 2.0, 2.0, 2.0, 2.0], 1.1),
        Field::new(Farm { regions: row(30), edges: 31 }, vec![2.5; 31], 1.4),
        Field::random(&mut dice, cut),
        Field::random(&mut dice, farm::brick_wall(2, 3)),
        Field::new(wide, few, 1.01),
    ]
}

/// One below, itself, one above.
fn around(limit: u32) -> [u32; 3] {
    [limit.saturating_sub(1), limit, limit + 1]
}

/// The least limit by which no search of the solve is cut: above it nothing changes any more, so halving finds it.
fn needed(farm: &Farm, spacing: &Spacing) -> u32 {
    let (mut least, mut most) = (0, SEARCH);
    while least < most {
        let middle = (least + most) / 2;
        if is_cut(farm, spacing, middle) {
            least = middle + 1;
        } else {
            most = middle;
        }
    }
    least
}

/// Whether a search of the solve is cut, by the model: round after round from zeros.
fn is_cut(farm: &Farm, spacing: &Spacing, limit: u32) -> bool {
    let mut counts = vec![0; farm.edges];
    loop {
        match ranges::round(&farm.regions, spacing.ends(), &mut counts, Some(limit)) {
            Ok(round) if round.cost.is_some() && !round.cut => {}
            answer => return answer.is_ok_and(|round| round.cut),
        }
    }
}

/// Solves by the least limits, by parts of what their searches need and around it, around 10,000 and around 100,000, by the largest number,
/// and without a limit.
fn solves() -> Cases {
    let mut cases = Vec::new();
    for Field { farm, kinds } in fields() {
        for spacing in kinds {
            let needed = needed(&farm, &spacing);
            let parts = [needed / 4, needed / 2];
            let stated = [&[0, 1, 2][..], &parts, &around(needed), &around(SEARCH_UNSTATED), &around(SEARCH), &[u32::MAX]].concat();
            for limit in stated.into_iter().map(Some).chain([None]) {
                cases.push(stored::solve(farm.regions.clone(), spacing.clone(), lent(farm.edges + 1), limit)?);
            }
        }
    }
    Ok(cases)
}

/// Rounds without a limit, from zeros and from other counts.
fn rounds() -> Cases {
    let mut dice = Dice(0x5EED_0302);
    let mut cases = Vec::new();
    for Field { farm, kinds } in fields() {
        for spacing in kinds {
            for counts in [vec![0; farm.edges], dice.counts(farm.edges, 4), dice.counts(farm.edges, 9)] {
                cases.push(stored::round(farm.regions.clone(), spacing.clone(), counts, None)?);
            }
        }
    }
    Ok(cases)
}

/// Lists of rounds with and without a limit: of one kind, and of both in turn.
fn lists_of_rounds() -> Cases {
    let limits = [None, Some(2), None, Some(SEARCH_UNSTATED), Some(SEARCH + 1), None];
    let mut cases = Vec::new();
    for Field { farm, kinds } in fields() {
        for order in [[0, 0], [1, 1], [0, 1]] {
            let kinds = order.iter().cycle().map(|&kind: &usize| kinds[kind].clone());
            cases.push(stored::rounds(farm.regions.clone(), vec![0; farm.edges], kinds.zip(limits).collect())?);
        }
    }
    Ok(cases)
}

// ------------------------------------------------------------------------------------------------------------------------------------
// Farms of which only the last way pays
// ------------------------------------------------------------------------------------------------------------------------------------

/// Lines of edges one above the other, with a region between two. Only the last edge of each line is wanted, so that of all ways from the
/// first line to the last one only that pays to which a search comes last. Both ends are one edge.
pub struct LastWay {
    pub lines: &'static [usize],
    /// The entries of the search from the first line, and of that from the last one, on zeros.
    pub entries: [usize; 2],
}

/// The first one's search from edge 0 is just not cut where no limit is stated, the second one's just is. The
/// third has the fewest edges of those that we found in which a move is missed without a limit and found by 100,000.
pub const LAST_WAYS: [LastWay; 3] = [
    LastWay { lines: &[1, 3, 4, 13, 7, 4, 1], entries: [10_000, 10_589] },
    LastWay { lines: &[1, 4, 7, 4, 8, 5, 1], entries: [10_001, 10_286] },
    LastWay { lines: &[1, 3, 3, 3, 3, 3, 3, 3, 2, 1], entries: [12_028, 10_935] },
];

impl LastWay {
    pub fn farm(&self) -> Farm {
        stack(self.lines)
    }

    /// A value for each edge: one for those that are wanted, another for all others.
    fn values(&self, wanted: f64, other: f64) -> Vec<f64> {
        self.lines.iter().flat_map(|&edges| (1..=edges).map(move |edge| if edge == edges { wanted } else { other })).collect()
    }

    /// The first +1 of a wanted edge gains 1, that of another one costs 48: more than all the wanted edges of a way gain.
    pub fn ideals(&self) -> Vec<f64> {
        self.values(1.0, 0.125)
    }

    /// The same costs.
    pub fn ranges(&self) -> Spacing {
        Spacing::Within { least: self.values(1.0, 0.0625), most: self.values(1.5, 0.125) }
    }

    /// The counts with the move that pays.
    pub fn moved(&self) -> Vec<u32> {
        self.values(1.0, 0.0).iter().map(|&count| count as u32).collect()
    }

    fn kinds(&self) -> [Spacing; 2] {
        [self.ideals().into(), self.ranges()]
    }
}

fn last_ways() -> Cases {
    let mut cases = Vec::new();
    for way in LAST_WAYS {
        let farm = way.farm();
        for spacing in way.kinds() {
            for limit in around(SEARCH_UNSTATED).into_iter().map(Some).chain([None]) {
                cases.push(stored::round(farm.regions.clone(), spacing.clone(), vec![0; farm.edges], limit)?);
                cases.push(stored::solve(farm.regions.clone(), spacing.clone(), lent(farm.edges), limit)?);
            }
            cases.push(stored::solve(farm.regions.clone(), spacing, lent(farm.edges), SEARCH)?);
        }
    }
    Ok(cases)
}
