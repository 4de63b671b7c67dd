//! Cases of rounds and solves within ranges beside the vectors: two faults at once, the limits, sides of many edges, extreme ends, farms
//! with T-junctions, lists of rounds of both kinds. Their answers are the model's (`ranges`); the pairs of faults say what they expect, by
//! the order of tests.

use crate::dice::Dice;
use crate::farm::{record, Farm};
use crate::generate::{
    self, alone, careless, expected, field, lent, odd_shapes, pairs, row, set_number, side_ideals, Cases, BAD_IDEALS, LENT, LISTED,
    NUMBERS, PLACES, SIDES,
};
use crate::generate_wide::{last_places, wide, wide_fields, Wide};
use crate::limits::{self, SEARCH};
use crate::refusal::Refusal;
use crate::stored::{self, Case, Spacing};

pub fn all() -> Cases {
    let parts = [
        round_faults(),
        solve_faults(),
        bad_ends(),
        lengths(),
        size_limits(),
        side_limits(),
        list_lengths(),
        wide_sides(),
        spoiled_places(),
        search_limits(),
        count_limits(),
        move_limits(),
        one_edge(),
        extreme_fields(),
        close_costs(),
        random_records(),
        farms(),
        shapes(),
        mixed_lists(),
    ];
    let mut cases = Vec::new();
    for part in parts {
        cases.extend(part?);
    }
    Ok(cases)
}

fn within(least: &[f64], most: &[f64]) -> Spacing {
    Spacing::Within { least: least.to_vec(), most: most.to_vec() }
}

// ------------------------------------------------------------------------------------------------------------------------------------
// Faults
// ------------------------------------------------------------------------------------------------------------------------------------

/// One fault for each test, in different places: an earlier test meets a later edge wherever that can be.
#[derive(Clone, Copy)]
enum Fault {
    NotWhole,
    SideTooLong,
    TooManyLeasts,
    TooManyMosts,
    TooManyCounts,
    LimitTooLarge,
    LeastsFewer,
    MostsFewer,
    CountsMore,
    OutputTooShort,
    BadMost(f64),
    BadLeast(f64),
    LeastAboveMost,
    CountTooLarge,
    EdgeOutOfRange,
    EdgeRepeated,
    EdgeOnBothSides,
    EdgeOverused,
    TooManyMoves,
}

/// An input of both functions. Without a fault it is bench case A within ranges, with a further free edge.
struct Input {
    records: Vec<u16>,
    least: Vec<f64>,
    most: Vec<f64>,
    counts: Vec<u32>,
    limit: Option<u32>,
}

/// Edges of the input without a fault.
const EDGES: usize = 8;

impl Input {
    fn good(count: u32) -> Input {
        Input {
            records: [record([&[0], &[1], &[2], &[3]]), record([&[4], &[5], &[6], &[1]])].concat(),
            least: vec![4.0, 2.0, 3.5, 2.0, 1.5, 2.0, 2.0, 3.0],
            most: vec![4.0, 2.5, 4.0, 3.0, 2.0, 2.0, 6.0, 3.0],
            counts: vec![count; EDGES],
            limit: Some(100),
        }
    }

    /// For a solve by the Rust's limit.
    fn lent() -> Input {
        Input { limit: Some(SEARCH), ..Input::good(LENT) }
    }

    fn without_limit(self) -> Input {
        Input { limit: None, ..self }
    }

    fn side(&mut self, region: usize, side: usize, edges: &[u16]) {
        let start = region * limits::RECORD + side * limits::SIDE;
        self.records[start] = edges.len() as u16;
        self.records[start + 1..=start + edges.len()].copy_from_slice(edges);
    }

    fn with(mut self, fault: Fault) -> Input {
        match fault {
            Fault::NotWhole => self.records.push(0),
            Fault::SideTooLong => self.records[3 * limits::SIDE] = PLACES + 1,
            // Too many also with the few less that another fault takes; `lengths` has 257.
            Fault::TooManyLeasts => self.least.resize(260, 1.0),
            Fault::TooManyMosts => self.most.resize(260, 9.0),
            Fault::TooManyCounts => self.counts.resize(260, 1),
            Fault::LimitTooLarge => self.limit = Some(100_001),
            Fault::LeastsFewer => drop(self.least.pop()),
            Fault::MostsFewer => self.most.truncate(self.most.len() - 2),
            Fault::CountsMore => self.counts.push(0),
            Fault::OutputTooShort => self.counts.truncate(EDGES - 3),
            Fault::BadMost(end) => self.most[4] = end,
            Fault::BadLeast(end) => self.least[5] = end,
            Fault::LeastAboveMost => self.least[2] = self.most[2].next_up(),
            Fault::CountTooLarge => self.counts[1] = 1_000_001,
            Fault::EdgeOutOfRange => self.side(0, 2, &[2, 300]),
            Fault::EdgeRepeated => self.side(1, 0, &[4, 4]),
            Fault::EdgeOnBothSides => self.side(1, 3, &[1, 5]),
            Fault::EdgeOverused => self.records.extend(record([&[1], &[], &[], &[]])),
            Fault::TooManyMoves => self = self.many_moves(),
        }
        self
    }

    fn many_moves(mut self) -> Input {
        // The lists may be shorter by another fault, which comes first.
        self.least.iter_mut().last().into_iter().for_each(|least| *least = 200_001.0);
        self.most.iter_mut().last().into_iter().for_each(|most| *most = 300_000.0);
        self
    }

    fn spacing(&self) -> Spacing {
        within(&self.least, &self.most)
    }

    fn round(self) -> Result<Case, String> {
        stored::round(self.records.clone(), self.spacing(), self.counts, self.limit)
    }

    fn solve(self) -> Result<Case, String> {
        stored::solve(self.records.clone(), self.spacing(), self.counts, self.limit)
    }
}

impl Fault {
    fn refusal(self) -> Refusal {
        let (number, first, second) = match self {
            Fault::NotWhole | Fault::SideTooLong | Fault::TooManyLeasts | Fault::TooManyMosts | Fault::TooManyCounts => (1, 0, 0),
            Fault::LimitTooLarge => (10, 0, 0),
            Fault::LeastsFewer | Fault::MostsFewer | Fault::CountsMore => (8, 0, 0),
            Fault::OutputTooShort => (11, 0, 0),
            Fault::BadMost(_) => (2, 4, 0),
            Fault::BadLeast(_) => (2, 5, 0),
            Fault::LeastAboveMost => (35, 2, 0),
            Fault::CountTooLarge => (9, 1, 0),
            Fault::EdgeOutOfRange => (3, 0, 2),
            Fault::EdgeRepeated => (4, 1, 0),
            Fault::EdgeOnBothSides => (5, 1, 1),
            Fault::EdgeOverused => (6, 1, 0),
            Fault::TooManyMoves => (7, 0, 0),
        };
        Refusal { number, first, second }
    }
}

fn faults(order: &[Fault], good: fn() -> Input, run: impl Fn(Input) -> Result<Case, String>) -> Cases {
    let with = |faults: &[Fault]| faults.iter().fold(good(), |input, &fault| input.with(fault));
    pairs(order, Fault::refusal, |faults| run(with(faults)))
}

const REGION_FAULTS: [Fault; 4] = [Fault::EdgeOutOfRange, Fault::EdgeRepeated, Fault::EdgeOnBothSides, Fault::EdgeOverused];

const ENDS: [Fault; 3] = [Fault::BadMost(0.0), Fault::BadLeast(f64::NAN), Fault::LeastAboveMost];

fn round_faults() -> Cases {
    let malformed = [Fault::NotWhole, Fault::SideTooLong, Fault::TooManyLeasts, Fault::TooManyMosts, Fault::TooManyCounts];
    let early = [Fault::LimitTooLarge, Fault::LeastsFewer, Fault::MostsFewer, Fault::CountsMore];
    let order = [&malformed[..], &early, &ENDS, &[Fault::CountTooLarge], &REGION_FAULTS].concat();
    let mut cases = faults(&order, || Input::good(1), Input::round)?;
    cases.extend(alone(&order, Fault::refusal, |fault| Input::good(1).with(fault).without_limit().round())?);
    Ok(cases)
}

fn solve_faults() -> Cases {
    let malformed = [Fault::NotWhole, Fault::SideTooLong, Fault::TooManyLeasts, Fault::TooManyMosts];
    let early = [Fault::LimitTooLarge, Fault::LeastsFewer, Fault::MostsFewer, Fault::OutputTooShort];
    let order = [&malformed[..], &early, &ENDS, &REGION_FAULTS, &[Fault::TooManyMoves]].concat();
    let mut cases = faults(&order, Input::lent, Input::solve)?;
    // 7 alone takes 200,000 moves on eight edges: `move_limits` has it on one.
    cases.pop();
    cases.extend(alone(&order, Fault::refusal, |fault| Input::lent().with(fault).without_limit().solve())?);
    Ok(cases)
}

/// Each value that 2 refuses, as either end, and least and most that change places.
fn bad_ends() -> Cases {
    let mut cases = Vec::new();
    for end in BAD_IDEALS.into_iter().chain([-5e-324]) {
        for fault in [Fault::BadLeast(end), Fault::BadMost(end)] {
            cases.push(Input::good(1).with(fault).round()?);
            cases.push(Input::lent().with(fault).solve()?);
        }
    }
    let mut turned = Input::good(1);
    std::mem::swap(&mut turned.least, &mut turned.most);
    cases.push(turned.round()?);
    Ok(cases)
}

/// Each of the lists shorter or longer alone, and counts lent in all lengths.
fn lengths() -> Cases {
    let mut cases = Vec::new();
    for length in [0, 1, 7, 8, 9, 12, 255, 256, 257, 300] {
        let mut least = Input::good(1);
        least.least.resize(length, 1.0);
        let mut most = Input::good(1);
        most.most.resize(length, 9.0);
        for input in [least, most] {
            cases.push(stored::solve(input.records.clone(), input.spacing(), lent(EDGES), SEARCH)?);
            cases.push(input.round()?);
        }
        let input = Input::good(1);
        cases.push(stored::solve(input.records.clone(), input.spacing(), lent(length), SEARCH)?);
        cases.push(stored::round(input.records.clone(), input.spacing(), vec![1; length], 100)?);
    }
    Ok(cases)
}

// ------------------------------------------------------------------------------------------------------------------------------------
// Limits
// ------------------------------------------------------------------------------------------------------------------------------------

fn size_limits() -> Cases {
    let mut cases = Vec::new();
    for regions in [0, 1, 127, 128, 129] {
        let (least, most) = (vec![1.5; regions + 1], vec![2.5; regions + 1]);
        cases.push(stored::solve(row(regions), within(&least, &most), lent(regions + 1), SEARCH)?);
        cases.push(stored::round(row(regions), within(&least, &most), vec![1; regions + 1], 1000)?);
    }
    for edges in [0, 1, 255, 256, 257] {
        let least: Vec<f64> = (0..edges).map(|edge| 0.4 + f64::from(edge) / 100.0).collect();
        let most: Vec<f64> = least.iter().map(|least| least + 0.3).collect();
        cases.push(stored::solve(Vec::new(), within(&least, &most), lent(edges as usize), SEARCH)?);
        cases.push(stored::round(Vec::new(), within(&least, &most), (0..edges).collect(), 1)?);
    }
    Ok(cases)
}

fn side_limits() -> Cases {
    let mut cases = Vec::new();
    for edges in SIDES {
        let (bottom, top): (Vec<u16>, Vec<u16>) = ((0..edges).collect(), (edges..2 * edges).collect());
        let records = record([&bottom, &[], &top, &[]]);
        let least = side_ideals(edges);
        let most: Vec<f64> = least.iter().map(|least| 1.5 * least).collect();
        let counts: Vec<u32> = (0..2 * u32::from(edges)).collect();
        cases.push(stored::solve(records.clone(), within(&least, &most), lent(least.len()), SEARCH)?);
        cases.push(stored::round(records, within(&least, &most), counts, 40)?);
    }
    for (number, refusal) in NUMBERS {
        for side in 0..4 {
            let mut input = Input::good(1);
            input.records[limits::RECORD + side * limits::SIDE] = number;
            let refusal = set_number(refusal, side);
            cases.push(expected(stored::solve(input.records.clone(), input.spacing(), lent(EDGES), SEARCH)?, refusal)?);
            cases.push(expected(input.round()?, refusal)?);
        }
    }
    Ok(cases)
}

fn list_lengths() -> Cases {
    let mut cases = Vec::new();
    let spacing = within(&[0.75; LISTED], &[1.5; LISTED]);
    for records in generate::list_lengths() {
        cases.push(stored::solve(records.clone(), spacing.clone(), lent(LISTED), SEARCH)?);
        cases.push(stored::round(records, spacing.clone(), vec![2; LISTED], 100)?);
    }
    Ok(cases)
}

fn spoiled_places() -> Cases {
    let mut cases = Vec::new();
    for (regions, edges, refusal) in last_places() {
        let spacing = within(&vec![1.5; edges], &vec![2.5; edges]);
        cases.push(expected(stored::round(regions.clone(), spacing.clone(), vec![1; edges], 100)?, refusal)?);
        cases.push(expected(stored::solve(regions, spacing, lent(edges), SEARCH)?, refusal)?);
    }
    Ok(cases)
}

/// From these ideals up. Below 1/2, where the first +1 gains nothing, both ends are the ideal: else it could gain something.
fn upward(ideals: Vec<f64>) -> Spacing {
    let most = ideals.iter().map(|&ideal| if ideal < 0.5 { ideal } else { 1.25 * ideal }).collect();
    Spacing::Within { least: ideals, most }
}

/// Sides of many edges; also a list of rounds of both kinds on each field.
fn wide_sides() -> Cases {
    let mut dice = Dice(0x5EED_0206);
    let mut cases = wide(&mut dice, upward)?;
    for Wide { farm: Farm { regions, edges }, limits, .. } in wide_fields().into_iter().filter(|wide| wide.ideals.is_some()) {
        let kinds = [dice.ranges(edges), dice.ideals(edges).into()];
        cases.push(stored::rounds(regions, dice.counts(edges, 4), in_turn(&kinds, limits[1]))?);
    }
    Ok(cases)
}

/// The search limit of a round: 0, few, at its highest value and one above; 30 regions in a row make a search of 31 entries.
fn search_limits() -> Cases {
    let mut cases = Vec::new();
    for limit in [0, 1, 2, 29, 30, 31, 32, 99_999, 100_000, 100_001, u32::MAX] {
        for count in [0, 3, 7] {
            cases.push(stored::round(row(30), within(&[2.25; 31], &[3.5; 31]), vec![count; 31], limit)?);
        }
        cases.push(stored::round(Vec::new(), within(&[], &[]), Vec::new(), limit)?);
    }
    // From edge 0 a search has 5 entries, from the others 4: with limit 3 it does not come to the own side.
    let records = record([&[0, 1], &[], &[2, 3], &[]]);
    let spacing = within(&[1.0, 1.0, 2.0, 1.0], &[5.0, 5.0, 9.0, 2.0]);
    for limit in 0..6 {
        cases.push(stored::round(records.clone(), spacing.clone(), vec![3, 3, 1, 3], limit)?);
    }
    Ok(cases)
}

/// Counts at 1,000,000, one below and one above, with moves up and down from there.
fn count_limits() -> Cases {
    let mut cases = Vec::new();
    let records = record([&[0, 1], &[], &[2], &[]]);
    for count in [0, 999_999, 1_000_000, 1_000_001, u32::MAX] {
        for (least, most) in [(0.5, 0.75), (999_998.5, 999_999.5), (1_000_003.0, 2e6), (1e300, 1e300), (0.5, 1e300)] {
            cases.push(stored::round(records.clone(), within(&[least; 3], &[most; 3]), vec![count; 3], 50)?);
        }
    }
    Ok(cases)
}

/// 200,000 moves, and one more: then the counts of the edges are 0, and none past them changes.
fn move_limits() -> Cases {
    [200_000.0, 200_001.0].into_iter().map(|least| stored::solve(Vec::new(), within(&[least], &[250_000.0]), lent(3), SEARCH)).collect()
}

// ------------------------------------------------------------------------------------------------------------------------------------
// Ends
// ------------------------------------------------------------------------------------------------------------------------------------

/// From the least to the largest f64.
const SCALE: [f64; 12] = [5e-324, 2.2250738585072014e-308, 1e-200, 1e-154, 1e-9, 0.5, 1.0, 3.0, 1e9, 1e154, 1e300, f64::MAX];

/// Ranges of one free edge: extreme, equal, with neighbouring ends, with and without whole numbers in them.
fn one_edge() -> Cases {
    let mut ranges = vec![(2.0, 5.0), (2.2, 2.8), (2.5, 2.5), (1.0, 3.0), (0.25, 0.75), (2.0, 2.5), (1.5, 2.0), (5e-324, f64::MAX)];
    ranges.extend(SCALE.windows(2).map(|ends| (ends[0], ends[1])));
    ranges.extend(SCALE.map(|end| (end, end)));
    ranges.extend([5e-324, 0.5, 1.0, 2.0, 3.0, 1e300].map(|end| (end, f64::next_up(end))));
    ranges.extend([1.0, 2.0, 3.0].map(|end| (f64::next_down(end), end)));
    ranges.extend([1e-323, 2.0].map(|end| (end, f64::next_down(end))));
    let mut cases = Vec::new();
    for (least, most) in ranges {
        for count in [0, 1, 2, 3, 1_000_000] {
            cases.push(stored::round(Vec::new(), within(&[least], &[most]), vec![count], 1)?);
        }
        if least <= 1e4 {
            cases.push(stored::solve(Vec::new(), within(&[least; 2], &[most; 2]), lent(2), SEARCH)?);
        }
    }
    Ok(cases)
}

/// Two of these values, the lower one first.
fn two(dice: &mut Dice, from: &[f64]) -> (f64, f64) {
    let (one, other) = (dice.pick(from), dice.pick(from));
    (one.min(other), one.max(other))
}

fn extreme_fields() -> Cases {
    let mut dice = Dice(0x5EED_0201);
    let mut cases = Vec::new();
    for _ in 0..16 {
        let field = field(&mut dice, 2, 3);
        let (least, most): (Vec<f64>, Vec<f64>) = (0..field.edges).map(|_| two(&mut dice, &SCALE)).unzip();
        let counts = dice.counts(field.edges, 4);
        cases.push(stored::round(field.regions.clone(), within(&least, &most), counts, 1000)?);
        // A solve comes no higher than the leasts.
        let (least, most): (Vec<f64>, Vec<f64>) = (0..field.edges).map(|_| two(&mut dice, &SCALE[..8])).unzip();
        cases.push(stored::solve(field.regions, within(&least, &most), lent(field.edges), SEARCH)?);
    }
    Ok(cases)
}

/// Costs that differ by about E, or that are about -E.
fn close_costs() -> Cases {
    let mut cases = Vec::new();
    for less in [0.0, 2e-12, 3.9e-12, 4.1e-12, 8e-12, -2e-12, -8e-12] {
        let wanted = [2.0, 2.0, 2.0 - less];
        for records in [record([&[0], &[], &[1, 2], &[]]), record([&[0], &[], &[2, 1], &[]]), Vec::new()] {
            cases.push(stored::round(records, within(&wanted, &[2.0, 3.0, 3.0]), vec![0; 3], 100)?);
        }
    }
    // From 0, +1 costs 1/x * (1/x - 2): next to nothing around 1/2. Above 1, so does -1 where the most is about that.
    for off in [-4e-13, -2e-13, -1e-13, 0.0, 1e-13, 2e-13, 2.4e-13, 2.6e-13, 4e-13, 1e-12] {
        let near = 0.5 + off;
        cases.push(stored::round(Vec::new(), within(&[near], &[near + 1e-13]), vec![0], 1)?);
        cases.push(stored::round(Vec::new(), within(&[0.25], &[near]), vec![1], 1)?);
    }
    let bits = [0x3fe0_0000_0000_034f, 0x3fdf_ffff_ffff_feaa].map(f64::from_bits).repeat(2);
    cases.push(stored::round(record([&[3, 0], &[], &[1, 2], &[]]), within(&bits, &bits), vec![0; 4], 100)?);
    cases.push(to_and_fro()?);
    Ok(cases)
}

/// A move whose cost is below 0 read from one end and above 0 read from the other: the next round undoes it.
fn to_and_fro() -> Result<Case, String> {
    let records = (0..5).flat_map(|edge| record([&[edge, edge + 1], &[], &[], &[]])).collect();
    let bits = [
        0x3f64_781c_df01_ad77,
        0x3f49_51e9_4eae_ba8b,
        0x3f4d_81b5_82c2_4d28,
        0x3f42_057c_aaa7_62a2,
        0x3f43_1bcc_5844_9599,
        0x3f65_1d4c_7ed5_f26a,
    ]
    .map(f64::from_bits);
    let kinds = [within(&bits, &bits), Spacing::Ideals(bits.to_vec())];
    stored::rounds(records, vec![4, 8, 9, 8, 8, 1], in_turn(&kinds, 100))
}

// ------------------------------------------------------------------------------------------------------------------------------------
// Random input, by a fixed seed
// ------------------------------------------------------------------------------------------------------------------------------------

fn random_records() -> Cases {
    let mut dice = Dice(0x5EED_0202);
    let mut cases = Vec::new();
    for _ in 0..50 {
        let Farm { regions, edges } = careless(&mut dice);
        let counts = dice.counts(edges, 4);
        let (spacing, limit) = (dice.ranges(edges), dice.pick(&[0, 1, 2, 3, 5, 100]));
        cases.push(stored::round(regions.clone(), spacing.clone(), counts, limit)?);
        cases.push(stored::solve(regions, spacing, lent(edges), SEARCH)?);
    }
    Ok(cases)
}

/// Fields with rounds from unbalanced counts under many limits, and their solves.
fn farms() -> Cases {
    let mut dice = Dice(0x5EED_0203);
    let mut cases = Vec::new();
    for (rows, columns) in [(1, 1), (1, 4), (2, 2), (2, 3), (3, 3), (2, 5), (3, 4), (4, 3), (3, 5), (5, 2)] {
        for _ in 0..2 {
            let field = field(&mut dice, rows, columns);
            let spacing = dice.ranges(field.edges);
            cases.push(stored::solve(field.regions.clone(), spacing.clone(), lent(field.edges + 2), SEARCH)?);
            for limit in [1, 7, 60, 777, 100_000] {
                let counts = dice.counts(field.edges, 6);
                cases.push(stored::round(field.regions.clone(), spacing.clone(), counts, limit)?);
            }
        }
    }
    Ok(cases)
}

fn shapes() -> Cases {
    let mut dice = Dice(0x5EED_0204);
    let mut cases = Vec::new();
    for (records, edges) in odd_shapes() {
        for limit in [0, 1, 2, 3, 4, 6, 100] {
            let counts = dice.counts(edges, 4);
            cases.push(stored::round(records.clone(), dice.ranges(edges), counts, limit)?);
        }
        for _ in 0..3 {
            cases.push(stored::solve(records.clone(), dice.ranges(edges), lent(edges + 1), SEARCH)?);
        }
    }
    Ok(cases)
}

/// Lists of rounds of both kinds, each with its own ideals or ends and limit: also lists too short or long, bad ends, limits too large.
fn mixed_lists() -> Cases {
    let mut dice = Dice(0x5EED_0205);
    let mut cases = Vec::new();
    for (rows, columns) in [(1, 1), (1, 3), (2, 2), (2, 3), (3, 3), (2, 4), (4, 2), (3, 4)] {
        for _ in 0..2 {
            let field = field(&mut dice, rows, columns);
            let counts = dice.counts(field.edges, 5);
            let calls = (0..20).map(|_| call(&mut dice, field.edges)).collect();
            cases.push(stored::rounds(field.regions, counts, calls)?);
        }
    }
    // A free edge that a round takes to 1,000,001: from there on every round of either kind is refused with 9.
    let kinds = [within(&[2e6, 0.5], &[3e6, 5.0]), Spacing::Ideals(vec![2e6, 0.5])];
    cases.push(stored::rounds(Vec::new(), vec![999_999, 1], in_turn(&kinds, 3))?);
    let calls = [(within(&[], &[]), 0), (vec![].into(), 0), (within(&[], &[1.0]), 0), (within(&[], &[]), 100_001)];
    let calls = calls.map(|(spacing, limit)| (spacing, Some(limit))).to_vec();
    cases.push(stored::rounds(Vec::new(), Vec::new(), calls)?);
    Ok(cases)
}

/// Six rounds by these in turn.
fn in_turn(kinds: &[Spacing], limit: u32) -> Vec<(Spacing, Option<u32>)> {
    kinds.iter().cycle().take(6).map(|spacing| (spacing.clone(), Some(limit))).collect()
}

fn call(dice: &mut Dice, edges: usize) -> (Spacing, Option<u32>) {
    let mut spacing = if dice.below(2) == 0 { dice.ranges(edges) } else { dice.ideals(edges).into() };
    match &mut spacing {
        Spacing::Ideals(ideals) => damage(dice, ideals),
        Spacing::Within { least, most } => match dice.below(12) {
            0..=1 => damage(dice, least),
            2..=3 => damage(dice, most),
            4 => std::mem::swap(least, most),
            _ => {}
        },
    }
    (spacing, Some(dice.pick(&[0, 3, 20, 500, 500, 100_000, 100_001])))
}

fn damage(dice: &mut Dice, list: &mut Vec<f64>) {
    match dice.below(9) {
        0 => list.push(1.0),
        1 => drop(list.pop()),
        2 => {
            let middle = list.len() / 2;
            list[middle] = dice.pick(&BAD_IDEALS);
        }
        _ => {}
    }
}
