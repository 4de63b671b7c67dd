//! Cases beside the vectors: two faults at once, the limits, sides of many edges, records of before, farms with T-junctions, unbalanced
//! counts, extreme ideals. Where the Rust decides, its answer is stored; the pairs of faults say what they expect, by 01's order of tests.

use crate::dice::Dice;
use crate::farm::{self, lists, record, Farm};
use crate::former;
use crate::generate_wide;
use crate::limits::{self, SEARCH};
use crate::refusal::Refusal;
use crate::stored::{self, Case, Spacing};

/// What a lent buffer of counts holds before a solve.
pub const LENT: u32 = 0xA5A5_A5A5;

pub type Cases = Result<Vec<Case>, String>;

pub fn all() -> Cases {
    let parts = [
        round_faults(),
        solve_faults(),
        energy_faults(),
        hold_faults(),
        size_limits(),
        side_limits(),
        lengths(),
        search_limits(),
        count_limits(),
        buffers(),
        random_records(),
        farms(),
        lists_of_rounds(),
        extreme_ideals(),
        shapes(),
        generate_wide::all(),
    ];
    let mut cases = Vec::new();
    for part in parts {
        cases.extend(part?);
    }
    Ok(cases)
}

pub fn lent(length: usize) -> Vec<u32> {
    vec![LENT; length]
}

// ------------------------------------------------------------------------------------------------------------------------------------
// Faults
// ------------------------------------------------------------------------------------------------------------------------------------

/// One fault for each refusal of the solver; the region faults stand in the order of 01's tests, by region and pair.
#[derive(Clone, Copy)]
enum Fault {
    NotWhole,
    SideTooLong,
    TooManyEdges,
    LimitTooLarge,
    LengthsDiffer,
    OutputTooShort,
    BadIdeal(f64),
    CountTooLarge,
    EdgeOutOfRange,
    EdgeRepeated,
    EdgeOnBothSides,
    EdgeOverused,
    TooManyMoves,
}

/// An input of all solver functions. Without a fault it is bench case A with a further free edge.
struct Input {
    records: Vec<u16>,
    ideals: Vec<f64>,
    counts: Vec<u32>,
    limit: Option<u32>,
}

/// Edges of the input without a fault.
const EDGES: usize = 8;

impl Input {
    fn good(count: u32) -> Input {
        let mut records = record([&[0], &[1], &[2], &[3]]);
        records.extend(record([&[4], &[5], &[6], &[1]]));
        Input { records, ideals: vec![4.0, 2.0, 4.0, 2.0, 2.0, 2.0, 2.0, 3.0], counts: vec![count; EDGES], limit: Some(100) }
    }

    /// For a solve by the Rust's limit.
    fn lent() -> Input {
        Input { limit: Some(SEARCH), ..Input::good(LENT) }
    }

    fn without_limit(self) -> Input {
        Input { limit: None, ..self }
    }

    fn round(self) -> Result<Case, String> {
        stored::round(self.records, self.ideals, self.counts, self.limit)
    }

    fn solve(self) -> Result<Case, String> {
        stored::solve(self.records, self.ideals, self.counts, self.limit)
    }

    fn side(&mut self, region: usize, side: usize, edges: &[u16]) {
        let start = region * limits::RECORD + side * limits::SIDE;
        self.records[start] = edges.len() as u16;
        self.records[start + 1..=start + edges.len()].copy_from_slice(edges);
    }

    fn with(mut self, fault: Fault) -> Input {
        match fault {
            Fault::NotWhole => self.records.push(0),
            Fault::SideTooLong => self.records[3 * limits::SIDE] = PLACES + 1,
            Fault::TooManyEdges => {
                self.ideals.resize(257, 1.0);
                self.counts.resize(257.max(self.counts.len()), 0);
            }
            Fault::LimitTooLarge => self.limit = Some(100_001),
            Fault::LengthsDiffer => self.counts.push(0),
            Fault::OutputTooShort => self.counts.truncate(EDGES - 1),
            Fault::BadIdeal(ideal) => self.ideals[5] = ideal,
            Fault::CountTooLarge => self.counts[3] = 1_000_001,
            Fault::EdgeOutOfRange => self.side(0, 2, &[2, 300]),
            Fault::EdgeRepeated => self.side(1, 0, &[4, 4]),
            Fault::EdgeOnBothSides => self.side(1, 3, &[1, 5]),
            Fault::EdgeOverused => self.records.extend(record([&[1], &[], &[], &[]])),
            Fault::TooManyMoves => self.ideals[7] = 200_001.0,
        }
        self
    }
}

impl Fault {
    fn refusal(self) -> Refusal {
        let (number, first, second) = match self {
            Fault::NotWhole | Fault::SideTooLong | Fault::TooManyEdges => (1, 0, 0),
            Fault::LimitTooLarge => (10, 0, 0),
            Fault::LengthsDiffer => (8, 0, 0),
            Fault::OutputTooShort => (11, 0, 0),
            Fault::BadIdeal(_) => (2, 5, 0),
            Fault::CountTooLarge => (9, 3, 0),
            Fault::EdgeOutOfRange => (3, 0, 2),
            Fault::EdgeRepeated => (4, 1, 0),
            Fault::EdgeOnBothSides => (5, 1, 1),
            Fault::EdgeOverused => (6, 1, 0),
            Fault::TooManyMoves => (7, 0, 0),
        };
        Refusal { number, first, second }
    }
}

/// Every fault of `order` alone and every two at once: the earlier one must be the answer.
pub fn pairs<F: Copy>(order: &[F], refusal: impl Fn(F) -> Refusal, run: impl Fn(&[F]) -> Result<Case, String>) -> Cases {
    let mut cases = Vec::new();
    for (index, &first) in order.iter().enumerate() {
        cases.push(expected(run(&[first])?, refusal(first))?);
        for &second in &order[index + 1..] {
            cases.push(expected(run(&[first, second])?, refusal(first))?);
        }
    }
    Ok(cases)
}

/// Every fault of `order` by itself, in calls that state no limit: so 10 is passed over, and 7, which takes long.
pub fn alone<F: Copy>(order: &[F], refusal: impl Fn(F) -> Refusal, run: impl Fn(F) -> Result<Case, String>) -> Cases {
    let faults = order.iter().filter(|&&fault| !matches!(refusal(fault).number, 7 | 10));
    faults.map(|&fault| expected(run(fault)?, refusal(fault))).collect()
}

fn faults(order: &[Fault], good: fn() -> Input, run: impl Fn(Input) -> Result<Case, String>) -> Cases {
    let with = |faults: &[Fault]| faults.iter().fold(good(), |input, &fault| input.with(fault));
    pairs(order, Fault::refusal, |faults| run(with(faults)))
}

/// The case, if it is refused as it should be.
pub fn expected(case: Case, wanted: Refusal) -> Result<Case, String> {
    let given = case.refusal();
    if given == Some(wanted) {
        Ok(case)
    } else {
        Err(format!("a generated case should be refused with {wanted:?}, and the answer is {given:?}: {case:?}"))
    }
}

const REGION_FAULTS: [Fault; 4] = [Fault::EdgeOutOfRange, Fault::EdgeRepeated, Fault::EdgeOnBothSides, Fault::EdgeOverused];

const MALFORMED: [Fault; 3] = [Fault::NotWhole, Fault::SideTooLong, Fault::TooManyEdges];

/// Values that 2 refuses.
pub const BAD_IDEALS: [f64; 6] = [f64::NAN, f64::INFINITY, f64::NEG_INFINITY, 0.0, -0.0, -1.0];

fn ordered(parts: &[&[Fault]]) -> Vec<Fault> {
    parts.concat()
}

fn round_faults() -> Cases {
    let early = [Fault::LimitTooLarge, Fault::LengthsDiffer];
    let mut cases = Vec::new();
    for ideal in BAD_IDEALS {
        let values = [Fault::BadIdeal(ideal), Fault::CountTooLarge];
        let mut order = ordered(&[&early, &values, &REGION_FAULTS]);
        if ideal.is_nan() {
            order = ordered(&[&MALFORMED, &order]);
        }
        cases.extend(faults(&order, || Input::good(1), Input::round)?);
    }
    let order = ordered(&[&MALFORMED, &early, &[Fault::BadIdeal(0.0), Fault::CountTooLarge], &REGION_FAULTS]);
    cases.extend(alone(&order, Fault::refusal, |fault| Input::good(1).with(fault).without_limit().round())?);
    Ok(cases)
}

fn solve_faults() -> Cases {
    let early = [Fault::LimitTooLarge, Fault::OutputTooShort];
    let mut cases = Vec::new();
    for ideal in BAD_IDEALS {
        let order = ordered(&[&early, &[Fault::BadIdeal(ideal)], &REGION_FAULTS]);
        cases.extend(faults(&order, Input::lent, Input::solve)?);
    }
    let order = ordered(&[&MALFORMED, &early, &[Fault::BadIdeal(0.0)], &REGION_FAULTS, &[Fault::TooManyMoves]]);
    cases.extend(faults(&order, Input::lent, Input::solve)?);
    // 7 alone takes 200,000 moves on eight edges: `buffers` has it on one.
    cases.pop();
    cases.extend(alone(&order, Fault::refusal, |fault| Input::lent().with(fault).without_limit().solve())?);
    Ok(cases)
}

fn energy_faults() -> Cases {
    let run = |i: Input| stored::energy(i.counts, i.ideals);
    let mut cases = Vec::new();
    for ideal in BAD_IDEALS {
        let order = [Fault::TooManyEdges, Fault::LengthsDiffer, Fault::BadIdeal(ideal), Fault::CountTooLarge];
        cases.extend(faults(&order, || Input::good(1), run)?);
    }
    Ok(cases)
}

fn hold_faults() -> Cases {
    faults(&MALFORMED, || Input::good(1), |i: Input| stored::hold(i.records, i.counts))
}

// ------------------------------------------------------------------------------------------------------------------------------------
// Limits
// ------------------------------------------------------------------------------------------------------------------------------------

/// A row of regions, each crossed by the next one's left edge: region i has left edge i, right edge i + 1.
pub fn row(regions: usize) -> Vec<u16> {
    (0..regions as u16).flat_map(|i| record([&[], &[i + 1], &[], &[i]])).collect()
}

/// Regions and edges at their limits, one below and one above.
fn size_limits() -> Cases {
    let mut cases = Vec::new();
    for regions in [0, 1, 127, 128, 129] {
        let ideals = vec![1.5; regions + 1];
        cases.push(stored::solve(row(regions), ideals.clone(), lent(regions + 1), SEARCH)?);
        cases.push(stored::round(row(regions), ideals, vec![1; regions + 1], 1000)?);
        cases.push(stored::hold(row(regions), vec![3; regions + 1])?);
    }
    for edges in [0, 1, 255, 256, 257] {
        let ideals: Vec<f64> = (0..edges).map(|edge| 0.4 + edge as f64 / 100.0).collect();
        let counts: Vec<u32> = (0..edges).collect();
        let free = lent(edges as usize);
        cases.push(stored::solve(Vec::new(), ideals.clone(), free, SEARCH)?);
        cases.push(stored::round(Vec::new(), ideals.clone(), counts.clone(), 1)?);
        cases.push(stored::energy(counts.clone(), ideals)?);
        cases.push(stored::hold(Vec::new(), counts)?);
    }
    Ok(cases)
}

/// Places of a side, as a side's number.
pub const PLACES: u16 = limits::SIDE_EDGES as u16;

/// Edges of a side: none, one, about as many as it had places before, and about as many as it has now.
pub const SIDES: [u16; 7] = [0, 1, former::PLACES - 1, former::PLACES, former::PLACES + 1, PLACES - 1, PLACES];

/// A side's number set over a good record, whose further places hold no edges: what is read is 3, and more than there are places is 1.
pub const NUMBERS: [(u16, u32); 4] = [(former::PLACES + 1, 3), (PLACES, 3), (PLACES + 1, 1), (u16::MAX, 1)];

/// Ideals of two opposite sides of so many edges. Of more edges than before each wants less, so that a solve stays short.
pub fn side_ideals(edges: u16) -> Vec<f64> {
    let steps = if edges <= former::PLACES { 8.0 } else { f64::from(edges) };
    (0..2 * edges).map(|edge| 0.5 + f64::from(edge) / steps).collect()
}

fn side_limits() -> Cases {
    let mut cases = Vec::new();
    for edges in SIDES {
        let (bottom, top): (Vec<u16>, Vec<u16>) = ((0..edges).collect(), (edges..2 * edges).collect());
        let records = record([&bottom, &[], &top, &[]]);
        let ideals = side_ideals(edges);
        let counts: Vec<u32> = (0..2 * u32::from(edges)).collect();
        cases.push(stored::solve(records.clone(), ideals.clone(), lent(ideals.len()), SEARCH)?);
        cases.push(stored::round(records.clone(), ideals.clone(), counts.clone(), 40)?);
        cases.push(stored::hold(records, counts)?);
    }
    for (number, refusal) in NUMBERS {
        for side in 0..4 {
            let mut input = Input::good(1);
            input.records[limits::RECORD + side * limits::SIDE] = number;
            let refusal = set_number(refusal, side);
            cases.push(expected(stored::round(input.records.clone(), input.ideals.clone(), input.counts.clone(), 1)?, refusal)?);
            cases.push(expected(stored::solve(input.records.clone(), input.ideals, lent(EDGES), SEARCH)?, refusal)?);
            cases.push(stored::hold(input.records, input.counts)?);
        }
    }
    Ok(cases)
}

/// Lengths of lists about those of one and of two records, of today and of before.
pub const LENGTHS: [usize; 9] = [
    1,
    former::RECORD - 1,
    former::RECORD,
    former::RECORD + 1,
    limits::RECORD - 1,
    limits::RECORD,
    limits::RECORD + 1,
    2 * former::RECORD,
    2 * limits::RECORD,
];

/// Edges that are enough for every list of `list_lengths`.
pub const LISTED: usize = limits::SIDE + 1;

/// Lists of these lengths, and what an old caller has: one region, two, and as many as are whole records of today. These are read as such.
pub fn list_lengths() -> Vec<Vec<u16>> {
    let good = Input::good(0).records;
    let mut lists: Vec<Vec<u16>> = LENGTHS.iter().map(|&length| good[..length].to_vec()).collect();
    for regions in [1, 2, limits::SIDE] {
        lists.extend([0, u16::MAX].map(|rest| former::row(regions, rest)));
    }
    // Regions without an edge.
    lists.push(vec![0; limits::SIDE * former::RECORD]);
    lists
}

fn lengths() -> Cases {
    let mut cases = Vec::new();
    for records in list_lengths() {
        cases.push(stored::solve(records.clone(), vec![0.75; LISTED], lent(LISTED), SEARCH)?);
        cases.push(stored::round(records.clone(), vec![0.75; LISTED], vec![2; LISTED], 100)?);
        cases.push(stored::hold(records, vec![2; LISTED])?);
    }
    Ok(cases)
}

/// What a number of `NUMBERS` on a side of region 1 is refused with: 3 names both.
pub fn set_number(number: u32, side: usize) -> Refusal {
    match number {
        3 => Refusal { number, first: 1, second: side as u32 },
        _ => Refusal::plain(number),
    }
}

/// The search limit of a round: 0, few, at its highest value and one above; 30 regions in a row make a search of 31 entries.
fn search_limits() -> Cases {
    let mut cases = Vec::new();
    let ideals = vec![2.5; 31];
    for limit in [0, 1, 2, 29, 30, 31, 32, 99_999, 100_000, 100_001, u32::MAX] {
        cases.push(stored::round(row(30), ideals.clone(), vec![0; 31], limit)?);
        cases.push(stored::round(row(30), ideals.clone(), vec![7; 31], limit)?);
        cases.push(stored::round(Vec::new(), Vec::new(), Vec::new(), limit)?);
    }
    Ok(cases)
}

/// Counts at 1,000,000, one below and one above, with moves up and down from there.
fn count_limits() -> Cases {
    let mut cases = Vec::new();
    for count in [0, 1, 999_999, 1_000_000, 1_000_001, u32::MAX] {
        for ideal in [0.5, 999_999.0, 1_000_003.0, 1e300] {
            let counts = vec![count; 4];
            let ideals = vec![ideal; 4];
            let records = record([&[0, 1], &[], &[2], &[]]);
            cases.push(stored::round(records.clone(), ideals.clone(), counts.clone(), 50)?);
            cases.push(stored::energy(counts.clone(), ideals)?);
            cases.push(stored::hold(records, counts)?);
        }
    }
    Ok(cases)
}

/// Lent counts that are longer or shorter than the ideals.
fn buffers() -> Cases {
    let mut cases = Vec::new();
    for length in [0, 1, 6, 7, 8, 9, 12, 255, 256, 257, 300] {
        let input = Input::good(0);
        cases.push(stored::solve(input.records.clone(), input.ideals.clone(), lent(length), SEARCH)?);
        cases.push(stored::round(input.records, input.ideals.clone(), vec![1; length], 100)?);
        cases.push(stored::energy(vec![1; length], input.ideals)?);
    }
    // 7 zeroes the needed part alone.
    cases.push(stored::solve(Vec::new(), vec![200_001.0], lent(3), SEARCH)?);
    Ok(cases)
}

// ------------------------------------------------------------------------------------------------------------------------------------
// Random input, by a fixed seed
// ------------------------------------------------------------------------------------------------------------------------------------

/// Small records of random edges, most of which break one of the rules 3 to 6.
pub fn careless(dice: &mut Dice) -> Farm {
    let edges = 3 + dice.below(9);
    let mut regions = Vec::new();
    for _ in 0..1 + dice.below(3) {
        let mut side = || -> Vec<u16> { (0..dice.pick(&[0, 0, 1, 1, 2])).map(|_| dice.below(edges + 1) as u16).collect() };
        let sides = [side(), side(), side(), side()];
        regions.extend(record(lists(&sides)));
    }
    Farm { regions, edges: edges as usize }
}

fn random_records() -> Cases {
    let mut dice = Dice(0x5EED_0001);
    let mut cases = Vec::new();
    for _ in 0..150 {
        let Farm { regions, edges } = careless(&mut dice);
        let ideals = dice.ideals(edges);
        let counts = dice.counts(edges, 4);
        let limit = dice.pick(&[0, 1, 2, 3, 5, 100]);
        cases.push(stored::round(regions.clone(), ideals.clone(), counts.clone(), limit)?);
        cases.push(stored::solve(regions.clone(), ideals, lent(edges), SEARCH)?);
        cases.push(stored::hold(regions, counts)?);
    }
    Ok(cases)
}

/// A field of rows, each cut into regions at its own places.
pub fn field(dice: &mut Dice, rows: usize, columns: u32) -> Farm {
    farm::cut_rows(rows, columns, || dice.below(2) == 0)
}

/// Fields with rounds from unbalanced counts under many limits, and their solves.
fn farms() -> Cases {
    let mut dice = Dice(0x5EED_0002);
    let mut cases = Vec::new();
    for (rows, columns) in [(1, 1), (1, 4), (2, 2), (2, 3), (3, 3), (2, 5), (3, 4), (4, 3), (3, 5), (5, 2)] {
        for _ in 0..4 {
            let field = field(&mut dice, rows, columns);
            let ideals = dice.ideals(field.edges);
            cases.push(stored::solve(field.regions.clone(), ideals.clone(), lent(field.edges + 2), SEARCH)?);
            for limit in [1, 7, 60, 777, 100_000] {
                let counts = dice.counts(field.edges, 6);
                cases.push(stored::round(field.regions.clone(), ideals.clone(), counts, limit)?);
            }
            let counts = dice.counts(field.edges, 3);
            cases.push(stored::hold(field.regions, counts.clone())?);
            cases.push(stored::energy(counts, ideals)?);
        }
    }
    Ok(cases)
}

/// Lists of rounds with each round's own ideals and limit, among them ideals too few or too many, bad ones and limits too large.
fn lists_of_rounds() -> Cases {
    let mut dice = Dice(0x5EED_0003);
    let mut cases = Vec::new();
    for (rows, columns) in [(1, 1), (1, 3), (2, 2), (2, 3), (3, 3), (2, 4), (4, 2), (3, 4)] {
        let field = field(&mut dice, rows, columns);
        let counts = dice.counts(field.edges, 5);
        let calls = (0..24).map(|_| call(&mut dice, field.edges)).collect();
        cases.push(stored::rounds(field.regions, counts, calls)?);
    }
    // A free edge that a round takes to 1,000,001: from there on every round is refused with 9.
    let calls = (0..5).map(|_| (vec![2e6, 0.5].into(), Some(3))).collect();
    cases.push(stored::rounds(Vec::new(), vec![999_999, 1], calls)?);
    let calls = vec![(vec![].into(), Some(0)), (vec![1.0].into(), Some(0)), (vec![].into(), Some(100_001))];
    cases.push(stored::rounds(Vec::new(), Vec::new(), calls)?);
    cases.push(stored::rounds(row(3), vec![1; 4], Vec::new())?);
    Ok(cases)
}

fn call(dice: &mut Dice, edges: usize) -> (Spacing, Option<u32>) {
    let mut ideals = dice.ideals(edges);
    match dice.below(12) {
        0 => ideals.push(1.0),
        1 => ideals.truncate(edges - 1),
        2 => ideals[edges / 2] = 0.0,
        _ => {}
    }
    (ideals.into(), Some(dice.pick(&[0, 3, 20, 500, 500, 100_000, 100_001])))
}

/// Ideals from the least to nearly the largest f64, on free edges and in a field.
fn extreme_ideals() -> Cases {
    let scale = [5e-324, 2.2250738585072014e-308, 1e-200, 1e-154, 1e-9, 0.5, 1.0, 3.0, 1e5, 1e9, 1e17, 1e154, 1e300, f64::MAX];
    let mut dice = Dice(0x5EED_0004);
    let mut cases = Vec::new();
    for ideal in scale {
        for count in [0, 1, 2, 3, 1_000_000] {
            cases.push(stored::round(Vec::new(), vec![ideal], vec![count], 1)?);
            cases.push(stored::energy(vec![count; 3], vec![ideal; 3])?);
        }
        if ideal <= 1e4 {
            cases.push(stored::solve(Vec::new(), vec![ideal; 2], lent(2), SEARCH)?);
        }
    }
    for _ in 0..24 {
        let field = field(&mut dice, 2, 3);
        let ideals: Vec<f64> = (0..field.edges).map(|_| dice.pick(&scale)).collect();
        let counts = dice.counts(field.edges, 4);
        cases.push(stored::round(field.regions.clone(), ideals.clone(), counts.clone(), 1000)?);
        cases.push(stored::energy(counts, ideals)?);
        let small: Vec<f64> = (0..field.edges).map(|_| dice.pick(&scale[..8])).collect();
        cases.push(stored::solve(field.regions, small, lent(field.edges), SEARCH)?);
    }
    Ok(cases)
}

/// Shapes that a search can get wrong, with their edges: empty sides, one side alone, loops, an edge on neighbouring sides, edges of no
/// region.
pub fn odd_shapes() -> Vec<(Vec<u16>, usize)> {
    let loop_of_two = [record([&[0], &[], &[1], &[]]), record([&[1], &[], &[0], &[]])].concat();
    let ring = (0..6u16).flat_map(|i| record([&[i], &[], &[(i + 1) % 6], &[]])).collect();
    let turned_ring = (0..5u16).flat_map(|i| record([&[i, (i + 1) % 5], &[], &[], &[]])).collect();
    vec![
        (record([&[], &[], &[], &[]]), 2),
        (record([&[0], &[], &[], &[]]), 1),
        (record([&[0, 1, 2], &[], &[], &[3]]), 5),
        (record([&[0], &[0], &[1], &[2]]), 3),
        (record([&[0, 1], &[0, 2], &[3], &[4, 5]]), 7),
        (loop_of_two, 3),
        (ring, 6),
        (turned_ring, 5),
        (record([&[0, 1, 2, 3], &[], &[4, 5], &[]]), 6),
    ]
}

fn shapes() -> Cases {
    let mut dice = Dice(0x5EED_0005);
    let mut cases = Vec::new();
    for (records, edges) in odd_shapes() {
        for limit in [0, 1, 2, 3, 4, 6, 100] {
            let (ideals, counts) = (dice.ideals(edges), dice.counts(edges, 4));
            cases.push(stored::round(records.clone(), ideals.clone(), counts.clone(), limit)?);
            cases.push(stored::hold(records.clone(), counts)?);
            cases.push(stored::solve(records.clone(), ideals, lent(edges + 1), SEARCH)?);
        }
    }
    Ok(cases)
}
