//! Random calls of the solver: farms of rows with T-junctions, regions put together at random, wide sides, damaged ones; by ideals and
//! within ranges.

use crate::farm::{cut_rows, lists, record, rows, Farm};
use crate::former;
use crate::generate::PLACES;
use crate::limits::{RECORD, SEARCH, SIDE};
use crate::together::call::{Call, Spacing, Step, LENT_NUMBER};
use crate::together::random::Random;

pub fn call(random: &mut Random) -> Call {
    if random.chance(128) {
        return wide_call(random);
    }
    let mut farm = farm(random);
    let edges = farm.edges;
    if random.chance(4) {
        damage_records(random, &mut farm.regions, edges);
    }
    let regions = farm.regions;
    match random.below(16) {
        0..=4 => {
            let (spacing, counts) = (solve_spacing(random, edges), lent(random, edges));
            Call::Solve { regions, spacing, counts, limit: limit(random) }
        }
        5..=9 => {
            let counts = counts(random, edges);
            Call::Round { regions, counts, step: step(random, edges) }
        }
        10..=11 => {
            let counts = counts(random, edges);
            let steps = (0..random.within(0, 5)).map(|_| step(random, edges)).collect();
            Call::Rounds { regions, counts, steps }
        }
        12..=13 => {
            let counts = counts(random, edges);
            Call::Energy { counts, ideals: any_ideals(random, edges) }
        }
        _ => Call::Hold { regions, counts: counts(random, edges) },
    }
}

/// A call on wide sides. Searches through them have many ways on, so limits of rounds are low, and in a solve few edges want a count.
fn wide_call(random: &mut Random) -> Call {
    let what = random.below(8);
    let mut farm = if what < 5 { wide_region(random) } else { wide_lines(random) };
    let edges = farm.edges;
    if random.chance(4) {
        damage_records(random, &mut farm.regions, edges);
    }
    let regions = farm.regions;
    match what {
        0 => {
            let (spacing, counts) = (few(random, edges), lent(random, edges));
            Call::Solve { regions, spacing, counts, limit: limit(random) }
        }
        1..=5 => {
            let counts = counts(random, edges);
            Call::Round { regions, counts, step: low_step(random, edges) }
        }
        6 => {
            let counts = counts(random, edges);
            let steps = (0..random.within(1, 3)).map(|_| low_step(random, edges)).collect();
            Call::Rounds { regions, counts, steps }
        }
        _ => Call::Hold { regions, counts: counts(random, edges) },
    }
}

// ------------------------------------------------------------------------------------------------------------------------------------
// Regions
// ------------------------------------------------------------------------------------------------------------------------------------

pub fn farm(random: &mut Random) -> Farm {
    match random.below(64) {
        0 => column(random),
        1..=31 => row_farm(random),
        32..=39 => free_and(random),
        _ => scattered(random),
    }
}

/// A few rows, each with its own cuts.
fn row_farm(random: &mut Random) -> Farm {
    let (most_rows, most_columns) = if random.chance(32) { (4, 4) } else { (2, 3) };
    let columns = random.within(1, most_columns);
    let number = random.within(1, most_rows) as usize;
    cut_rows(number, columns, || random.chance(2))
}

/// Two or three regions above each other with many edges between them.
fn column(random: &mut Random) -> Farm {
    let edges = random.within(4, former::PLACES.into());
    let whole: Vec<u32> = vec![0, edges];
    let cut: Vec<u32> = (0..=edges).collect();
    if random.chance(2) {
        return rows(&[whole, cut]);
    }
    let bottom: Vec<u16> = (0..edges as u16).collect();
    let top: Vec<u16> = (edges as u16..2 * edges as u16).collect();
    Farm { regions: record([&bottom, &[], &top, &[]]), edges: 2 * edges as usize }
}

/// More edges on a side than there were places before, up to as many as there are.
fn wide(random: &mut Random) -> usize {
    random.within(u32::from(former::PLACES) + 1, PLACES.into()) as usize
}

/// This many edges on each of some sides, in any order.
fn dealt(random: &mut Random, sides: &[usize]) -> Vec<Vec<u16>> {
    let mut edges: Vec<u16> = (0..sides.iter().sum::<usize>() as u16).collect();
    for last in (1..edges.len()).rev() {
        edges.swap(last, random.below(last as u32 + 1) as usize);
    }
    sides.iter().map(|&number| edges.drain(..number).collect()).collect()
}

/// One region with one wide side or more, at any place.
fn wide_region(random: &mut Random) -> Farm {
    let mut sides = [(); 4].map(|()| if random.chance(5) { wide(random) } else { random.below(4) as usize });
    sides[random.below(4) as usize] = wide(random);
    let four = dealt(random, &sides);
    Farm { regions: record(std::array::from_fn(|side| &four[side][..])), edges: sides.iter().sum() }
}

/// Regions one above the other or side by side, with wide lines between some of them.
fn wide_lines(random: &mut Random) -> Farm {
    let lines: Vec<usize> =
        (0..random.within(2, 5)).map(|_| if random.chance(3) { wide(random) } else { random.within(1, 3) as usize }).collect();
    let lines = dealt(random, &lines);
    let upright = random.chance(2);
    let region = |pair: &[Vec<u16>]| {
        let [first, second]: [&[u16]; 2] = [&pair[0], &pair[1]];
        if upright {
            record([&[], second, &[], first])
        } else {
            record([first, &[], second, &[]])
        }
    };
    Farm { regions: lines.windows(2).flat_map(region).collect(), edges: lines.concat().len() }
}

/// A small farm of rows with edges that no region has.
fn free_and(random: &mut Random) -> Farm {
    let mut farm = if random.chance(2) { row_farm(random) } else { Farm { regions: Vec::new(), edges: 0 } };
    farm.edges += random.below(4) as usize;
    farm
}

/// Each edge on none, one or two sides, anywhere: loops, empty sides, an edge on neighbouring sides.
fn scattered(random: &mut Random) -> Farm {
    let (most_regions, most_edges) = if random.chance(16) { (6, 14) } else { (3, 7) };
    let number = random.within(1, most_regions) as usize;
    let edges = random.within(1, most_edges) as usize;
    let mut sides: Vec<[Vec<u16>; 4]> = vec![Default::default(); number];
    for edge in 0..edges {
        let mut taken = Vec::new();
        for _ in 0..random.pick(&[0, 1, 1, 2, 2, 2]) {
            let (region, pair) = (random.below(number as u32) as usize, random.below(2) as usize);
            if !taken.contains(&(region, pair)) {
                taken.push((region, pair));
                let side = &mut sides[region][pair + 2 * random.below(2) as usize];
                side.insert(random.below(side.len() as u32 + 1) as usize, edge as u16);
            }
        }
    }
    Farm { regions: sides.iter().flat_map(|four| record(lists(four))).collect(), edges }
}

/// One or two faults in the records.
fn damage_records(random: &mut Random, regions: &mut Vec<u16>, edges: usize) {
    for _ in 0..random.within(1, 2) {
        damage_once(random, regions, edges as u16);
    }
}

fn damage_once(random: &mut Random, regions: &mut Vec<u16>, edges: u16) {
    let sides = (regions.len() / SIDE) as u32;
    if sides == 0 {
        regions.extend((0..random.below(RECORD as u32 + 2)).map(|_| 0));
        return;
    }
    let start = random.below(sides) as usize * SIDE;
    match random.below(8) {
        0 => drop(regions.pop()),
        1 => regions.extend((0..random.within(1, RECORD as u32 + 1)).map(|_| 0)),
        2 => {
            let border = random.pick(&[former::PLACES, PLACES]);
            regions[start] = random.pick(&[0, 1, border - 1, border, border + 1, border + 2, u16::MAX]);
        }
        3 => {
            let place = start + 1 + random.below(regions[start].clamp(3, PLACES).into()) as usize;
            regions[place] = random.pick(&[edges, edges.saturating_sub(1), 255, 256, u16::MAX]);
        }
        4 => {
            // An edge of one side again on another.
            let edge = regions[random.below(sides) as usize * SIDE + 1];
            add(regions, start, edge);
        }
        5 => {
            let edge = regions[start + 1];
            add(regions, start, edge);
        }
        6 => {
            // The same edge on the opposite side.
            let region = start / RECORD * RECORD;
            let opposite = region + (start - region + 2 * SIDE) % RECORD;
            let edge = regions[start + 1];
            add(regions, opposite, edge);
        }
        _ => add(regions, start, random.below(u32::from(edges) + 1) as u16),
    }
}

/// One more edge at the end of a side, if there is the side and room on it.
fn add(regions: &mut [u16], start: usize, edge: u16) {
    let Some(side) = regions.get_mut(start..start + SIDE) else {
        return;
    };
    let number = usize::from(side[0]);
    if number < SIDE - 1 {
        side[0] += 1;
        side[1 + number] = edge;
    }
}

// ------------------------------------------------------------------------------------------------------------------------------------
// Ideals, counts, limits
// ------------------------------------------------------------------------------------------------------------------------------------

#[derive(Clone, Copy)]
enum Ideals {
    /// Quarters: ties are likely.
    Steps,
    Any,
    /// At and beside 1/2, where +1 from 0 costs next to nothing.
    Near,
    /// Below 1, down to the least f64.
    Tiny,
    /// Up to the largest f64; not for a solve, which would make that many moves.
    Huge,
}

fn ideal(random: &mut Random, mode: Ideals) -> f64 {
    match mode {
        Ideals::Steps => f64::from(random.within(1, 16)) * 0.25,
        Ideals::Any => 0.2 + 4.0 * random.unit(),
        Ideals::Near => 0.5 + f64::from(random.below(9)) * 1e-12 - 4e-12,
        Ideals::Tiny => random.pick(&[5e-324, 2.2250738585072014e-308, 1e-200, 1e-154, 1e-100, 1e-9, 0.3, 1.0]),
        Ideals::Huge => random.pick(&[1.0, 1e5, 999_999.5, 1e9, 1e17, 1e154, 1e300, f64::MAX]),
    }
}

/// One in eight lists has a value that is refused, or one value more or less.
fn ideals(random: &mut Random, mode: Ideals, edges: usize) -> Vec<f64> {
    let mut list: Vec<f64> = (0..edges).map(|_| ideal(random, mode)).collect();
    if random.chance(8) {
        match random.below(4) {
            0 => drop(list.pop()),
            1 => list.push(1.0),
            _ if edges > 0 => {
                let bad = random.pick(&[f64::NAN, f64::INFINITY, f64::NEG_INFINITY, 0.0, -0.0, -1.0, -5e-324]);
                list[random.below(edges as u32) as usize] = bad;
            }
            _ => {}
        }
    }
    list
}

fn any_mode(random: &mut Random) -> Ideals {
    random.pick(&[Ideals::Steps, Ideals::Steps, Ideals::Any, Ideals::Near, Ideals::Tiny, Ideals::Huge])
}

fn any_ideals(random: &mut Random, edges: usize) -> Vec<f64> {
    let mode = any_mode(random);
    ideals(random, mode, edges)
}

/// One in two is within ranges.
fn spacing(random: &mut Random, mode: Ideals, edges: usize) -> Spacing {
    if random.chance(2) {
        return Spacing::Ideals(ideals(random, mode, edges));
    }
    let least = ideals(random, mode, edges);
    let kind = random.below(6);
    let mut most: Vec<f64> = least.iter().map(|&least| upper(random, kind, least)).collect();
    if random.chance(12) && !most.is_empty() {
        damage_most(random, &least, &mut most);
    }
    Spacing::Within { least, most }
}

/// Of a solve, which makes as many moves as are wanted.
pub fn solve_spacing(random: &mut Random, edges: usize) -> Spacing {
    let mode = random.pick(&[Ideals::Steps, Ideals::Steps, Ideals::Any, Ideals::Near, Ideals::Tiny]);
    spacing(random, mode, edges)
}

/// Hardly an edge is wanted: at most one in eight gains anything by its first +1.
fn few(random: &mut Random, edges: usize) -> Spacing {
    let wanted = |random: &mut Random| {
        let values: [f64; 3] = if random.chance(8) { [0.75, 1.0, 2.0] } else { [0.25, 0.45, 0.499] };
        random.pick(&values)
    };
    let least: Vec<f64> = (0..edges).map(|_| wanted(random)).collect();
    if random.chance(2) {
        return Spacing::Ideals(least);
    }
    let most = least.iter().map(|&least| if least < 0.5 { least } else { upper(random, 5, least) }).collect();
    Spacing::Within { least, most }
}

/// A most for this least: equal, the next f64, a bit or much higher, anything, of one kind or each of its own.
fn upper(random: &mut Random, kind: u32, least: f64) -> f64 {
    let kind = if kind == 5 { random.below(5) } else { kind };
    match kind {
        0 => least,
        1 => least.next_up().min(f64::MAX),
        2 => least + f64::from(random.below(9)) * 0.25,
        3 => (least * (1.0 + random.unit())).min(f64::MAX),
        _ => least.max(random.pick(&[0.5, 1.0, 2.8, 1e9, f64::MAX])),
    }
}

/// A most that is refused, by itself or as one below its least; or one more or less in the list.
fn damage_most(random: &mut Random, least: &[f64], most: &mut Vec<f64>) {
    let edge = random.below(most.len() as u32) as usize;
    match random.below(6) {
        0 => drop(most.pop()),
        1 => most.push(1.0),
        2 => most[edge] = random.pick(&[f64::NAN, f64::INFINITY, 0.0, -0.0, -1.0]),
        3 => most[edge] = least[edge].next_down(),
        4 => most[edge] = 0.5 * least[edge],
        _ => most.iter_mut().zip(least).for_each(|(most, least)| *most = least - (*most - least)),
    }
}

fn counts(random: &mut Random, edges: usize) -> Vec<u32> {
    let mode = random.below(8);
    let mut list: Vec<u32> = (0..edges)
        .map(|_| match mode {
            0 => 0,
            1..=5 => random.below(5),
            6 => random.within(0, 1),
            _ => {
                let any = random.below(1_000_001);
                random.pick(&[0, 1, 999_999, 1_000_000, any])
            }
        })
        .collect();
    if random.chance(16) {
        match random.below(4) {
            0 => drop(list.pop()),
            1 => list.push(1),
            _ if edges > 0 => list[random.below(edges as u32) as usize] = random.pick(&[1_000_000, 1_000_001, u32::MAX]),
            _ => {}
        }
    }
    list
}

/// Counts lent for output: mostly of the right length.
fn lent(random: &mut Random, edges: usize) -> Vec<u32> {
    let length = match random.below(8) {
        0 => edges.saturating_sub(1),
        1 => edges + random.below(3) as usize,
        2 => random.below(300) as usize,
        _ => edges,
    };
    vec![LENT_NUMBER; length]
}

/// A limit of a solve or a round: often small, one in eight is none.
fn limit(random: &mut Random) -> Option<u32> {
    match random.below(8) {
        0..=3 => Some(random.below(24)),
        4 => Some(random.pick(&[30, 100, 1000])),
        5 => None,
        6 => Some(SEARCH),
        _ => Some(random.pick(&[0, 1, 9_999, 10_000, 10_001, 99_999, 100_000, 100_001, u32::MAX])),
    }
}

pub fn step(random: &mut Random, edges: usize) -> Step {
    let limit = limit(random);
    let mode = any_mode(random);
    Step::new(spacing(random, mode, edges), limit)
}

/// A limit up to about as many edges as two wide sides have.
fn low_step(random: &mut Random, edges: usize) -> Step {
    let limit = random.below(2 * u32::from(PLACES) + 4);
    let mode = any_mode(random);
    Step::new(spacing(random, mode, edges), limit)
}
