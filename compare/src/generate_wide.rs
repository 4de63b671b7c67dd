//! Cases of sides with many edges, more than a record had places for before 02's item 9: in fields of as many regions and edges as there
//! may be, with faults in the last place, with sums over 32 bits.

use crate::dice::Dice;
use crate::farm::{self, lists, record, Farm};
use crate::former;
use crate::generate::{expected, lent, Cases};
use crate::limits::{self, SEARCH};
use crate::refusal::Refusal;
use crate::stored::{self, Case, Rounds, Spacing};

pub fn all() -> Cases {
    Ok([wide_sides()?, spoiled_places()?, wide_sums()?].concat())
}

/// Edges of a side: one more than there were places before, one less than there are, and as many.
pub const WIDE: [usize; 3] = [former::PLACES as usize + 1, limits::SIDE_EDGES - 1, limits::SIDE_EDGES];

/// A field with such sides.
pub struct Wide {
    pub farm: Farm,
    /// Limits of rounds on it: around the entries up to the first reading or of a whole search, and others.
    pub limits: Vec<u32>,
    /// Ideals of a solve that stays short; none where a search has too many ways on for that.
    pub ideals: Option<Vec<f64>>,
}

pub fn wide_fields() -> Vec<Wide> {
    let mut fields = vec![long_stack(), flanked()];
    for edges in WIDE {
        fields.extend([full_stack(edges), three_lines(edges), four_wide_sides(edges), between_rows(edges)]);
    }
    fields
}

/// Lines of so many edges one above the other, and a region between two: the lower line is its bottom, the upper one its top.
pub fn stack(lines: &[usize]) -> Farm {
    let ends = lines.iter().scan(0, |edges, line| {
        *edges += line;
        Some(*edges)
    });
    let lines: Vec<Vec<u16>> = ends.zip(lines).map(|(end, line)| (end - line..end).map(|edge| edge as u16).collect()).collect();
    let regions = lines.windows(2).flat_map(|pair| record([&pair[0], &[], &pair[1], &[]])).collect();
    Farm { regions, edges: lines.concat().len() }
}

/// Each side's edges on the next side.
fn rotated(mut farm: Farm) -> Farm {
    farm.regions.chunks_exact_mut(limits::RECORD).for_each(|record| record.rotate_right(limits::SIDE));
    farm
}

/// Ideals of which one in `every` is not below 1/2: a move with no such edge gains nothing.
pub fn sparse(edges: usize, every: usize) -> Vec<f64> {
    (1..=edges).map(|edge| if edge % every == 0 { [1.0, 1.5, 2.0][edge % 3] } else { 0.45 }).collect()
}

/// As many regions as there may be, and as many edges: lines of one edge but for four, two of which lie next to each other. The edges that
/// are left are on no side.
fn long_stack() -> Wide {
    let mut lines = vec![1; limits::REGIONS + 1];
    let middle = limits::REGIONS / 2;
    for (line, edges) in [0, middle, middle + 1, limits::REGIONS].into_iter().zip(WIDE.into_iter().cycle()) {
        lines[line] = edges;
    }
    let farm = Farm { edges: limits::EDGES, ..stack(&lines) };
    // A reading has an edge of each line.
    let reading = lines.len() as u32;
    Wide { farm, limits: vec![1, reading - 1, reading, reading + 40, 700], ideals: None }
}

/// As many regions as there may be, one above the other; three have many edges on the right against one on the left.
fn flanked() -> Wide {
    let mut farm = stack(&[1; limits::REGIONS + 1]);
    let mut ideals = vec![1.5; farm.edges];
    for (region, edges) in [0, limits::REGIONS / 2, limits::REGIONS - 1].into_iter().zip(WIDE) {
        let left = farm.edges as u16;
        let right: Vec<u16> = (left + 1..=left + edges as u16).collect();
        let sides = record([&[region as u16], &right, &[region as u16 + 1], &[left]]);
        farm.regions[region * limits::RECORD..][..limits::RECORD].copy_from_slice(&sides);
        farm.edges += 1 + edges;
        ideals.push(3.0);
        ideals.extend(sparse(edges, 9));
    }
    let reading = limits::REGIONS as u32 + 1;
    Wide { farm, limits: vec![limits::SIDE_EDGES as u32, reading - 1, reading], ideals: Some(ideals) }
}

/// Lines of so many edges, as many as there may be.
fn full_stack(edges: usize) -> Wide {
    let lines = limits::EDGES / edges;
    let (reading, line) = (lines as u32, edges as u32);
    Wide { farm: stack(&vec![edges; lines]), limits: vec![1, reading, reading + line, 2 * line, 600], ideals: None }
}

/// Two regions side by side, three upright lines.
fn three_lines(edges: usize) -> Wide {
    let farm = rotated(stack(&[edges; 3]));
    let (line, ideals) = (edges as u32, sparse(farm.edges, 19));
    // From an outer line: itself, each edge of the middle one with all behind it, the others of its own.
    let entries = 1 + line * (1 + line) + line - 1;
    Wide { farm, limits: vec![2, 2 * line, entries - 1, entries], ideals: Some(ideals) }
}

/// Regions with many edges on all four sides that share none, as many as there may be.
fn four_wide_sides(edges: usize) -> Wide {
    let number = limits::EDGES / (4 * edges);
    let region = |number: usize| {
        let side = |side: usize| -> Vec<u16> { (0..edges).map(|edge| ((4 * number + side) * edges + edge) as u16).collect() };
        record(lists(&[side(0), side(1), side(2), side(3)]))
    };
    let farm = Farm { regions: (0..number).flat_map(region).collect(), edges: 4 * number * edges };
    // A search has an entry for each edge of the two sides.
    let entries = 2 * edges as u32;
    let ideals = sparse(farm.edges, 7);
    Wide { farm, limits: vec![entries - 1, entries, entries + 1], ideals: Some(ideals) }
}

/// A region between two rows of as many as it has edges at the bottom and at the top.
fn between_rows(edges: usize) -> Wide {
    let cut: Vec<u32> = (0..=edges as u32).collect();
    let farm = farm::rows(&[cut.clone(), vec![0, edges as u32], cut]);
    // Four level lines, and then the upright ones.
    let mut ideals = sparse(4 * edges, 5);
    ideals.resize(farm.edges, 0.75);
    // From a level line: itself, the edge above it, all others of that region, each with the one behind it.
    let entries = 4 * edges as u32;
    Wide { farm, limits: vec![edges as u32, entries - 1, entries], ideals: Some(ideals) }
}

/// Rounds, lists of rounds and solves on these fields.
pub fn wide(dice: &mut Dice, wanted: fn(Vec<f64>) -> Spacing) -> Cases {
    let mut cases = Vec::new();
    for Wide { farm: Farm { regions, edges }, limits, ideals } in wide_fields() {
        for &limit in &limits {
            // No count is 0, so that both signs have all ways on. In a long reading most edges want more.
            let counts = dice.counts(edges, 3).iter().map(|count| count + 1).collect();
            let more = if ideals.is_none() { 2.0 } else { 0.0 };
            let any = dice.ideals(edges).iter().map(|ideal| ideal + more).collect();
            cases.push(stored::round(regions.clone(), wanted(any), counts, limit)?);
        }
        let few = ideals.clone().unwrap_or_else(|| dice.ideals(edges));
        let calls = limits.iter().map(|&limit| (wanted(few.clone()), Some(limit.min(200)))).collect();
        cases.push(stored::rounds(regions.clone(), vec![0; edges], calls)?);
        if let Some(ideals) = ideals {
            cases.push(stored::solve(regions, wanted(ideals), lent(edges), SEARCH)?);
        }
    }
    Ok(cases)
}

fn wide_sides() -> Cases {
    let mut cases = wide(&mut Dice(0x5EED_0006), Spacing::Ideals)?;
    cases.extend(balanced_or_not(&cases)?);
    Ok(cases)
}

/// Whether the sides add up: as lists of rounds from 0 have left them, and with another count in the last place of a wide side.
fn balanced_or_not(cases: &[Case]) -> Cases {
    let mut sums = Vec::new();
    for case in cases {
        if let Case::Rounds(Rounds { records, steps, .. }) = case {
            let mut counts = steps.last().map(|step| step.after.clone()).unwrap_or_default();
            sums.push(stored::hold(records.clone(), counts.clone())?);
            counts[last_of_wide(records)] += 1;
            sums.push(stored::hold(records.clone(), counts)?);
        }
    }
    Ok(sums)
}

/// The last edge of the first wide side.
fn last_of_wide(records: &[u16]) -> usize {
    let wide = records.chunks_exact(limits::SIDE).find(|side| side[0] > former::PLACES);
    wide.map_or(0, |side| side[usize::from(side[0])].into())
}

/// Two regions one above the other with a fault in the last place of a wide side, how many edges there are, and the refusal.
pub fn last_places() -> Vec<(Vec<u16>, usize, Refusal)> {
    let mut spoiled = Vec::new();
    for edges in WIDE {
        let Farm { regions, edges: number } = stack(&[edges; 3]);
        let line = edges as u16;
        // An edge that there is not, one that stands in the first place, one of the opposite side.
        for (edge, refusal) in [(number as u16, 3), (0, 4), (line, 5)] {
            let mut regions = regions.clone();
            regions[edges] = edge;
            spoiled.push((regions, number, Refusal::plain(refusal)));
        }
        // The last edge of the middle line, which is in two constraints, once more on the right.
        let mut regions = regions;
        let last = 2 * line - 1;
        regions[limits::SIDE..limits::SIDE + 2].copy_from_slice(&[1, last]);
        spoiled.push((regions, number, Refusal { number: 6, first: last.into(), second: 0 }));
    }
    spoiled
}

fn spoiled_places() -> Cases {
    let mut cases = Vec::new();
    for (regions, edges, refusal) in last_places() {
        cases.push(expected(stored::round(regions.clone(), vec![1.5; edges], vec![1; edges], 100)?, refusal)?);
        cases.push(expected(stored::solve(regions.clone(), vec![1.5; edges], lent(edges), SEARCH)?, refusal)?);
        cases.push(stored::hold(regions, vec![1; edges])?);
    }
    Ok(cases)
}

/// Sides that add up to more than 32 bits: to the same, to others, and to the same in 32 bits alone.
fn wide_sums() -> Cases {
    let mut cases = Vec::new();
    for edges in [former::PLACES.into(), limits::SIDE_EDGES] {
        let Farm { regions, .. } = stack(&[edges; 2]);
        let mut counts = vec![u32::MAX; 2 * edges];
        cases.push(stored::hold(regions.clone(), counts.clone())?);
        counts[2 * edges - 1] -= 1;
        cases.push(stored::hold(regions, counts)?);
        let Farm { regions, .. } = stack(&[edges, 1]);
        // So many times a count is just 2^32.
        for count in [u32::MAX / edges as u32 + 1, u32::MAX] {
            let same_in_32_bits = count.wrapping_mul(edges as u32);
            let counts = [vec![count; edges], vec![same_in_32_bits]].concat();
            cases.push(stored::hold(regions.clone(), counts)?);
        }
    }
    Ok(cases)
}
