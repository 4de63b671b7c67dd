//! All short inputs of some kinds.

use super::Sink;
use crate::farm::record;
use crate::generate_strips::odd_breaks;
use crate::grids::needed;
use crate::lay;
use crate::limits::SEARCH;
use crate::together::call::{Call, Sides, Spacing, Step, LENT_NUMBER};

pub fn all(sink: Sink) -> Result<(), String> {
    one_region(sink)?;
    two_regions(sink)?;
    energies(sink)?;
    ranges_of_free_edges(sink)?;
    ranges_of_one_side(sink)?;
    lattice_loops(sink)?;
    lattice_curves(sink)?;
    middle_values(sink)?;
    short_seams(sink)?;
    lays(sink)?;
    strips(sink)?;
    roots(sink)
}

/// All lists of up to `most` values.
fn lists<T: Copy>(values: &[T], most: usize) -> Vec<Vec<T>> {
    let mut all = vec![vec![]];
    let mut last = all.clone();
    for _ in 0..most {
        last = last.iter().flat_map(|list| values.iter().map(move |&value| [list.as_slice(), &[value]].concat())).collect();
        all.extend(last.iter().cloned());
    }
    all
}

/// All lists of just `length` values.
fn tuples<T: Copy>(values: &[T], length: usize) -> Vec<Vec<T>> {
    lists(values, length).into_iter().filter(|list| list.len() == length).collect()
}

const IDEALS: [[f64; 3]; 2] = [[1.0, 1.0, 1.0], [2.0, 0.75, 1.5]];

/// Above the ideals, for ranges from them up: one edge with equal ends, one with a range in which no whole number lies.
const MOSTS: [[f64; 3]; 2] = [[3.0, 1.0, 1.25], [2.25, 0.875, 4.0]];

/// One region, each side with up to two of three edges (and an edge that there is not): solve, a round, hold.
fn one_region(sink: Sink) -> Result<(), String> {
    let sides = lists(&[0u16, 1, 2], 2);
    for (index, bottom) in sides.iter().enumerate() {
        for right in &sides {
            for top in &sides {
                for left in &sides {
                    farm(sink, &record([bottom, right, top, left]), index % 2)?;
                }
            }
        }
    }
    for one in tuples(&[0u16, 2, 3, 4], 4) {
        farm(sink, &record([&[one[0]], &[one[1]], &[one[2]], &[one[3]]]), 0)?;
    }
    Ok(())
}

/// Two regions, each side with up to one of three edges.
fn two_regions(sink: Sink) -> Result<(), String> {
    let sides = lists(&[0u16, 1, 2], 1);
    let mut regions = Vec::new();
    for four in tuples(&[0usize, 1, 2, 3], 4) {
        regions.push(record(std::array::from_fn(|side| &sides[four[side]][..])));
    }
    for (index, first) in regions.iter().enumerate() {
        for second in &regions {
            farm(sink, &[first.as_slice(), second].concat(), index % 2)?;
        }
    }
    Ok(())
}

/// Solves by three limits, lists of rounds of each kind and of both, hold.
fn farm(sink: Sink, regions: &[u16], kind: usize) -> Result<(), String> {
    let (ideals, most) = (IDEALS[kind].to_vec(), MOSTS[kind].to_vec());
    let spacings = [Spacing::Ideals(ideals.clone()), Spacing::Within { least: ideals, most }];
    for spacing in &spacings {
        for limit in [None, Some(2), Some(SEARCH)] {
            sink(Call::Solve { regions: regions.to_vec(), spacing: spacing.clone(), counts: vec![LENT_NUMBER; 3], limit })?;
        }
        let steps = [2, 100].map(|limit| Step::new(spacing.clone(), limit)).to_vec();
        sink(Call::Rounds { regions: regions.to_vec(), counts: vec![1, 0, 2], steps })?;
    }
    let mixed = [1, 0, 1].map(|kind: usize| Step::new(spacings[kind].clone(), 4)).to_vec();
    sink(Call::Rounds { regions: regions.to_vec(), counts: vec![3, 1, 0], steps: mixed })?;
    sink(Call::Hold { regions: regions.to_vec(), counts: vec![1, 2, 1] })
}

/// Energies of up to two edges, and rounds of up to two free edges.
fn energies(sink: Sink) -> Result<(), String> {
    let counts = lists(&[0, 1, 2, 1_000_000, 1_000_001, u32::MAX], 2);
    let ideals = lists(&[1.0, 0.5, 5e-324, f64::MAX, 1e-154, 0.0, -0.0, -1.0, f64::NAN, f64::INFINITY], 2);
    for counts in &counts {
        for ideals in &ideals {
            sink(Call::Energy { counts: counts.clone(), ideals: ideals.clone() })?;
            for limit in [None, Some(0), Some(1), Some(SEARCH + 1)] {
                sink(Call::Round { regions: vec![], counts: counts.clone(), step: Step::new(ideals.clone(), limit) })?;
            }
        }
    }
    Ok(())
}

/// Every choice of both ends: of one free edge from many values, of up to two (also of unequal length) from few.
fn ranges_of_free_edges(sink: Sink) -> Result<(), String> {
    let values = [5e-324, 1e-154, 0.5, 1.0, 1.0f64.next_up(), 2.2, 2.8, 3.0, 1e17, f64::MAX, 0.0, -0.0, -1.0, f64::NAN, f64::INFINITY];
    for ends in tuples(&values, 2) {
        let spacing = Spacing::Within { least: vec![ends[0]], most: vec![ends[1]] };
        for count in [0, 1, 2, 3, 4, 999_999, 1_000_000, 1_000_001] {
            for limit in [None, Some(0), Some(1), Some(SEARCH + 1)] {
                sink(Call::Round { regions: vec![], counts: vec![count], step: Step::new(spacing.clone(), limit) })?;
            }
        }
    }
    let few = lists(&[0.5, 1.0, 2.2, 5e-324, 0.0, f64::NAN], 2);
    let counts = lists(&[0, 2, 1_000_001], 2);
    for least in &few {
        for most in &few {
            let spacing = Spacing::Within { least: least.clone(), most: most.clone() };
            for counts in &counts {
                sink(Call::Round { regions: vec![], counts: counts.clone(), step: Step::new(spacing.clone(), 1) })?;
            }
            for length in 0..4 {
                for limit in [None, Some(0), Some(SEARCH), Some(SEARCH + 1)] {
                    sink(Call::Solve { regions: vec![], spacing: spacing.clone(), counts: vec![LENT_NUMBER; length], limit })?;
                }
            }
        }
    }
    Ok(())
}

/// Two edges on one side against one: every choice of six ends from a few, all counts up to 2.
fn ranges_of_one_side(sink: Sink) -> Result<(), String> {
    let regions = record([&[0, 1], &[], &[2], &[]]);
    let ends = [(1.0, 1.0), (0.75, 2.0), (1.5, 1.75), (2.0, 5.0)];
    for three in tuples(&ends, 3) {
        let (least, most): (Vec<f64>, Vec<f64>) = three.into_iter().unzip();
        let spacing = Spacing::Within { least, most };
        for limit in [2, 3, 4, SEARCH].map(Some) {
            sink(Call::Solve { regions: regions.clone(), spacing: spacing.clone(), counts: vec![LENT_NUMBER; 3], limit })?;
        }
        for counts in tuples(&[0, 1, 2], 3) {
            for limit in [2, 3, 4] {
                sink(Call::Round { regions: regions.clone(), counts: counts.clone(), step: Step::new(spacing.clone(), limit) })?;
            }
        }
    }
    Ok(())
}

fn lattice() -> Vec<[f64; 2]> {
    (0..9).map(|k| [f64::from(k % 3), f64::from(k / 3)]).collect()
}

/// All loops of four points on a lattice of 3 by 3, by 1, 2 and 3 cells.
fn lattice_loops(sink: Sink) -> Result<(), String> {
    for points in tuples(&lattice(), 4) {
        let boundary = points.concat();
        for cells in [[1, 1], [2, 3]] {
            let [out, points, indices] = needed(cells[0] as usize, cells[1] as usize);
            sink(Call::Checked { boundary: boundary.clone(), cells, out })?;
            sink(Call::Mesh { boundary: boundary.clone(), cells, points, indices })?;
        }
    }
    Ok(())
}

/// The unit square with one inner point on each of two neighbouring curves, anywhere on a lattice of 3 by 3.
fn lattice_curves(sink: Sink) -> Result<(), String> {
    let corners = [[0.0, 0.0], [2.0, 0.0], [2.0, 2.0], [0.0, 2.0]];
    for inner in tuples(&lattice(), 2) {
        for first in 0..4 {
            let curves: Sides = std::array::from_fn(|k| {
                let middle = inner.iter().zip([first, (first + 1) % 4]).filter(|(_, side)| *side == k).map(|(point, _)| *point);
                let ends = [corners[k], corners[(k + 1) % 4]];
                [vec![ends[0]], middle.collect(), vec![ends[1]]].concat().concat()
            });
            sink(Call::Curves { curves: curves.clone(), cells: [2, 2], out: 32 })?;
            sink(Call::MeshCurves { curves, cells: [3, 2], points: 36, indices: 24 })?;
        }
    }
    Ok(())
}

fn square() -> Sides {
    [vec![0.0, 0.0, 1.0, 0.0], vec![1.0, 0.0, 1.0, 1.0], vec![1.0, 1.0, 0.0, 1.0], vec![0.0, 1.0, 0.0, 0.0]]
}

/// Seams of three values with every choice of the four middle ones.
fn middle_values(sink: Sink) -> Result<(), String> {
    let values = [0.0, 0.25, 0.5, 0.75, 1.0, -1e-12, 1.0 + 1e-9, f64::NAN];
    for middle in tuples(&values, 4) {
        let seams: Sides = std::array::from_fn(|side| vec![0.0, middle[side], 1.0]);
        sink(Call::FromParameters { curves: square(), seams, out: 32 })?;
    }
    Ok(())
}

/// Opposite seams of up to three values, every choice of both.
fn short_seams(sink: Sink) -> Result<(), String> {
    let all = lists(&[0.0, 0.5, 1.0, 1.0 - 1e-9], 3);
    for first in &all {
        for second in &all {
            let straight = vec![0.0, 1.0];
            let across = [first.clone(), straight.clone(), second.clone(), straight.clone()];
            let up = [straight.clone(), first.clone(), straight, second.clone()];
            for seams in [across, up] {
                sink(Call::FromParameters { curves: square(), seams, out: 16 })?;
            }
        }
    }
    Ok(())
}

/// Bottom and top with up to two edges, right and left with one; counts 0 to 2, and breaks at 0, 1/2, 1.
fn lays(sink: Sink) -> Result<(), String> {
    let sides: [Vec<u16>; 5] = [vec![], vec![0], vec![1], vec![0, 1], vec![2, 2]];
    let breaks: [Vec<f64>; 4] = [vec![0.0], vec![0.0, 1.0], vec![0.0, 0.5, 1.0], vec![0.5, 0.0, 1.0]];
    for counts in tuples(&[0, 1, 2], 3) {
        for bottom in &sides {
            for top in &sides {
                for of_bottom in &breaks {
                    for of_top in &breaks {
                        let record = record([bottom, &[1], top, &[1]]);
                        let breaks = [of_bottom.clone(), vec![0.0, 1.0], of_top.clone(), vec![0.0, 1.0]];
                        sink(Call::Lay { record, counts: counts.clone(), breaks, curves: square(), out: 64 })?;
                    }
                }
            }
        }
    }
    Ok(())
}

/// Each side with no edge, one or two, of counts 0 to 2, and with up to three breaks, in every combination: these lead from 0 to 1, or are
/// not read and would not pass.
fn strips(sink: Sink) -> Result<(), String> {
    let sides: [[&[u16]; 3]; 2] = [[&[], &[0], &[0, 1]], [&[], &[1], &[1, 0]]];
    let read: [&[f64]; 4] = [&[], &[0.0], &[0.0, 1.0], &[0.0, 0.5, 1.0]];
    for edges in tuples(&[0usize, 1, 2], 4) {
        let record = record(std::array::from_fn(|side| sides[side / 2][edges[side]]));
        let unread = lay::unread(&record);
        for lengths in tuples(&[0usize, 1, 2, 3], 4) {
            let breaks: Sides = std::array::from_fn(|side| match lengths[side] {
                length if unread[side] => odd_breaks(length),
                length => read[length].to_vec(),
            });
            for counts in tuples(&[0, 1, 2], 2) {
                sink(Call::Lay { record: record.clone(), counts, breaks: breaks.clone(), curves: square(), out: 40 })?;
            }
        }
    }
    Ok(())
}

/// At each exponent and sign, fractions at both ends, in the middle, and all with one bit; small squares and what lies beside them.
fn roots(sink: Sink) -> Result<(), String> {
    let top = (1u64 << 52) - 1;
    let single = (0..52).map(|bit| 1u64 << bit);
    let fractions: Vec<u64> = [0, 2, 3, top, top - 1, top - 2, top >> 1, (top >> 1) + 2, 0x6_A09E_667F_3BCC, 0x6_A09E_667F_3BCD]
        .into_iter()
        .chain(single)
        .collect();
    for exponent in 0..2048u64 {
        for fraction in &fractions {
            for sign in [0, 1] {
                sink(Call::Root { x: f64::from_bits(sign << 63 | exponent << 52 | fraction) })?;
            }
        }
    }
    for n in 0..20_000u32 {
        let square = f64::from(n) * f64::from(n) * 0.25;
        for offset in [u64::MAX, 0, 1] {
            sink(Call::Root { x: f64::from_bits(square.to_bits().wrapping_add(offset)) })?;
        }
    }
    Ok(())
}
