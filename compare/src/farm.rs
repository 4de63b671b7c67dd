//! Farms made of rows of regions. Each row has its own cuts; where a cut of one row meets a region of the next is a T-junction.

use crate::limits::{RECORD, SIDE};

pub struct Farm {
    pub regions: Vec<u16>,
    pub edges: usize,
}

/// A record; the places past a side's number of edges hold what would be out of range.
pub fn record(sides: [&[u16]; 4]) -> Vec<u16> {
    let mut numbers = Vec::new();
    for side in sides {
        numbers.push(side.len() as u16);
        numbers.extend(side);
        numbers.resize(numbers.len().next_multiple_of(SIDE), u16::MAX);
    }
    numbers
}

/// Records of which some pairs of opposite sides, as `emptied` says of each, list no edge any more, so that their regions are strips. What
/// stood in their places stays there. A list that is accepted stays so: each edge stands in as many constraints as before, or in fewer.
pub fn without_pairs(regions: &[u16], mut emptied: impl FnMut() -> bool) -> Vec<u16> {
    let mut strips = regions.to_vec();
    for region in strips.chunks_exact_mut(RECORD) {
        for side in [0, 1] {
            if emptied() {
                region[side * SIDE] = 0;
                region[(side + 2) * SIDE] = 0;
            }
        }
    }
    strips
}

/// Four lists, lent.
pub fn lists<T>(four: &[Vec<T>; 4]) -> [&[T]; 4] {
    four.each_ref().map(Vec::as_slice)
}

/// Rows from the bottom, each with its cuts from left to right, both ends among them.
pub fn rows(cuts: &[Vec<u32>]) -> Farm {
    let mut edges = 0;
    let mut fresh = |number: usize| -> Vec<u16> {
        edges += number;
        (edges - number..edges).map(|edge| edge as u16).collect()
    };
    let lines: Vec<Vec<u32>> = (0..=cuts.len()).map(|line| line_cuts(cuts, line)).collect();
    let level: Vec<Vec<u16>> = lines.iter().map(|line| fresh(line.len() - 1)).collect();
    let upright: Vec<Vec<u16>> = cuts.iter().map(|row| fresh(row.len())).collect();
    let between = |line: usize, from: u32, to: u32| -> &[u16] {
        let place = |cut: u32| lines[line].partition_point(|&other| other < cut);
        &level[line][place(from)..place(to)]
    };
    let mut regions = Vec::new();
    for (row, row_cuts) in cuts.iter().enumerate() {
        for (index, ends) in row_cuts.windows(2).enumerate() {
            let (bottom, top) = (between(row, ends[0], ends[1]), between(row + 1, ends[0], ends[1]));
            regions.extend(record([bottom, &[upright[row][index + 1]], top, &[upright[row][index]]]));
        }
    }
    Farm { regions, edges }
}

/// Rows of so many columns, each cut between those columns that `cut` says.
pub fn cut_rows(number: usize, columns: u32, mut cut: impl FnMut() -> bool) -> Farm {
    let row = |_| std::iter::once(0).chain((1..columns).filter(|_| cut())).chain([columns]).collect();
    rows(&(0..number).map(row).collect::<Vec<_>>())
}

/// A line between two rows is cut where either row is.
fn line_cuts(cuts: &[Vec<u32>], line: usize) -> Vec<u32> {
    let mut all: Vec<u32> = cuts[line.saturating_sub(1)..cuts.len().min(line + 1)].concat();
    all.sort_unstable();
    all.dedup();
    all
}

/// `rows` by `columns` regions, no T-junction.
pub fn grid(columns: u32, rows_up: usize) -> Farm {
    rows(&vec![(0..=columns).collect(); rows_up])
}

/// Every second row is moved by half a region, with half a region at both ends.
pub fn brick_wall(columns: u32, rows_up: usize) -> Farm {
    let straight: Vec<u32> = (0..=columns).map(|column| 2 * column).collect();
    let moved: Vec<u32> = std::iter::once(0).chain((0..columns).map(|column| 2 * column + 1)).chain([2 * columns]).collect();
    rows(&(0..rows_up).map(|row| if row % 2 == 0 { straight.clone() } else { moved.clone() }).collect::<Vec<_>>())
}
