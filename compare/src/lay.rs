//! Lay, which the Rust does not have: the seams of one region by 01's own words and 02's (item 2), and 01's tests before them. The grid on
//! these seams is the Rust's `coons_from_parameters`. So the refusals here are 01's, also where they name places.

use crate::geometry::{check_curves, Flat, Seams};
use crate::limits;
use crate::refusal::{refused, Stop};
use crate::solver;

/// What lay is called with; breaks and curves by side number.
#[derive(Clone, Debug)]
pub struct Region {
    pub record: Vec<u16>,
    pub counts: Vec<u32>,
    pub breaks: [Vec<f64>; 4],
    pub curves: [Flat; 4],
}

/// 02, item 2: "From now on a side pair that is empty on both sides means one cell across: its seams are 0 and 1, and its breaks are not
/// read, so 27 is not tested there. One empty side opposite a side with edges is treated as before." Empty is a side that lists no edge;
/// the counts of the edges that it lists do not matter.
///
/// Whether this side is of such a pair, by the edges of the four sides: 0 and 2 are opposite, and 1 and 3.
fn is_unmarked(sides: &[Vec<usize>; 4], side: usize) -> bool {
    sides[side].is_empty() && sides[(side + 2) % 4].is_empty()
}

/// Of each side of a record, whether its breaks are not read; of a record that lay refuses by 1, none.
pub fn unread(record: &[u16]) -> [bool; 4] {
    match solver::sides(record) {
        Ok(sides) if record.len() == limits::RECORD => std::array::from_fn(|side| is_unmarked(&sides, side)),
        _ => [false; 4],
    }
}

/// The seams of the region, or the first of 01's tests that it fails: "Lay: 1 (record, counts, curves), 3, 27 (each over sides 0 to 3),
/// 1 for a seam too long".
pub fn seams(region: &Region) -> Result<Seams, Stop> {
    if region.record.len() != limits::RECORD {
        return Err(Stop::Undecided(1));
    }
    let sides = solver::sides(&region.record)?;
    if region.counts.len() > limits::EDGES {
        return Err(Stop::Undecided(1));
    }
    check_curves(&region.curves)?;
    for (side, edges) in (0..).zip(&sides) {
        if edges.iter().any(|&edge| edge >= region.counts.len()) {
            return Err(refused(3, 0, side));
        }
    }
    for (side, edges) in sides.iter().enumerate() {
        if !is_unmarked(&sides, side) && region.breaks[side].len() != edges.len() + 1 {
            return Err(refused(27, side as u32, 0));
        }
    }
    let along = sides.each_ref().map(|edges| -> Vec<u32> { edges.iter().map(|&edge| region.counts[edge]).collect() });
    let too_long = |counts: &Vec<u32>| counts.iter().map(|&count| u64::from(count)).sum::<u64>() >= limits::SEAM as u64;
    if along.iter().any(too_long) {
        return Err(Stop::Undecided(1));
    }
    let seam = |side: usize| if is_unmarked(&sides, side) { vec![0.0, 1.0] } else { seam(&region.breaks[side], &along[side]) };
    Ok(Seams { bottom: seam(0), right: seam(1), top: seam(2), left: seam(3) })
}

/// "Edge i with count n gives b(i) + (b(i+1) - b(i))·(j/n) for j from 0 to n-1; last stands b(k)."
fn seam(breaks: &[f64], counts: &[u32]) -> Vec<f64> {
    let mut values = Vec::new();
    for (ends, &count) in breaks.windows(2).zip(counts) {
        values.extend((0..count).map(|j| ends[0] + (ends[1] - ends[0]) * (f64::from(j) / f64::from(count))));
    }
    values.extend(breaks.last());
    values
}
