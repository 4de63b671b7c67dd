//! The limits of the library, and which of them a call exceeds.
//!
//! The archive answers 1 for all of them and names no place. What stands here looks, once a call is refused, for the limit that the caller is to
//! be told, and decides nothing; but for [`of_loop`] in `from_loop`, and [`of_counts`] for counts that the archive cannot be lent.

use crate::archive::BySide;
use crate::solver::Region;
use std::fmt;

/// How many edges a side may have.
pub(crate) const PLACES: usize = 32;
const MAX_REGIONS: usize = 128;
const MAX_EDGES: usize = 256;
const MAX_POINTS: usize = 1024;
const MAX_LOOP: usize = 4096;
const MAX_SEAM: usize = 1025;
pub(crate) const MAX_CELLS: usize = 1024;
const MAX_COUNT: usize = u32::MAX as usize;

/// A limit that a call exceeded, and was refused by 1. [`SearchLimit`](crate::SearchLimit) is none of these: it has 10.
#[derive(Clone, Copy, Debug, PartialEq, Eq, Hash)]
#[non_exhaustive]
pub struct Limit {
    /// What there was too much of.
    pub of: Limited,
    /// How much the call had; of what is counted together at most `usize::MAX`.
    pub given: u64,
    /// How much it may have.
    pub most: u64,
}

/// What is limited. Sides, curves and seams are numbered bottom 0, right 1, top 2, left 3.
#[derive(Clone, Copy, Debug, PartialEq, Eq, Hash)]
#[non_exhaustive]
pub enum Limited {
    /// Regions, 128.
    Regions,
    /// Ideals, ranges or counts: one for each edge, 256.
    Edges,
    /// Edges on a side of a region, 32; lay has one region, number 0.
    EdgesOnSide {
        /// The region.
        region: u32,
        /// The side.
        side: u32,
    },
    /// Points of a curve, 1,024.
    CurvePoints {
        /// The curve.
        curve: u32,
    },
    /// Points of a loop, 4,096.
    LoopPoints,
    /// Values of a seam, 1,025.
    SeamValues {
        /// The seam.
        seam: u32,
    },
    /// Cells along the bottom, `n_u`, or along the left, `n_v`, 1,024.
    Cells,
    /// What the counts of a side add up to, in lay, 1,024.
    Pieces {
        /// The side.
        side: u32,
    },
    /// A count, for [`constraints_hold`](crate::constraints_hold) alone, 4,294,967,295.
    Count {
        /// The edge.
        edge: u32,
    },
}

pub(crate) fn side(number: u32) -> &'static str {
    match number {
        0 => "bottom",
        1 => "right",
        2 => "top",
        _ => "left",
    }
}

impl fmt::Display for Limit {
    fn fmt(&self, f: &mut fmt::Formatter<'_>) -> fmt::Result {
        let given = self.given;
        match self.of {
            Limited::Regions => write!(f, "there are {given} regions")?,
            Limited::Edges => write!(f, "there are {given} edges (ideals, ranges or counts)")?,
            Limited::EdgesOnSide { region, side: s } => write!(f, "region {region}, side {s} ({}) has {given} edges", side(s))?,
            Limited::CurvePoints { curve } => write!(f, "curve {curve} ({}) has {given} points", side(curve))?,
            Limited::LoopPoints => write!(f, "the loop has {given} points")?,
            Limited::SeamValues { seam } => write!(f, "seam {seam} ({}) has {given} values", side(seam))?,
            Limited::Cells => write!(f, "there are {given} cells along a side")?,
            Limited::Pieces { side: s } => write!(f, "the counts of side {s} ({}) add up to {given}", side(s))?,
            Limited::Count { edge } => write!(f, "edge {edge} has the count {given}")?,
        }
        write!(f, ", and {} is the most", self.most)
    }
}

impl Limited {
    /// What a caller can do about it.
    pub(crate) fn remedy(&self) -> &'static str {
        match self {
            Limited::Regions | Limited::Edges => "join tiles, or leave out a part of the farm that shares no edge with the rest",
            Limited::EdgesOnSide { .. } => "cut the tile in two",
            Limited::CurvePoints { .. } | Limited::LoopPoints => "leave out points",
            Limited::SeamValues { .. } | Limited::Cells | Limited::Pieces { .. } => "cut the tile in two, or set pegs farther apart",
            Limited::Count { .. } => "mend it",
        }
    }
}

/// Some limit, if there is more than it allows.
fn over(of: Limited, given: usize, most: usize) -> Option<Limit> {
    (given > most).then_some(Limit { of, given: given as u64, most: most as u64 })
}

fn by_side<T>(sides: &[T; 4], exceeded: impl Fn(u32, &T) -> Option<Limit>) -> Option<Limit> {
    sides.iter().zip(0..).find_map(|(one, number)| exceeded(number, one))
}

fn region(region: &Region, number: u32) -> Option<Limit> {
    by_side(&region.sides, |side, edges| over(Limited::EdgesOnSide { region: number, side }, edges.len(), PLACES))
}

/// The limits of the solver; `edges` has the length of each list with an entry for each edge.
pub(crate) fn of_regions(regions: &[Region], edges: &[usize]) -> Option<Limit> {
    over(Limited::Regions, regions.len(), MAX_REGIONS)
        .or_else(|| edges.iter().find_map(|&given| over(Limited::Edges, given, MAX_EDGES)))
        .or_else(|| regions.iter().zip(0..).find_map(|(one, number)| region(one, number)))
}

/// The first count that does not fit into 32 bits.
pub(crate) fn of_counts(counts: &[usize]) -> Option<Limit> {
    counts.iter().zip(0..).find_map(|(&count, edge)| over(Limited::Count { edge }, count, MAX_COUNT))
}

/// Curves as the archive reads them, x, y in turn.
pub(crate) fn of_curves(curves: BySide) -> Option<Limit> {
    by_side(&curves, |curve, list| over(Limited::CurvePoints { curve }, list.len() / 2, MAX_POINTS))
}

pub(crate) fn of_seams(seams: BySide) -> Option<Limit> {
    by_side(&seams, |seam, values| over(Limited::SeamValues { seam }, values.len(), MAX_SEAM))
}

pub(crate) fn of_cells(n_u: usize, n_v: usize) -> Option<Limit> {
    over(Limited::Cells, n_u, MAX_CELLS).or_else(|| over(Limited::Cells, n_v, MAX_CELLS))
}

pub(crate) fn of_loop(points: usize) -> Option<Limit> {
    over(Limited::LoopPoints, points, MAX_LOOP)
}

/// Lay's own: its region, its counts, and what these come to on each side.
pub(crate) fn of_lay(tile: &Region, counts: &[usize], curves: BySide) -> Option<Limit> {
    region(tile, 0)
        .or_else(|| over(Limited::Edges, counts.len(), MAX_EDGES))
        .or_else(|| of_curves(curves))
        .or_else(|| (0..4).find_map(|side| over(Limited::Pieces { side }, tile.pieces(side as usize, counts), MAX_CELLS)))
}
