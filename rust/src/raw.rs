//! The functions of the archive with a `Result`: what they tell, or the refusal.

use crate::archive::{self, Answer, BySide, Ends, SearchLimit};
use crate::refusal::Refusal;
use crate::version::check_version;

/// What a call stores, or the refusal. `places` picks the two places out of what it stores.
fn called<T>(mut stored: T, call: impl FnOnce(&mut T) -> u32, places: impl FnOnce(&T) -> [u32; 2]) -> Result<T, Refusal> {
    check_version()?;
    let number = call(&mut stored);
    let [first, second] = places(&stored);
    Refusal::unless_accepted(number, first, second)?;
    Ok(stored)
}

/// The third of the numbers told, or the refusal.
fn told(call: impl FnOnce(Answer) -> u32) -> Result<u32, Refusal> {
    let [_, _, value] = called([0; 3], call, |answer| [answer[0], answer[1]])?;
    Ok(value)
}

/// The number of moves.
pub fn solve_counts(regions: &[u16], ideals: &[f64], counts: &mut [u32], limit: SearchLimit) -> Result<u32, Refusal> {
    told(|answer| archive::solve_counts(regions, ideals, counts, limit, answer))
}

pub fn solve_counts_within(regions: &[u16], ends: Ends, counts: &mut [u32], limit: SearchLimit) -> Result<u32, Refusal> {
    told(|answer| archive::solve_counts_within(regions, ends, counts, limit, answer))
}

/// The cost of the move, if one was made, and whether a search was cut.
pub type Made = (Option<f64>, bool);

fn made(call: impl FnOnce(&mut [u32; 4], &mut [f64; 1]) -> u32) -> Result<Made, Refusal> {
    let stored = called(([0; 4], [0.0]), |(answer, cost)| call(answer, cost), |(answer, _)| [answer[0], answer[1]])?;
    let ([_, _, moved, cut], [cost]) = stored;
    Ok(((moved == 1).then_some(cost), cut == 1))
}

pub fn round(regions: &[u16], ideals: &[f64], counts: &mut [u32], limit: SearchLimit) -> Result<Made, Refusal> {
    made(|answer, cost| archive::round(regions, ideals, counts, limit, answer, cost))
}

pub fn round_within(regions: &[u16], ends: Ends, counts: &mut [u32], limit: SearchLimit) -> Result<Made, Refusal> {
    made(|answer, cost| archive::round_within(regions, ends, counts, limit, answer, cost))
}

pub fn energy(counts: &[u32], ideals: &[f64]) -> Result<f64, Refusal> {
    let call = |(answer, sum): &mut ([u32; 2], [f64; 1])| archive::energy(counts, ideals, answer, sum);
    let (_, [sum]) = called(([0; 2], [0.0]), call, |(answer, _)| *answer)?;
    Ok(sum)
}

pub fn constraints_hold(regions: &[u16], counts: &[u32]) -> Result<bool, Refusal> {
    Ok(told(|answer| archive::constraints_hold(regions, counts, answer))? == 1)
}

pub fn root(x: f64) -> Result<f64, Refusal> {
    let [root] = called([0.0], |root| archive::root(x, root), |_| [0, 0])?;
    Ok(root)
}

/// The number of quads, as of all below.
pub fn coons_from_parameters(curves: BySide, seams: BySide, out: &mut [f64]) -> Result<u32, Refusal> {
    told(|answer| archive::coons_from_parameters(curves, seams, out, answer))
}

pub fn coons_curves(curves: BySide, cells: [u32; 2], out: &mut [f64]) -> Result<u32, Refusal> {
    told(|answer| archive::coons_curves(curves, cells, out, answer))
}

pub fn lay_region(region: &[u16], counts: &[u32], breaks: BySide, curves: BySide, out: &mut [f64]) -> Result<u32, Refusal> {
    told(|answer| archive::lay_region(region, counts, breaks, curves, out, answer))
}

pub fn coons_checked(boundary: &[f64], cells: [u32; 2], out: &mut [f64]) -> Result<u32, Refusal> {
    told(|answer| archive::coons_checked(boundary, cells, out, answer))
}

pub fn mesh_tile_curves(curves: BySide, cells: [u32; 2], points: &mut [f64], indices: &mut [u32]) -> Result<u32, Refusal> {
    told(|answer| archive::mesh_tile_curves(curves, cells, points, indices, answer))
}

pub fn mesh_tile(boundary: &[f64], cells: [u32; 2], points: &mut [f64], indices: &mut [u32]) -> Result<u32, Refusal> {
    told(|answer| archive::mesh_tile(boundary, cells, points, indices, answer))
}
