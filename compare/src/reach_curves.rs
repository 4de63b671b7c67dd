//! A module inside both Rusts, the published one (`blended` in the crate) and the one whose curves end on their stones (`stones`), so that
//! the private parts of their geometry can be named here. It adds no rule of its own.

use super::*;

pub use super::{coons_curves, BoundaryCurves};

/// `ArcCurve::new`, for its refusals.
pub fn check_curve(points: &[[f64; 2]]) -> Result<(), String> {
    ArcCurve::new(points).map(|_| ())
}

pub fn at(points: &[[f64; 2]], parameter: f64) -> Result<[f64; 2], String> {
    ArcCurve::new(points)?.at(parameter)
}

pub fn intersection(a: f64, b: f64, c: f64, d: f64) -> Result<(f64, f64), String> {
    logical_intersection(a, b, c, d)
}

/// A mesh as flat lists: x, y, z of each point, four indices of each cell.
pub fn flat_mesh(mesh: &Mesh) -> (Vec<f64>, Vec<usize>) {
    let points = mesh.points.iter().flatten().copied().collect();
    let cells = mesh.cells.iter().flat_map(|cell| cell.nodes.iter().copied()).collect();
    (points, cells)
}
