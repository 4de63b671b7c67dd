//! The operations of root, curves, grid and mesh. Refusal 1 comes first in 01's order and is not the Rust's; the rest is. Curves, grids and
//! meshes are asked of the Rust whose curves end on their stones (02, item 12), crossings of the unchanged one.

use crate::blended;
use crate::limits;
use crate::mesh::Mesh;
use crate::refusal::{of_curve, of_geometry, refused, unknown, Stop};
use crate::simons_qgp_stones;
use crate::stones::{self, BoundaryCurves};

/// Points as x, y in turn.
pub type Flat = Vec<f64>;

/// The quads of a grid as x, y in turn, eight values a quad.
pub struct Grid {
    pub quads: usize,
    pub values: Vec<f64>,
}

pub struct Tile {
    pub quads: usize,
    pub points: Vec<f64>,
    pub cells: Vec<usize>,
}

/// The four seams, in 01's order of tests.
#[derive(Clone, Debug)]
pub struct Seams {
    pub bottom: Vec<f64>,
    pub top: Vec<f64>,
    pub left: Vec<f64>,
    pub right: Vec<f64>,
}

pub fn root(x: f64) -> Result<f64, Stop> {
    if x.is_nan() || x < 0.0 {
        return Err(Stop::Undecided(28));
    }
    Ok(x.sqrt())
}

fn points(values: &[f64], most: usize) -> Result<Vec<[f64; 2]>, Stop> {
    if !values.len().is_multiple_of(2) || values.len() > 2 * most {
        return Err(Stop::Undecided(1));
    }
    Ok(values.chunks_exact(2).map(|pair| [pair[0], pair[1]]).collect())
}

/// Four curves by side number: bottom, right, top, left; or refusal 1.
pub fn curves(flat: &[Flat; 4]) -> Result<BoundaryCurves, Stop> {
    let curve = |side: usize| points(&flat[side], limits::CURVE_POINTS);
    Ok(BoundaryCurves { bottom: curve(0)?, right: curve(1)?, top: curve(2)?, left: curve(3)? })
}

/// Refusal 1 of the curves.
pub fn check_curves(flat: &[Flat; 4]) -> Result<(), Stop> {
    curves(flat).map(|_| ())
}

fn check_cells(n_u: u32, n_v: u32) -> Result<(), Stop> {
    if n_u > limits::CELLS || n_v > limits::CELLS {
        return Err(Stop::Undecided(1));
    }
    Ok(())
}

pub fn at(curve: &Flat, parameter: f64) -> Result<[f64; 2], Stop> {
    let points = points(curve, limits::CURVE_POINTS)?;
    stones::check_curve(&points).map_err(|m| of_curve(&m, 0))?;
    stones::at(&points, parameter).map_err(|m| unknown(&m))
}

pub fn intersection(a: f64, b: f64, c: f64, d: f64) -> Result<(f64, f64), Stop> {
    blended::intersection(a, b, c, d).map_err(|m| crossing(&m, 0, 0))
}

fn crossing(message: &str, i: u32, j: u32) -> Stop {
    if message.contains("parallel") {
        refused(23, i, j)
    } else if message.contains("cross outside") {
        refused(24, i, j)
    } else {
        unknown(message)
    }
}

/// The refusal of a grid on these curves. The message of a curve that is refused does not name it: it is the first that is.
fn of_grid(message: &str, curves: &BoundaryCurves) -> Stop {
    if message.contains("boundary curve ") {
        let sides = [&curves.bottom, &curves.right, &curves.top, &curves.left];
        let first = (0..).zip(sides).find_map(|(side, curve)| stones::check_curve(curve).err().map(|m| of_curve(&m, side)));
        return first.unwrap_or_else(|| unknown(message));
    }
    of_geometry(message)
}

/// The first crossing that is refused, row by row from the bottom.
fn first_crossing(seams: &Seams) -> Option<Stop> {
    for (j, (&a, &b)) in (0..).zip(seams.left.iter().zip(&seams.right)) {
        for (i, (&c, &d)) in (0..).zip(seams.bottom.iter().zip(&seams.top)) {
            if let Err(message) = blended::intersection(a, b, c, d) {
                return Some(crossing(&message, i, j));
            }
        }
    }
    None
}

fn grid(quads: Vec<[[f64; 2]; 4]>) -> Grid {
    Grid { quads: quads.len(), values: quads.into_iter().flatten().flatten().collect() }
}

fn tile(mesh: &Mesh) -> Tile {
    let (points, cells) = stones::flat_mesh(mesh);
    Tile { quads: mesh.cells.len(), points, cells }
}

pub fn coons_from_parameters(flat: &[Flat; 4], seams: &Seams) -> Result<Grid, Stop> {
    let curves = curves(flat)?;
    let lists = [&seams.bottom, &seams.top, &seams.left, &seams.right];
    if lists.iter().any(|seam| seam.len() > limits::SEAM) {
        return Err(Stop::Undecided(1));
    }
    simons_qgp_stones::coons_from_parameters(&curves, &seams.bottom, &seams.top, &seams.left, &seams.right).map(grid).map_err(|m| {
        if m.contains("logical grid lines") {
            first_crossing(seams).unwrap_or_else(|| unknown(&m))
        } else {
            of_grid(&m, &curves)
        }
    })
}

pub fn coons_curves(flat: &[Flat; 4], n_u: u32, n_v: u32) -> Result<Grid, Stop> {
    let curves = curves(flat)?;
    check_cells(n_u, n_v)?;
    simons_qgp_stones::coons_curves(&curves, n_u as usize, n_v as usize).map(grid).map_err(|m| of_grid(&m, &curves))
}

pub fn mesh_tile_curves(flat: &[Flat; 4], n_u: u32, n_v: u32) -> Result<Tile, Stop> {
    let curves = curves(flat)?;
    check_cells(n_u, n_v)?;
    simons_qgp_stones::mesh_tile_curves(&curves, n_u as usize, n_v as usize).map(|m| tile(&m)).map_err(|m| of_grid(&m, &curves))
}

/// The curves of a loop, for the place of a refusal; a loop that is itself refused has none, and needs none.
fn loop_curves(points: &[[f64; 2]]) -> BoundaryCurves {
    BoundaryCurves::from_loop(points).unwrap_or_default()
}

pub fn coons_checked(flat: &Flat, n_u: u32, n_v: u32) -> Result<Grid, Stop> {
    let points = points(flat, limits::LOOP_POINTS)?;
    check_cells(n_u, n_v)?;
    simons_qgp_stones::coons_checked(&points, n_u as usize, n_v as usize).map(grid).map_err(|m| of_grid(&m, &loop_curves(&points)))
}

pub fn mesh_tile(flat: &Flat, n_u: u32, n_v: u32) -> Result<Tile, Stop> {
    let points = points(flat, limits::LOOP_POINTS)?;
    check_cells(n_u, n_v)?;
    simons_qgp_stones::mesh_tile(&points, n_u as usize, n_v as usize).map(|m| tile(&m)).map_err(|m| of_grid(&m, &loop_curves(&points)))
}
