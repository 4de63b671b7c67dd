//! Stored cases of the root, of grids and of meshes. The Rust lends no outputs: 11, and what is written when a call is refused, are 01's.
//! What an output holds before a call is a rule of the replay (README.md), so a case has only its length, and what is written to its start.

use crate::geometry::{self, Flat, Seams};
use crate::lay;
use crate::refusal::{refused, Refusal, Stop};
use crate::stored::{settled, Case};

#[derive(Clone, Debug)]
pub struct Root {
    pub x: f64,
    pub answer: Result<f64, Refusal>,
}

/// A tile's boundary: four curves by side number, or one loop.
#[derive(Clone, Debug)]
pub enum Boundary {
    Curves([Flat; 4]),
    Loop(Flat),
}

/// What a grid is made from.
#[derive(Clone, Debug)]
pub enum Source {
    Parameters([Flat; 4], Seams),
    Even(Boundary, u32, u32),
    Lay(lay::Region),
}

/// A grid of quads: the length of its output, the number of quads, and what is written.
#[derive(Clone, Debug)]
pub struct Grid {
    pub source: Source,
    pub lent: usize,
    pub answer: Result<u32, Refusal>,
    pub written: Vec<f64>,
}

/// What is written to the two outputs of a mesh.
#[derive(Clone, Debug, Default)]
pub struct Written {
    pub points: Vec<f64>,
    pub cells: Vec<u32>,
}

#[derive(Clone, Debug)]
pub struct Tile {
    pub boundary: Boundary,
    pub n_u: u32,
    pub n_v: u32,
    pub lent_points: usize,
    pub lent_cells: usize,
    pub answer: Result<u32, Refusal>,
    pub written: Written,
}

impl Grid {
    pub fn operation(&self) -> &'static str {
        match &self.source {
            Source::Parameters(..) => "coons_from_parameters",
            Source::Even(Boundary::Curves(_), ..) => "coons_curves",
            Source::Even(Boundary::Loop(_), ..) => "coons_checked",
            Source::Lay(_) => "lay",
        }
    }
}

impl Tile {
    pub fn operation(&self) -> &'static str {
        match &self.boundary {
            Boundary::Curves(_) => "mesh_tile_curves",
            Boundary::Loop(_) => "mesh_tile",
        }
    }
}

pub fn root(x: f64) -> Result<Case, String> {
    Ok(Case::Root(Root { x, answer: settled(geometry::root(x), &[])? }))
}

/// How many values n_u by n_v cells need in a grid's output, a mesh's points and its point indices.
pub fn needed(n_u: usize, n_v: usize) -> [usize; 3] {
    let points = n_u.saturating_add(1).saturating_mul(n_v.saturating_add(1));
    let quads = n_u.saturating_mul(n_v);
    [quads.saturating_mul(8), points.saturating_mul(3), quads.saturating_mul(4)]
}

fn seam_cells(seams: &Seams) -> (usize, usize) {
    (seams.bottom.len().saturating_sub(1), seams.left.len().saturating_sub(1))
}

/// The oracle's answer, and the numbers of cells, which count once the tests before 11 have passed.
fn ask(source: &Source) -> (Result<geometry::Grid, Stop>, (usize, usize)) {
    let on_seams = |curves, seams| (geometry::coons_from_parameters(curves, seams), seam_cells(seams));
    match source {
        Source::Parameters(curves, seams) => on_seams(curves, seams),
        Source::Even(boundary, n_u, n_v) => {
            let answer = match boundary {
                Boundary::Curves(curves) => geometry::coons_curves(curves, *n_u, *n_v),
                Boundary::Loop(points) => geometry::coons_checked(points, *n_u, *n_v),
            };
            (answer, (*n_u as usize, *n_v as usize))
        }
        Source::Lay(region) => match lay::seams(region) {
            Ok(seams) => on_seams(&region.curves, &seams),
            Err(stop) => (Err(stop), (0, 0)),
        },
    }
}

/// Whether a refusal leaves zeros in the needed output: 23 to 25, the only ones behind 11 in 01's order.
pub fn zeroes(refusal: &Refusal) -> bool {
    (23..=25).contains(&refusal.number)
}

/// The answer with 11 in its place.
fn with_room<T>(answer: Result<T, Stop>, room: bool) -> Result<T, Stop> {
    match answer {
        Err(Stop::Refused(refusal)) if !zeroes(&refusal) => Err(Stop::Refused(refusal)),
        Ok(_) | Err(Stop::Refused(_)) if !room => Err(refused(11, 0, 0)),
        other => other,
    }
}

fn quads(quads: usize) -> Result<u32, String> {
    u32::try_from(quads).map_err(|_| format!("{quads} quads are over 32 bits"))
}

pub fn grid(source: Source, lent: usize) -> Result<Case, String> {
    let (answer, (n_u, n_v)) = ask(&source);
    let [needed, ..] = needed(n_u, n_v);
    let (answer, written) = match settled(with_room(answer, needed <= lent), &[])? {
        Ok(grid) => (Ok(quads(grid.quads)?), grid.values),
        Err(refusal) if zeroes(&refusal) => (Err(refusal), vec![0.0; needed]),
        Err(refusal) => (Err(refusal), Vec::new()),
    };
    Ok(Case::Grid(Grid { source, lent, answer, written }))
}

pub fn tile(boundary: Boundary, n_u: u32, n_v: u32, lent_points: usize, lent_cells: usize) -> Result<Case, String> {
    let answer = match &boundary {
        Boundary::Curves(curves) => geometry::mesh_tile_curves(curves, n_u, n_v),
        Boundary::Loop(points) => geometry::mesh_tile(points, n_u, n_v),
    };
    let [_, points, cells] = needed(n_u as usize, n_v as usize);
    let room = points <= lent_points && cells <= lent_cells;
    let (answer, written) = match settled(with_room(answer, room), &[])? {
        Ok(tile) => (Ok(quads(tile.quads)?), Written { points: tile.points, cells: indices(&tile.cells)? }),
        Err(refusal) if zeroes(&refusal) => (Err(refusal), Written { points: vec![0.0; points], cells: vec![0; cells] }),
        Err(refusal) => (Err(refusal), Written::default()),
    };
    Ok(Case::Tile(Tile { boundary, n_u, n_v, lent_points, lent_cells, answer, written }))
}

fn indices(points: &[usize]) -> Result<Vec<u32>, String> {
    points.iter().map(|&point| u32::try_from(point).map_err(|_| format!("point {point} is over 32 bits"))).collect()
}
