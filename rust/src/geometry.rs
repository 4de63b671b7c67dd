//! Curves around a tile, and the grids and meshes between them.

use crate::archive::BySide;
use crate::limit::{self, MAX_CELLS};
use crate::raw;
use crate::refusal::{naming, Refusal, BAD_LOOP, MALFORMED};
use crate::solver::{wide, wide_counts, Region};

/// A point: x and y.
pub type Point = [f64; 2];

/// Four corners, counter-clockwise from the lower left.
pub type Quad = [Point; 4];

/// The four boundary curves of a tile, each a list of 2 to 1,024 points, counter-clockwise around it. Each starts where the one before
/// it ends. A curve begins at its first point and ends at its last, bit for bit.
#[derive(Clone, Debug, Default, PartialEq)]
pub struct BoundaryCurves {
    /// From left to right.
    pub bottom: Vec<Point>,
    /// From bottom to top.
    pub right: Vec<Point>,
    /// From right to left.
    pub top: Vec<Point>,
    /// From top to bottom.
    pub left: Vec<Point>,
}

impl BoundaryCurves {
    /// Straight sides between four corners, counter-clockwise from the lower left. It is plain Rust.
    ///
    /// ```
    /// let field = juplatsk::BoundaryCurves::from_corners([[0.0, 0.0], [4.0, 0.0], [3.0, 2.0], [1.0, 2.0]]);
    /// assert_eq!(field.top, [[3.0, 2.0], [1.0, 2.0]]);
    /// ```
    pub fn from_corners(corners: [Point; 4]) -> BoundaryCurves {
        let [lower_left, lower_right, upper_right, upper_left] = corners;
        BoundaryCurves {
            bottom: vec![lower_left, lower_right],
            right: vec![lower_right, upper_right],
            top: vec![upper_right, upper_left],
            left: vec![upper_left, lower_left],
        }
    }

    /// The four curves of a closed loop: its four corners, or four curves of equally many points, two or more each, one after the other.
    /// A last point equal to the first is dropped, from 5 points up.
    ///
    /// From 8 points on the curves share no points: each corner stands in the loop twice, as the end of a curve and as the start of the next.
    /// If the last curve ends just where the first begins, that point would be dropped, so the first point stands once more behind it. It counts
    /// for the limit of 4,096 points.
    ///
    /// ```
    /// use juplatsk::{BoundaryCurves, Point};
    ///
    /// let mut square: Vec<Point> = vec![[0.0, 0.0], [1.0, 0.0], [1.0, 0.0], [1.0, 1.0], [1.0, 1.0], [0.0, 1.0], [0.0, 1.0], [0.0, 0.0]];
    /// assert_eq!(BoundaryCurves::from_loop(&square).unwrap_err().number, 12);
    /// square.push([0.0, 0.0]);
    /// assert_eq!(BoundaryCurves::from_loop(&square)?.left, [[0.0, 1.0], [0.0, 0.0]]);
    /// # Ok::<(), juplatsk::Refusal>(())
    /// ```
    ///
    /// [`coons_checked`] and [`mesh_tile`] read a loop by themselves; this is for those who want the curves. It is plain Rust.
    ///
    /// Refused by 1 (more than 4,096 points) and 12.
    pub fn from_loop(points: &[Point]) -> Result<BoundaryCurves, Refusal> {
        if let limit @ Some(_) = limit::of_loop(points.len()) {
            return naming(|| limit, Err(Refusal::new(MALFORMED, 0, 0)));
        }
        let used = match points {
            [first, rest @ .., last] if rest.len() >= 3 && first == last => &points[..points.len() - 1],
            _ => points,
        };
        if let &[a, b, c, d] = used {
            return Ok(BoundaryCurves::from_corners([a, b, c, d]));
        }
        if used.len() < 8 || used.len() % 4 != 0 {
            return Err(Refusal::new(BAD_LOOP, 0, 0));
        }
        let (lower, upper) = used.split_at(used.len() / 2);
        let (bottom, right) = lower.split_at(lower.len() / 2);
        let (top, left) = upper.split_at(upper.len() / 2);
        Ok(BoundaryCurves { bottom: bottom.to_vec(), right: right.to_vec(), top: top.to_vec(), left: left.to_vec() })
    }

    fn lists(&self) -> BySide<'_> {
        [self.bottom.as_flattened(), self.right.as_flattened(), self.top.as_flattened(), self.left.as_flattened()]
    }
}

/// Room for what a grid of so many cells writes. Where one number is above its limit the call is refused before it asks for room.
fn cells(n_u: usize, n_v: usize) -> usize {
    if n_u <= MAX_CELLS && n_v <= MAX_CELLS {
        n_u * n_v
    } else {
        0
    }
}

fn quads(room: usize, fill: impl FnOnce(&mut [f64]) -> Result<u32, Refusal>) -> Result<Vec<Quad>, Refusal> {
    let mut quads = vec![[[0.0; 2]; 4]; room];
    let made = fill(quads.as_flattened_mut().as_flattened_mut())?;
    quads.truncate(made as usize);
    Ok(quads)
}

/// The quads between four curves, by the seams of the sides: the `i`-th upright grid line runs from `bottom_u[i]` along the bottom curve to
/// `top_u[i]` along the top one, and the `j`-th level line from `left_v[j]` to `right_v[j]`. Each seam has 2 to 1,025 values that rise
/// from 0 to 1, and opposite ones are equally long. Quads come row by row from the bottom.
///
/// ```
/// use juplatsk::{coons_from_parameters, BoundaryCurves};
///
/// let square = BoundaryCurves::from_corners([[0.0, 0.0], [1.0, 0.0], [1.0, 1.0], [0.0, 1.0]]);
/// let quads = coons_from_parameters(&square, &[0.0, 0.25, 1.0], &[0.0, 0.75, 1.0], &[0.0, 1.0], &[0.0, 1.0])?;
/// assert_eq!(quads[0], [[0.0, 0.0], [0.25, 0.0], [0.75, 1.0], [0.0, 1.0]]);
/// # Ok::<(), juplatsk::Refusal>(())
/// ```
///
/// Refused by 1, 13 to 25.
pub fn coons_from_parameters(
    curves: &BoundaryCurves,
    bottom_u: &[f64],
    top_u: &[f64],
    left_v: &[f64],
    right_v: &[f64],
) -> Result<Vec<Quad>, Refusal> {
    let room = cells(bottom_u.len().saturating_sub(1), left_v.len().saturating_sub(1));
    let seams = [bottom_u, right_v, top_u, left_v];
    let exceeded = || limit::of_curves(curves.lists()).or_else(|| limit::of_seams(seams));
    naming(exceeded, quads(room, |out| raw::coons_from_parameters(curves.lists(), seams, out)))
}

/// The `n_u` by `n_v` quads between four curves, by even seams; each number at most 1,024.
///
/// ```
/// use juplatsk::{coons_curves, BoundaryCurves};
///
/// let field = BoundaryCurves::from_corners([[0.0, 0.0], [4.0, 0.0], [3.0, 2.0], [1.0, 2.0]]);
/// let quads = coons_curves(&field, 2, 2)?;
/// assert_eq!(quads.len(), 4);
/// assert_eq!(quads[3], [[2.0, 1.0], [3.5, 1.0], [3.0, 2.0], [2.0, 2.0]]);
/// # Ok::<(), juplatsk::Refusal>(())
/// ```
///
/// Refused by 1, 26, 13 to 17, 25.
pub fn coons_curves(curves: &BoundaryCurves, n_u: usize, n_v: usize) -> Result<Vec<Quad>, Refusal> {
    let exceeded = || limit::of_curves(curves.lists()).or_else(|| limit::of_cells(n_u, n_v));
    naming(exceeded, quads(cells(n_u, n_v), |out| raw::coons_curves(curves.lists(), [wide(n_u), wide(n_v)], out)))
}

/// [`coons_curves`] of a tile given by a closed loop of points, at most 4,096; [`BoundaryCurves::from_loop`] says which.
///
/// ```
/// let square = [[0.0, 0.0], [1.0, 0.0], [1.0, 1.0], [0.0, 1.0]];
/// assert_eq!(juplatsk::coons_checked(&square, 3, 3)?.len(), 9);
///
/// let clockwise = [[0.0, 0.0], [0.0, 1.0], [1.0, 1.0], [1.0, 0.0]];
/// assert_eq!(juplatsk::coons_checked(&clockwise, 3, 3).unwrap_err().number, 17);
/// # Ok::<(), juplatsk::Refusal>(())
/// ```
///
/// Refused by 1, 12, 26, 14 to 17, 25.
pub fn coons_checked(points: &[Point], n_u: usize, n_v: usize) -> Result<Vec<Quad>, Refusal> {
    let exceeded = || limit::of_cells(n_u, n_v).or_else(|| limit::of_loop(points.len()));
    naming(exceeded, quads(cells(n_u, n_v), |out| raw::coons_checked(points.as_flattened(), [wide(n_u), wide(n_v)], out)))
}

/// The quads of one region by the counts of its edges, as a solve finds them. Edge `i` of a side has the part of the side's curve from
/// break `i` to break `i + 1` and is cut into so many pieces as its count says. `breaks` has for each side one value more than the side has
/// edges, rising from 0 to 1: sides 0 and 2 from left to right, 1 and 3 from bottom to top.
///
/// Where neither of two opposite sides has edges there is one quad across, from 0 to 1, and their breaks are not read: any will do.
///
/// ```
/// use juplatsk::{lay_region, solve_counts, BoundaryCurves, Region};
///
/// // the top side has two edges, which meet at a quarter of its length
/// let region = Region::new([vec![0], vec![1], vec![2, 3], vec![4]]);
/// let counts = solve_counts(&[region.clone()], &[4.0, 1.0, 2.0, 2.0, 1.0])?;
/// let square = BoundaryCurves::from_corners([[0.0, 0.0], [1.0, 0.0], [1.0, 1.0], [0.0, 1.0]]);
/// let quads = lay_region(&region, &counts, [&[0.0, 1.0], &[0.0, 1.0], &[0.0, 0.25, 1.0], &[0.0, 1.0]], &square)?;
/// assert_eq!(quads.len(), 4);
/// assert_eq!(quads[1], [[0.25, 0.0], [0.5, 0.0], [0.25, 1.0], [0.125, 1.0]]);
///
/// // a strip: edges on its long sides, none on its short ones
/// let strip = Region::new([vec![], vec![0], vec![], vec![1]]);
/// let quads = lay_region(&strip, &[2, 2], [&[], &[0.0, 1.0], &[], &[0.0, 1.0]], &square)?;
/// assert_eq!(quads, [[[0.0, 0.0], [1.0, 0.0], [1.0, 0.5], [0.0, 0.5]], [[0.0, 0.5], [1.0, 0.5], [1.0, 1.0], [0.0, 1.0]]]);
/// # Ok::<(), juplatsk::Refusal>(())
/// ```
///
/// Refused by 1, 3, 27, 13 to 25: by 18 where a side has no piece, unless it and the opposite one have no edges, and by 21 also where a side
/// begins with an edge of count 0 that has a length. With counts that a solve found for a list of regions, no region of the list is refused
/// by 22.
pub fn lay_region(region: &Region, counts: &[usize], breaks: [&[f64]; 4], curves: &BoundaryCurves) -> Result<Vec<Quad>, Refusal> {
    let room = cells(region.quads_along(0, counts), region.quads_along(3, counts));
    let exceeded = || limit::of_lay(region, counts, curves.lists());
    naming(exceeded, quads(room, |out| raw::lay_region(&region.record(), &wide_counts(counts), breaks, curves.lists(), out)))
}

/// A cell of a mesh. All are quads.
#[derive(Clone, Debug, PartialEq, Eq)]
pub struct Cell {
    /// Indices of its points in [`Mesh::points`], counter-clockwise from the lower left.
    pub nodes: [usize; 4],
}

/// A grid with shared points.
#[derive(Clone, Debug, Default, PartialEq)]
pub struct Mesh {
    /// x, y and 0 of each point, rows from the bottom.
    pub points: Vec<[f64; 3]>,
    /// The cells, row by row from the bottom.
    pub cells: Vec<Cell>,
}

fn mesh(n_u: usize, n_v: usize, fill: impl FnOnce(&mut [f64], &mut [u32]) -> Result<u32, Refusal>) -> Result<Mesh, Refusal> {
    let room = cells(n_u, n_v);
    let mut points = vec![[0.0; 3]; if room == 0 { 0 } else { (n_u + 1) * (n_v + 1) }];
    let mut indices = vec![[0; 4]; room];
    fill(points.as_flattened_mut(), indices.as_flattened_mut())?;
    let cells = indices.iter().map(|cell| Cell { nodes: cell.map(|i| i as usize) }).collect();
    Ok(Mesh { points, cells })
}

/// The mesh of the `n_u` by `n_v` grid between four curves.
///
/// ```
/// use juplatsk::{mesh_tile_curves, BoundaryCurves};
///
/// let square = BoundaryCurves::from_corners([[0.0, 0.0], [1.0, 0.0], [1.0, 1.0], [0.0, 1.0]]);
/// let mesh = mesh_tile_curves(&square, 2, 1)?;
/// assert_eq!(mesh.points.len(), 6);
/// assert_eq!(mesh.cells[1].nodes, [1, 2, 5, 4]);
/// # Ok::<(), juplatsk::Refusal>(())
/// ```
///
/// Refused as [`coons_curves`].
pub fn mesh_tile_curves(curves: &BoundaryCurves, n_u: usize, n_v: usize) -> Result<Mesh, Refusal> {
    let exceeded = || limit::of_curves(curves.lists()).or_else(|| limit::of_cells(n_u, n_v));
    naming(exceeded, mesh(n_u, n_v, |points, cells| raw::mesh_tile_curves(curves.lists(), [wide(n_u), wide(n_v)], points, cells)))
}

/// [`mesh_tile_curves`] of a tile given by a closed loop of points, as [`coons_checked`] reads it.
///
/// ```
/// let mesh = juplatsk::mesh_tile(&[[0.0, 0.0], [2.0, 0.0], [2.0, 1.0], [0.0, 1.0]], 2, 2)?;
/// assert_eq!(mesh.points[4], [1.0, 0.5, 0.0]);
/// # Ok::<(), juplatsk::Refusal>(())
/// ```
///
/// Refused as [`coons_checked`].
pub fn mesh_tile(points: &[Point], n_u: usize, n_v: usize) -> Result<Mesh, Refusal> {
    let boundary = points.as_flattened();
    let exceeded = || limit::of_cells(n_u, n_v).or_else(|| limit::of_loop(points.len()));
    naming(exceeded, mesh(n_u, n_v, |points, cells| raw::mesh_tile(boundary, [wide(n_u), wide(n_v)], points, cells)))
}

/// The signed area of a quad, above 0 if it runs counter-clockwise. It is plain Rust.
///
/// ```
/// assert_eq!(juplatsk::signed_area(&[[0.0, 0.0], [2.0, 0.0], [2.0, 1.0], [0.0, 1.0]]), 2.0);
/// ```
pub fn signed_area(quad: &Quad) -> f64 {
    let mut twice = 0.0;
    for i in 0..4 {
        let (p, q) = (quad[i], quad[(i + 1) % 4]);
        twice += p[0] * q[1] - q[0] * p[1];
    }
    0.5 * twice
}
