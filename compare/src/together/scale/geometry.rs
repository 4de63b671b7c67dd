//! Random calls of root, grid, lay and mesh: tiles with straight and crooked sides, points on a small lattice, seams of all kinds, strips,
//! damaged ones.

use super::strips;
use crate::farm::{lists, record};
use crate::former;
use crate::generate::{LENGTHS, PLACES};
use crate::grids;
use crate::lay;
use crate::limits::SIDE;
use crate::together::call::{Call, Sides};
use crate::together::random::Random;
use crate::together::speed::{even, straight};

pub fn call(random: &mut Random) -> Call {
    match random.below(16) {
        0..=1 => Call::Root { x: radicand(random) },
        2..=5 => {
            let (curves, seams) = (curves(random), seams(random));
            let needed = 8 * seams[0].len().saturating_sub(1) * seams[3].len().saturating_sub(1);
            Call::FromParameters { curves, seams, out: lent(random, needed) }
        }
        6..=7 => {
            let (curves, cells) = (curves(random), cells(random));
            Call::Curves { curves, cells, out: lent(random, needed(cells)[0]) }
        }
        8..=10 => lay(random),
        11..=12 => {
            let (boundary, cells) = (boundary(random), cells(random));
            Call::Checked { boundary, cells, out: lent(random, needed(cells)[0]) }
        }
        13..=14 => {
            let (curves, cells) = (curves(random), cells(random));
            let (points, indices) = lent_mesh(random, cells);
            Call::MeshCurves { curves, cells, points, indices }
        }
        _ => {
            let (boundary, cells) = (boundary(random), cells(random));
            let (points, indices) = lent_mesh(random, cells);
            Call::Mesh { boundary, cells, points, indices }
        }
    }
}

// ------------------------------------------------------------------------------------------------------------------------------------
// Sizes
// ------------------------------------------------------------------------------------------------------------------------------------

fn cells(random: &mut Random) -> [u32; 2] {
    let most = if random.chance(32) { 20 } else { 4 };
    let mut cells = [random.within(1, most), random.within(1, most)];
    if random.chance(24) {
        cells[random.below(2) as usize] = 0;
    }
    if random.chance(500) {
        cells = [random.pick(&[1023, 1024, 1025, u32::MAX]), random.below(3)];
    }
    if random.chance(3) {
        cells.reverse();
    }
    cells
}

/// What a grid's output, a mesh's points and its point indices need; nothing where 1 refuses far too many cells.
fn needed(cells: [u32; 2]) -> [usize; 3] {
    if cells.iter().any(|&n| n > 1025) {
        return [0; 3];
    }
    grids::needed(cells[0] as usize, cells[1] as usize)
}

pub fn lent(random: &mut Random, needed: usize) -> usize {
    match random.below(12) {
        0 => needed.saturating_sub(1),
        1 => needed + random.within(1, 9) as usize,
        2 => random.below(needed as u32 + 1) as usize,
        _ => needed,
    }
}

fn lent_mesh(random: &mut Random, cells: [u32; 2]) -> (usize, usize) {
    let [_, points, indices] = needed(cells);
    (lent(random, points), lent(random, indices))
}

// ------------------------------------------------------------------------------------------------------------------------------------
// Curves and loops
// ------------------------------------------------------------------------------------------------------------------------------------

type Point = [f64; 2];

fn corners(random: &mut Random) -> [Point; 4] {
    let square = [[0.0, 0.0], [1.0, 0.0], [1.0, 1.0], [0.0, 1.0]];
    match random.below(8) {
        0 => square,
        1..=3 => square.map(|p| p.map(|x| x + 0.4 * (random.unit() - 0.5))),
        4 => square.map(|p| p.map(|x| x * 3.0 + f64::from(random.below(3)) - 1.0)),
        5 => square.map(|_| lattice(random)),
        6 => {
            let (scale, shift) = (random.pick(&[1e-170, 1e-154, 1e-9, 1e9, 1e150, 1.3e154]), random.pick(&[0.0, 0.0, 1.0, -1e6]));
            square.map(|p| p.map(|x| x * scale + shift))
        }
        _ => square.map(|p| p.map(|x| (x - 0.5) * (1.0 + random.unit()))),
    }
}

fn lattice(random: &mut Random) -> Point {
    [f64::from(random.below(3)), f64::from(random.below(3))]
}

/// A crooked line between two points.
fn side(random: &mut Random, from: Point, to: Point) -> Vec<f64> {
    let inner = if random.chance(64) { random.within(8, 80) } else { random.pick(&[0, 0, 0, 1, 1, 2, 3, 7]) };
    let bend = random.pick(&[0.0, 0.0, 0.05, 0.2]);
    let width = (to[0] - from[0]).abs().max((to[1] - from[1]).abs());
    let mut list = from.to_vec();
    for k in 1..=inner {
        let t = f64::from(k) / f64::from(inner + 1);
        for axis in 0..2 {
            list.push(from[axis] + (to[axis] - from[axis]) * t + bend * width * (random.unit() - 0.5));
        }
        if random.chance(16) {
            // The same point twice: a segment of length 0.
            list.extend_from_within(list.len() - 2..);
        }
    }
    list.extend(to);
    if random.chance(24) {
        list.extend(to);
    }
    list
}

pub fn curves(random: &mut Random) -> Sides {
    let corners = corners(random);
    let mut curves: Sides = std::array::from_fn(|k| side(random, corners[k], corners[(k + 1) % 4]));
    if random.chance(6) {
        damage_curves(random, &mut curves);
    }
    curves
}

fn damage_curves(random: &mut Random, curves: &mut Sides) {
    let which = random.below(4) as usize;
    let value = random.below(curves[which].len() as u32) as usize;
    match random.below(8) {
        0 => curves[which][value] = random.pick(&[f64::NAN, f64::INFINITY, f64::NEG_INFINITY, f64::MAX]),
        // Beside the allowance of a corner.
        1..=2 => curves[which][value] += random.pick(&[1e-9, 0.99e-9, 1.01e-9, -1e-9, 1e-8, 1.0]),
        3 => drop(curves[which].pop()),
        4 => curves[which].truncate(random.below(4) as usize),
        5 => {
            let first = [curves[which][0], curves[which][1]];
            curves[which].chunks_exact_mut(2).for_each(|point| point.copy_from_slice(&first));
        }
        6 => curves.reverse(),
        _ => curves[which][value] = -curves[which][value],
    }
}

fn boundary(random: &mut Random) -> Vec<f64> {
    let mut list = match random.below(8) {
        0..=2 => corners(random).concat(),
        3 => (0..random.below(14)).flat_map(|_| lattice(random)).collect(),
        _ => pieces(random),
    };
    if random.chance(3) && list.len() >= 2 {
        // The first point again, also with its zeros turned.
        let again = [list[0], list[1]].map(|x| if x == 0.0 && random.chance(4) { -x } else { x });
        list.extend(again);
    }
    if random.chance(16) && !list.is_empty() {
        let value = random.below(list.len() as u32) as usize;
        match random.below(3) {
            0 => drop(list.pop()),
            1 => list[value] = random.pick(&[f64::NAN, f64::INFINITY, 5.0, -0.0]),
            _ => list.truncate(2 * (value / 2)),
        }
    }
    list
}

/// Four pieces with as many points each. They do not share their ends, so the ends must stand twice, but for the first and last point.
fn pieces(random: &mut Random) -> Vec<f64> {
    let corners = corners(random);
    straight(corners, random.within(2, 5) as usize).concat()
}

// ------------------------------------------------------------------------------------------------------------------------------------
// Seams and lay
// ------------------------------------------------------------------------------------------------------------------------------------

/// A seam that rises from 0 to 1.
pub fn seam(random: &mut Random, cells: usize) -> Vec<f64> {
    if random.chance(2) {
        return even(cells);
    }
    let steps = random.chance(4);
    let mut inner: Vec<f64> = (1..cells).map(|_| if steps { f64::from(random.below(5)) / 4.0 } else { random.unit() }).collect();
    inner.sort_by(f64::total_cmp);
    [vec![0.0], inner, vec![1.0]].concat()
}

fn seams(random: &mut Random) -> Sides {
    let most = if random.chance(32) { 20 } else { 4 };
    let (across, up) = (random.within(1, most) as usize, random.within(1, most) as usize);
    let mut seams = [seam(random, across), seam(random, up), seam(random, across), seam(random, up)];
    match random.below(6) {
        // Opposite seams alike, so that the lines are straight.
        0..=2 => {
            seams[2] = seams[0].clone();
            seams[3] = seams[1].clone();
        }
        3 => seams = steep(random),
        _ => {}
    }
    if random.chance(4) {
        damage_seam(random, &mut seams);
    }
    seams
}

/// Lines from one corner nearly to the opposite one: they are parallel, or cross where rounding takes them outside.
fn steep(random: &mut Random) -> Sides {
    let mut low = || random.pick(&[0.0, 5e-324, 1e-16, 1e-13, 1e-12, 2e-12, 1e-10, 1e-9, 1e-8, 1e-7, 1e-5, -1e-9]);
    let lows = [low(), low(), low(), low()];
    let turned = random.chance(2);
    std::array::from_fn(|side| {
        let from_low = side == 0 || side == 3;
        let middle = if from_low != turned { lows[side] } else { 1.0 - lows[side] };
        vec![0.0, middle, 1.0]
    })
}

fn damage_seam(random: &mut Random, seams: &mut Sides) {
    let seam = &mut seams[random.below(4) as usize];
    let value = random.below(seam.len() as u32) as usize;
    match random.below(8) {
        0 => drop(seam.pop()),
        1 => seam.push(random.pick(&[1.0, 1.0 + 1e-9, 1.0 - 1e-12, 2.0])),
        2 => seam.truncate(random.below(2) as usize),
        3 => seam[value] = random.pick(&[f64::NAN, f64::INFINITY, -1.0, 2.0, -0.0]),
        // Beside the allowances: 1e-9 at the ends, 1e-12 for falling.
        4..=5 => seam[value] += random.pick(&[1e-9, -1e-9, 1.1e-9, -1.1e-9, 1e-12, -1e-12, -1.1e-12, -2e-12, 0.9e-9]),
        6 => {
            let earlier = seam[value.saturating_sub(1)];
            seam[value] = earlier + random.pick(&[0.0, -1e-12, -1.0001e-12, -1e-13]);
        }
        _ => seam.reverse(),
    }
}

/// A tile whose sides mostly add up alike; every second one loses the edges of some sides.
fn lay(random: &mut Random) -> Call {
    let (across, up) = (random.within(1, 4), random.within(1, 4));
    let mut counts = Vec::new();
    let mut breaks: Sides = Default::default();
    let mut sides: [Vec<u16>; 4] = Default::default();
    for k in 0..4 {
        let sum = if k % 2 == 0 { across } else { up };
        let parts = if random.chance(16) { spread(random, sum) } else { parts(random, sum) };
        breaks[k] = seam(random, parts.len());
        sides[k] = (counts.len()..counts.len() + parts.len()).map(|edge| edge as u16).collect();
        counts.extend(parts);
    }
    let mut record = record(lists(&sides));
    if random.chance(4) {
        damage_lay(random, &mut record, &mut counts, &mut breaks);
    }
    let curves = curves(random);
    let mut out = lent(random, 8 * (across * up) as usize);
    if random.chance(2) {
        strips::empty(random, &mut record, &mut breaks);
        let unread = lay::unread(&record);
        let cells = |side: usize, cells: u32| if unread[side] { 1 } else { cells };
        out = lent(random, 8 * (cells(0, across) * cells(3, up)) as usize);
    }
    Call::Lay { record, counts, breaks, curves, out }
}

/// Counts that add up to a number, now and then with a zero.
fn parts(random: &mut Random, sum: u32) -> Vec<u32> {
    let mut left = sum;
    let mut list = Vec::new();
    for _ in 0..random.below(3) {
        let least = u32::from(!random.chance(6));
        if left > least {
            let part = random.within(least, left - 1);
            list.push(part);
            left -= part;
        }
    }
    list.push(left);
    if random.chance(12) {
        list.push(0);
    }
    list
}

/// Counts of a wide side that add up to a number: nearly all are 0, but for the first, which has the seam's 0.
fn spread(random: &mut Random, sum: u32) -> Vec<u32> {
    let mut list = vec![0; random.within(u32::from(former::PLACES) + 1, PLACES.into()) as usize];
    list[0] = 1;
    for _ in 1..sum {
        let edge = random.below(list.len() as u32) as usize;
        list[edge] += 1;
    }
    list
}

fn damage_lay(random: &mut Random, record: &mut Vec<u16>, counts: &mut Vec<u32>, breaks: &mut Sides) {
    let side = random.below(4) as usize;
    let list = &mut breaks[side];
    let value = random.below(list.len() as u32) as usize;
    match random.below(11) {
        0 => drop(counts.pop()),
        1 => {
            let edge = random.below(counts.len() as u32) as usize;
            counts[edge] = random.pick(&[0, 1, 2, 1023, 1024, 1025, 1_000_001, u32::MAX]);
        }
        2 => drop(list.pop()),
        3 => list.push(1.0),
        4 => list[value] = random.pick(&[f64::NAN, f64::INFINITY, -1.0, 0.0, 0.5, 1.0, 1e-9, -1e-12]),
        5 => {
            let border = random.pick(&[former::PLACES, PLACES]);
            record[SIDE * side] = random.pick(&[0, 1, 2, border, border + 1]);
        }
        6 => record[SIDE * side + 1] = random.pick(&[0, 1, 255, u16::MAX]),
        7 => drop(record.pop()),
        8 => record.extend_from_within(..),
        9 => record.resize(random.pick(&LENGTHS), 0),
        _ => counts.resize(random.pick(&[0, 255, 256, 257]), 1),
    }
}

// ------------------------------------------------------------------------------------------------------------------------------------
// Root
// ------------------------------------------------------------------------------------------------------------------------------------

fn radicand(random: &mut Random) -> f64 {
    let bits = random.bits();
    match random.below(8) {
        0..=2 => f64::from_bits(bits),
        3 => f64::from_bits(bits >> 12),
        4 => f64::from_bits(bits % f64::INFINITY.to_bits()),
        // A square, and beside it: the exact root of the neighbours lies near a value of the format.
        5 => near(square(bits >> 38), random),
        // Near the square of a point half-way between two values.
        6 => near(square((bits >> 38) | 1) * 0.25, random),
        _ => near(square(bits >> 38) * (bits % 2000) as f64, random),
    }
}

fn square(n: u64) -> f64 {
    n as f64 * n as f64
}

fn near(x: f64, random: &mut Random) -> f64 {
    f64::from_bits(x.to_bits().wrapping_add(u64::from(random.below(5))).wrapping_sub(2))
}
