//! Cases of the root, of grids, of lay and of meshes beside the vectors: two faults at once, the limits, tiles far out, seams at their
//! tolerances, lines that hardly cross, loops. Where the Rust decides, its answer is stored; the pairs of faults say what they expect,
//! by 01's order of tests.

use crate::dice::Dice;
use crate::farm::{lists, record};
use crate::former;
use crate::generate::{expected, Cases, LENGTHS, NUMBERS, PLACES, SIDES};
use crate::geometry::{Flat, Seams};
use crate::grids::{self, Boundary, Source};
use crate::lay::{self, Region};
use crate::limits;
use crate::refusal::Refusal;
use crate::stored::Case;

pub fn all() -> Cases {
    let parts = [
        roots(),
        parameter_faults(),
        curve_faults(),
        lay_faults(),
        loop_faults(),
        mesh_faults(),
        cell_limits(),
        curve_limits(),
        seam_limits(),
        loop_limits(),
        lay_limits(),
        lay_records(),
        lay_sides(),
        buffers(),
        joins_and_windings(),
        seam_tolerances(),
        crossings(),
        far_out(),
        repeated_points(),
        huge_corners(),
        random_tiles(),
        random_regions(),
    ];
    let mut cases = Vec::new();
    for part in parts {
        cases.extend(part?);
    }
    Ok(cases)
}

// ------------------------------------------------------------------------------------------------------------------------------------
// Input
// ------------------------------------------------------------------------------------------------------------------------------------

/// An input of all functions of geometry.
#[derive(Clone)]
pub struct Input {
    /// By side number, each from the corner where the one before ends.
    pub curves: [Flat; 4],
    /// Seams, or lay's breaks, by side number.
    pub seams: [Vec<f64>; 4],
    n_u: u32,
    n_v: u32,
    pub record: Vec<u16>,
    pub counts: Vec<u32>,
    /// Of a loop, what comes behind its closing point.
    behind: Flat,
    /// How many values the outputs have more than they need.
    room: isize,
    cells_room: isize,
}

/// Outputs of refused input are no longer than this.
const LENT: usize = 64;

impl Input {
    /// A bent tile of 2 by 2 cells with slanted seams; as a region, each side has two edges of count 1.
    pub fn good() -> Input {
        Input {
            curves: [
                vec![0.0, 0.0, 2.0, -0.5, 4.0, 0.0],
                vec![4.0, 0.0, 4.75, 1.5, 4.5, 3.0],
                vec![4.5, 3.0, 2.0, 3.5, -0.5, 3.25],
                vec![-0.5, 3.25, -0.25, 1.5, 0.0, 0.0],
            ],
            seams: [vec![0.0, 0.375, 1.0], vec![0.0, 0.5, 1.0], vec![0.0, 0.5, 1.0], vec![0.0, 0.625, 1.0]],
            n_u: 2,
            n_v: 2,
            record: record([&[0, 1], &[2, 3], &[4, 5], &[6, 7]]),
            counts: vec![1; 8],
            behind: Vec::new(),
            room: 0,
            cells_room: 0,
        }
    }

    /// The square from (0, 0) to (1, 1).
    fn square() -> Input {
        Input::corners([[0.0, 0.0], [1.0, 0.0], [1.0, 1.0], [0.0, 1.0]])
    }

    fn corners(c: [[f64; 2]; 4]) -> Input {
        let curve = |side: usize| [c[side], c[(side + 1) % 4]].concat();
        Input { curves: [curve(0), curve(1), curve(2), curve(3)], ..Input::good() }
    }

    pub fn cells(mut self, n_u: u32, n_v: u32) -> Input {
        (self.n_u, self.n_v) = (n_u, n_v);
        self
    }

    pub fn seams(mut self, bottom: &[f64], top: &[f64], left: &[f64], right: &[f64]) -> Input {
        self.seams = [bottom.to_vec(), right.to_vec(), top.to_vec(), left.to_vec()];
        self
    }

    pub fn room(mut self, room: isize) -> Input {
        (self.room, self.cells_room) = (room, room);
        self
    }

    /// The four curves in a row, and the first point again, which a loop of 8 points or more drops.
    fn points(&self) -> Flat {
        let mut points = self.curves.concat();
        points.extend_from_within(..2);
        points.extend(&self.behind);
        points
    }

    fn even_lent(&self) -> [usize; 3] {
        let accepted = self.n_u <= limits::CELLS && self.n_v <= limits::CELLS;
        let [quads, points, cells] = grids::needed(self.n_u as usize, self.n_v as usize);
        let lent =
            [quads.saturating_add_signed(self.room), points.saturating_add_signed(self.room), cells.saturating_add_signed(self.cells_room)];
        if accepted {
            lent
        } else {
            lent.map(|length| length.min(LENT))
        }
    }

    pub fn coons_from_parameters(self) -> Result<Case, String> {
        let cells = |seam: &Vec<f64>| if seam.len() > limits::SEAM { 2 } else { seam.len().max(1) - 1 };
        let [needed, ..] = grids::needed(cells(&self.seams[0]), cells(&self.seams[3]));
        let out = needed.saturating_add_signed(self.room);
        let [bottom, right, top, left] = self.seams;
        grids::grid(Source::Parameters(self.curves, Seams { bottom, top, left, right }), out)
    }

    pub fn coons_curves(self) -> Result<Case, String> {
        let [out, ..] = self.even_lent();
        grids::grid(Source::Even(Boundary::Curves(self.curves), self.n_u, self.n_v), out)
    }

    fn coons_checked(self) -> Result<Case, String> {
        let [out, ..] = self.even_lent();
        grids::grid(Source::Even(Boundary::Loop(self.points()), self.n_u, self.n_v), out)
    }

    /// The output has room for just the cells that the counts ask for on the bottom and the left, or for one across.
    pub fn lay(self) -> Result<Case, String> {
        let unread = lay::unread(&self.record);
        let sum = |side: usize| -> usize {
            if unread[side] {
                return 1;
            }
            let start = side * limits::SIDE;
            let edges = self.record.get(start).map_or(0, |&edges| usize::from(edges).min(limits::SIDE_EDGES));
            let count = |place: &u16| self.counts.get(usize::from(*place)).map_or(0, |&count| count as usize);
            self.record[self.record.len().min(start + 1)..self.record.len().min(start + 1 + edges)].iter().map(count).sum()
        };
        let [needed, ..] = grids::needed(sum(0), sum(3));
        let needed = if sum(0).max(sum(3)) > limits::CELLS as usize { LENT } else { needed };
        let out = needed.saturating_add_signed(self.room);
        let Input { record, counts, seams, curves, .. } = self;
        grids::grid(Source::Lay(Region { record, counts, breaks: seams, curves }), out)
    }

    fn mesh(self, boundary: Boundary) -> Result<Case, String> {
        let [_, points, cells] = self.even_lent();
        grids::tile(boundary, self.n_u, self.n_v, points, cells)
    }

    pub fn mesh_tile_curves(self) -> Result<Case, String> {
        let boundary = Boundary::Curves(self.curves.clone());
        self.mesh(boundary)
    }

    fn mesh_tile(self) -> Result<Case, String> {
        let boundary = Boundary::Loop(self.points());
        self.mesh(boundary)
    }

    /// Every function but lay.
    pub fn everywhere(self) -> Cases {
        let mut cases = self.clone().on_curves()?;
        cases.push(self.clone().coons_checked()?);
        cases.push(self.mesh_tile()?);
        Ok(cases)
    }

    pub fn on_curves(self) -> Cases {
        Ok(vec![self.clone().coons_from_parameters()?, self.clone().coons_curves()?, self.mesh_tile_curves()?])
    }
}

/// Every point as `place` has it.
pub fn moved(mut input: Input, place: impl Fn(f64, f64) -> [f64; 2]) -> Input {
    for point in input.curves.iter_mut().flat_map(|curve| curve.chunks_exact_mut(2)) {
        point.copy_from_slice(&place(point[0], point[1]));
    }
    input
}

fn mirror(input: &mut Input) {
    *input = moved(input.clone(), |x, y| [-x, y]);
}

// ------------------------------------------------------------------------------------------------------------------------------------
// Roots
// ------------------------------------------------------------------------------------------------------------------------------------

fn roots() -> Cases {
    let mut values = vec![0.0, -0.0, 1.0, -1.0, 2.0, 0.5, f64::NAN, f64::INFINITY, f64::NEG_INFINITY, f64::MAX, f64::MIN];
    // The smallest and the largest subnormal, the smallest normal, and their neighbours; both signs.
    for bits in [1, 2, 3, 4, 5, 0xF_FFFF_FFFF_FFFE, 0xF_FFFF_FFFF_FFFF, 0x10_0000_0000_0000, 0x10_0000_0000_0001, 0x7FEF_FFFF_FFFF_FFFF] {
        values.extend([f64::from_bits(bits), -f64::from_bits(bits)]);
    }
    // NaNs with other bits.
    values.extend([0x7FF0_0000_0000_0001, 0xFFF8_0000_0000_0000, 0xFFFF_FFFF_FFFF_FFFF].map(f64::from_bits));
    // Every subnormal power of two.
    for power in 0..52 {
        values.push(f64::from_bits(1 << power));
    }
    let mut dice = Dice(0x5EED_0011);
    for _ in 0..60 {
        let bits = u64::from(dice.below(1 << 31)) << 32 | u64::from(dice.below(1 << 31)) << 1;
        let any = f64::from_bits(bits & 0x7FFF_FFFF_FFFF_FFFF);
        values.extend([any, -any, f64::from_bits(bits & 0xF_FFFF_FFFF_FFFF)]);
        // Exact squares, and squares of numbers about halfway between two f64, where the rounding turns; each with its neighbours.
        let whole = f64::from(1 + dice.below(1 << 26));
        let root = f64::from_bits(1.0f64.to_bits() + (bits & 0xF_FFFF_FFFF_FFFF));
        for square in [whole * whole, root * root + root * f64::EPSILON] {
            values.extend([square, square.next_up(), square.next_down()]);
        }
    }
    values.into_iter().map(grids::root).collect()
}

// ------------------------------------------------------------------------------------------------------------------------------------
// Faults
// ------------------------------------------------------------------------------------------------------------------------------------

/// A fault, and the refusal that it is.
pub struct Fault {
    refusal: Refusal,
    spoil: Box<dyn Fn(&mut Input)>,
}

pub fn fault(number: u32, first: u32, second: u32, spoil: impl Fn(&mut Input) + 'static) -> Fault {
    Fault { refusal: Refusal { number, first, second }, spoil: Box::new(spoil) }
}

fn faults(order: &[Fault], run: impl Fn(Input) -> Result<Case, String>) -> Cases {
    faults_of(&Input::good(), order, run)
}

/// Every fault of `order` alone and every two at once, in an input that is good: the earlier one must be the answer. The later one is made
/// first, so that where both touch the same number the earlier one stands.
pub fn faults_of(good: &Input, order: &[Fault], run: impl Fn(Input) -> Result<Case, String>) -> Cases {
    let mut cases = Vec::new();
    for (index, first) in order.iter().enumerate() {
        let mut with = |mut input: Input| {
            (first.spoil)(&mut input);
            cases.push(expected(run(input)?, first.refusal)?);
            Ok::<(), String>(())
        };
        with(good.clone())?;
        for second in &order[index + 1..] {
            let mut input = good.clone();
            (second.spoil)(&mut input);
            with(input)?;
        }
    }
    Ok(cases)
}

pub fn ordered<const N: usize>(parts: [Vec<Fault>; N]) -> Vec<Fault> {
    parts.into_iter().flatten().collect()
}

/// 1: an odd number of values.
pub fn odd() -> Vec<Fault> {
    vec![fault(1, 0, 0, |i| i.curves[3].push(0.5))]
}

fn too_many_cells() -> Vec<Fault> {
    vec![fault(1, 0, 0, |i| i.n_u = 1025), fault(1, 0, 0, |i| i.n_v = 1025)]
}

fn no_cells() -> Vec<Fault> {
    vec![fault(26, 0, 0, |i| i.n_u = 0), fault(26, 0, 0, |i| i.n_v = 0)]
}

fn too_short(side: u32) -> Fault {
    fault(13, side, 0, move |i| i.curves[side as usize].truncate(2))
}

fn not_finite(side: u32, value: f64) -> Fault {
    fault(14, side, 0, move |i| i.curves[side as usize][2] = value)
}

/// 15: all points are the first one.
pub fn no_length(side: u32) -> Fault {
    fault(15, side, 0, move |i| {
        let curve = &mut i.curves[side as usize];
        *curve = curve[..2].repeat(3);
    })
}

fn bad_curves() -> Vec<Fault> {
    vec![not_finite(0, f64::NAN), no_length(1), too_short(2), not_finite(3, f64::INFINITY)]
}

/// As a loop has them: its curves all have as many points.
fn bad_pieces() -> Vec<Fault> {
    vec![not_finite(0, f64::NEG_INFINITY), no_length(1), not_finite(2, f64::NAN), no_length(3)]
}

/// The end of a curve that meets the neighbouring one at a corner, as an index of its side's values. No fault leads to corner 3.
const ENDS: [(u32, usize, usize); 4] = [(0, 1, 0), (1, 2, 0), (2, 2, 4), (4, 3, 4)];

fn apart() -> Vec<Fault> {
    ENDS.iter().map(|&(corner, side, at)| fault(16, corner, 0, move |i| i.curves[side][at] += 0.5)).collect()
}

pub fn clockwise() -> Vec<Fault> {
    vec![fault(17, 0, 0, mirror)]
}

fn seam_short(side: u32) -> Fault {
    fault(18, side, 0, move |i| i.seams[side as usize].truncate(1))
}

pub fn seam_out_of_range(side: u32) -> Fault {
    fault(19, side, 1, move |i| i.seams[side as usize][1] = 1.5)
}

pub fn seam_falling(side: u32) -> Fault {
    fault(20, side, 2, move |i| i.seams[side as usize][1..3].copy_from_slice(&[0.5, 0.25]))
}

pub fn seam_ends(side: u32) -> Fault {
    fault(21, side, 0, move |i| i.seams[side as usize][2] = 0.875)
}

fn bad_seams() -> Vec<Fault> {
    vec![seam_out_of_range(0), seam_falling(2), seam_ends(3), seam_short(1)]
}

fn unequal() -> Vec<Fault> {
    vec![fault(22, 0, 0, |i| i.seams[2].push(1.0)), fault(22, 1, 0, |i| i.seams[1].push(1.0))]
}

pub fn no_room() -> Vec<Fault> {
    vec![fault(11, 0, 0, |i| i.room = -1)]
}

fn bad_crossings() -> Vec<Fault> {
    vec![fault(23, 1, 1, |i| *i = i.clone().seams(&RISING, &RISEN, &RISING, &RISEN)), fault(24, 1, 1, outside)]
}

/// Of a pair of seams: the middle line goes from one end to the other.
const RISING: [f64; 3] = [0.0, 0.0, 1.0];
const RISEN: [f64; 3] = [0.0, 1.0, 1.0];

/// A line that starts just below 0 and nearly goes along the other one crosses it far below.
fn outside(input: &mut Input) {
    *input = input.clone().seams(&RISING, &RISEN, &[-5e-10, -5e-10, 1.0], &[0.0, 0.9999, 1.0]);
}

/// 25: two values of opposite seams alike.
fn flat_quad() -> Vec<Fault> {
    vec![fault(25, 1, 0, |i| *i = i.clone().seams(&RISEN, &RISEN, &[0.0, 0.5, 1.0], &[0.0, 0.5, 1.0]))]
}

/// 25 with even seams: the bottom rises above the top.
fn folded() -> Vec<Fault> {
    vec![fault(25, 0, 0, |i| i.curves[0][3] = 8.0)]
}

fn parameter_faults() -> Cases {
    let order = [odd(), bad_curves(), apart(), clockwise(), bad_seams(), unequal(), no_room(), bad_crossings(), flat_quad()];
    let mut cases = faults(&ordered(order), Input::coons_from_parameters)?;
    // Every fault of every seam, in 01's order bottom, top, left, right.
    let all = [0, 2, 3, 1].map(|side| vec![seam_short(side), seam_out_of_range(side), seam_falling(side), seam_ends(side)]);
    cases.extend(faults(&ordered(all), Input::coons_from_parameters)?);
    // In one seam: a value out of range behind one that falls.
    for side in 0..4 {
        let mut input = Input::good();
        input.seams[side] = vec![0.0, 0.5, 0.25, 2.0, 1.0];
        cases.push(expected(input.coons_from_parameters()?, Refusal { number: 20, first: side as u32, second: 2 })?);
    }
    Ok(cases)
}

fn curve_faults() -> Cases {
    let order = [odd(), too_many_cells(), no_cells(), bad_curves(), apart(), clockwise(), no_room(), folded()];
    let mut cases = faults(&ordered(order), Input::coons_curves)?;
    // Every fault of every curve.
    let all = [0, 1, 2, 3].map(|side| vec![too_short(side), not_finite(side, f64::NAN), no_length(side)]);
    cases.extend(faults(&ordered(all), Input::coons_curves)?);
    Ok(cases)
}

fn lay_faults() -> Cases {
    let broken = || vec![fault(1, 0, 0, |i| i.record.push(0)), fault(1, 0, 0, |i| i.record[2 * limits::SIDE] = PLACES + 1)];
    let edge = |side: u32| fault(3, 0, side, move |i| i.record[side as usize * limits::SIDE + 2] = 300);
    let breaks = |side: u32| fault(27, side, 0, move |i| i.seams[side as usize].push(1.0));
    let long = || vec![fault(1, 0, 0, |i| i.counts[0] = 1025)];
    let curves = || vec![no_length(1), too_short(2)];
    let joins = || vec![fault(16, 2, 0, |i| i.curves[2][4] += 0.5)];
    let none = fault(18, 1, 0, |i| i.counts[2..4].fill(0));
    let seams = vec![seam_out_of_range(0), seam_falling(2), seam_ends(3), none];
    let unequal = vec![fault(22, 0, 0, |i| i.counts[5] = 2), fault(22, 1, 0, |i| i.counts[2] = 2)];
    let order = [
        broken(),
        odd(),
        vec![edge(0), edge(3), breaks(1), breaks(2)],
        long(),
        curves(),
        joins(),
        clockwise(),
        seams,
        unequal,
        no_room(),
        bad_crossings(),
        flat_quad(),
    ];
    let mut cases = faults(&ordered(order), Input::lay)?;
    let sides = [broken(), odd(), [0, 1, 2, 3].map(edge).into(), [0, 1, 2, 3].map(breaks).into(), long()];
    cases.extend(faults(&ordered(sides), Input::lay)?);
    Ok(cases)
}

/// 12: a point behind the closing one.
fn bad_loop() -> Vec<Fault> {
    vec![fault(12, 0, 0, |i| i.behind = vec![0.5, 0.5])]
}

fn loop_faults() -> Cases {
    let order = [odd(), too_many_cells(), bad_loop(), no_cells(), bad_pieces(), apart(), clockwise(), no_room(), folded()];
    faults(&ordered(order), Input::coons_checked)
}

fn mesh_faults() -> Cases {
    let no_cells_room = || vec![fault(11, 0, 0, |i| i.cells_room = -1)];
    let on_curves = [odd(), too_many_cells(), no_cells(), bad_curves(), apart(), clockwise(), no_room(), no_cells_room(), folded()];
    let mut cases = faults(&ordered(on_curves), Input::mesh_tile_curves)?;
    let on_loop =
        [odd(), too_many_cells(), bad_loop(), no_cells(), bad_pieces(), apart(), clockwise(), no_room(), no_cells_room(), folded()];
    cases.extend(faults(&ordered(on_loop), Input::mesh_tile)?);
    Ok(cases)
}

// ------------------------------------------------------------------------------------------------------------------------------------
// Limits
// ------------------------------------------------------------------------------------------------------------------------------------

/// Numbers of cells at their limits, one below and one above; all with no room at all, so that what is accepted is 11, and some with it.
fn cell_limits() -> Cases {
    let mut cases = Vec::new();
    let numbers = [0, 1, 2, 1023, 1024, 1025, u32::MAX];
    for (n_u, n_v) in numbers.iter().flat_map(|&n_u| numbers.map(|n_v| (n_u, n_v))) {
        let input = Input::square().cells(n_u, n_v).room(isize::MIN);
        cases.push(input.clone().coons_curves()?);
        cases.push(input.clone().coons_checked()?);
        cases.push(input.clone().mesh_tile_curves()?);
        cases.push(input.mesh_tile()?);
    }
    cases.push(Input::good().cells(1024, 1).coons_curves()?);
    cases.push(Input::good().cells(1, 1024).mesh_tile_curves()?);
    cases.push(Input::good().cells(1024, 1).room(1).mesh_tile()?);
    cases.push(Input::good().cells(24, 23).coons_checked()?);
    cases.push(Input::good().cells(23, 24).mesh_tile_curves()?);
    Ok(cases)
}

/// The curve with points put between its first two, so that it has so many.
fn lengthened(curve: &mut Flat, points: usize) {
    let [x0, y0, x1, y1] = [curve[0], curve[1], curve[2], curve[3]];
    let more = points - curve.len() / 2;
    let between = (1..=more).flat_map(|k| {
        let t = k as f64 / (more + 1) as f64;
        [x0 + (x1 - x0) * t, y0 + (y1 - y0) * t]
    });
    let between: Flat = between.collect();
    curve.splice(2..2, between);
}

/// Curves of 1,024 points, one below and one above, on each side.
fn curve_limits() -> Cases {
    let mut cases = Vec::new();
    let long = |side: usize, points: usize| {
        let mut input = Input::good();
        lengthened(&mut input.curves[side], points);
        input
    };
    for side in 0..4 {
        cases.push(long(side, 1024).coons_curves()?);
        cases.push(expected(long(side, 1025).coons_curves()?, Refusal::plain(1))?);
    }
    cases.push(long(1, 1023).coons_from_parameters()?);
    cases.push(long(3, 1024).lay()?);
    cases.push(expected(long(2, 1025).lay()?, Refusal::plain(1))?);
    cases.push(long(0, 1024).mesh_tile_curves()?);
    cases.push(expected(long(0, 1025).mesh_tile_curves()?, Refusal::plain(1))?);
    // Odd lists, and no list at all, on each side.
    for side in 0..4 {
        for length in [0, 1, 2, 3, 5] {
            let mut input = Input::good();
            input.curves[side].truncate(length);
            cases.extend(input.clone().on_curves()?);
            cases.push(input.lay()?);
        }
    }
    Ok(cases)
}

pub fn even_seam(values: usize) -> Vec<f64> {
    (0..values).map(|k| k as f64 / (values.max(2) - 1) as f64).collect()
}

/// Seams of no value up to 1,026; one too long is 1 before all else, and two at the limit with no room are 11.
fn seam_limits() -> Cases {
    let mut cases = Vec::new();
    for side in 0..4 {
        for values in [0, 1, 2, 1024, 1025, 1026] {
            let mut input = Input::square();
            input.seams[side] = even_seam(values);
            cases.push(input.coons_from_parameters()?);
        }
    }
    let long = even_seam(1025);
    let short = [0.0, 1.0];
    cases.push(Input::square().seams(&long, &long, &short, &short).room(-1).coons_from_parameters()?);
    cases.push(Input::square().seams(&short, &short, &long, &long).room(isize::MIN).coons_from_parameters()?);
    let mut both = Input::square().seams(&even_seam(1026), &short, &short, &short);
    both.curves[0].truncate(2);
    cases.push(expected(both.coons_from_parameters()?, Refusal::plain(1))?);
    Ok(cases)
}

/// A loop along a square of so many points, starting at its lower left; each quarter ends where the next begins.
fn square_loop(points: usize) -> Flat {
    let quarter = (points / 4).max(1);
    let corners = [[0.0, 0.0], [1.0, 0.0], [1.0, 1.0], [0.0, 1.0]];
    let along = |k: usize| {
        let (from, to) = (corners[k / quarter % 4], corners[(k / quarter + 1) % 4]);
        let t = if quarter == 1 { 0.0 } else { (k % quarter) as f64 / (quarter - 1) as f64 };
        [from[0] + (to[0] - from[0]) * t, from[1] + (to[1] - from[1]) * t]
    };
    (0..points).flat_map(along).collect()
}

fn on_loop(points: &Flat, n_u: u32, n_v: u32) -> Cases {
    Ok(vec![checked(points, n_u, n_v)?, meshed(points, n_u, n_v)?])
}

fn checked(points: &Flat, n_u: u32, n_v: u32) -> Result<Case, String> {
    let [quads, ..] = grids::needed(n_u as usize, n_v as usize);
    grids::grid(Source::Even(Boundary::Loop(points.clone()), n_u, n_v), quads)
}

fn meshed(points: &Flat, n_u: u32, n_v: u32) -> Result<Case, String> {
    let [_, nodes, cells] = grids::needed(n_u as usize, n_v as usize);
    grids::tile(Boundary::Loop(points.clone()), n_u, n_v, nodes + 2, cells + 3)
}

/// The loop, and its first point again.
fn closed(points: &Flat) -> Flat {
    let mut closed = points.clone();
    closed.extend_from_within(..points.len().min(2));
    closed
}

/// Loops of no point up to 4,097, with and without a last point that repeats the first.
fn loop_limits() -> Cases {
    let mut cases = Vec::new();
    for points in 0..=17 {
        let open = square_loop(points);
        cases.extend(on_loop(&open, 2, 1)?);
        cases.extend(on_loop(&closed(&open), 1, 2)?);
        let odd = [&open[..], &[0.5]].concat();
        cases.extend(on_loop(&odd, 1, 1)?);
    }
    // The last point is the first but for a sign of zero, a NaN, or one of its two coordinates.
    let open = square_loop(8);
    for last in [[-0.0, 0.0], [0.0, -0.0], [f64::NAN, 0.0], [0.0, 1e-300], [1e-300, 0.0]] {
        cases.extend(on_loop(&[&open[..], &last].concat(), 1, 1)?);
        cases.extend(on_loop(&[&open[..14], &last].concat(), 1, 1)?);
        cases.extend(on_loop(&[&square_loop(4)[..], &last].concat(), 1, 1)?);
    }
    // Four corners, the last one the first: not dropped.
    cases.extend(on_loop(&vec![0.0, 0.0, 1.0, 0.0, 1.0, 1.0, 0.0, 0.0], 1, 1)?);
    cases.push(expected(checked(&closed(&square_loop(4095)), 2, 2)?, Refusal::plain(12))?);
    cases.push(expected(checked(&closed(&square_loop(4096)), 2, 2)?, Refusal::plain(1))?);
    cases.push(meshed(&square_loop(4096), 3, 2)?);
    Ok(cases)
}

/// Lay: none or two records, 255 to 257 counts, seams of 1,025 and 1,026 values, counts near 2^32.
fn lay_limits() -> Cases {
    let mut cases = Vec::new();
    for records in [0, 2] {
        let mut input = Input::good();
        input.record = input.record.repeat(records);
        cases.push(expected(input.lay()?, Refusal::plain(1))?);
    }
    for counts in [0, 1, 7, 8, 255, 256, 257] {
        let mut input = Input::good();
        input.counts.resize(counts, 1);
        cases.push(input.lay()?);
    }
    // One edge a side: a seam has one value more than its count.
    for count in [0, 1, 1023, 1024, 1025, u32::MAX] {
        for side in 0..4 {
            let mut input = Input::good().seams(&[0.0, 1.0], &[0.0, 1.0], &[0.0, 1.0], &[0.0, 1.0]).room(isize::MIN);
            input.record = record([&[0], &[1], &[2], &[3]]);
            input.counts = vec![1; 4];
            input.counts[side] = count;
            cases.push(input.clone().lay()?);
            input.counts[(side + 2) % 4] = count;
            cases.push(input.lay()?);
        }
    }
    // Counts whose sum passes 32 bits.
    let mut input = Input::good();
    input.counts[0] = u32::MAX;
    input.counts[1] = 2;
    cases.push(expected(input.lay()?, Refusal::plain(1))?);
    Ok(cases)
}

/// Lay: a record longer or shorter, of before, a side's number that is read or too large.
fn lay_records() -> Cases {
    let mut cases = Vec::new();
    for length in LENGTHS {
        let mut input = Input::good();
        input.record = input.record.repeat(2);
        input.record.truncate(length);
        cases.push(input.lay()?);
    }
    for rest in [0, u16::MAX] {
        let input = Input { record: former::row(1, rest), ..Input::good() };
        cases.push(expected(input.lay()?, Refusal::plain(1))?);
    }
    for (number, refusal) in NUMBERS {
        for side in 0..4 {
            let mut input = Input::good();
            input.record[side * limits::SIDE] = number;
            let second = if refusal == 3 { side as u32 } else { 0 };
            cases.push(expected(input.lay()?, Refusal { number: refusal, first: 0, second })?);
        }
    }
    Ok(cases)
}

/// A tile with so many edges on each side, all of count 1.
pub fn wide_tile(edges: [u16; 4]) -> Input {
    let mut start = 0;
    let sides = edges.map(|edges| -> Vec<u16> {
        start += edges;
        (start - edges..start).collect()
    });
    let seams = edges.map(|edges| even_seam(usize::from(edges) + 1));
    Input { record: record(lists(&sides)), counts: vec![1; start.into()], seams, ..Input::good() }
}

/// So many edges at the bottom against one at the top, also with a break too many.
fn against_one(edges: u16) -> Cases {
    let bottom: Vec<u16> = (0..edges).collect();
    let mut input = wide_tile([edges, 1, 1, 1]);
    input.record = record([&bottom, &[edges + 1], &[edges], &[edges + 2]]);
    input.counts[usize::from(edges)] = edges.into();
    let mut one_more = input.clone();
    one_more.seams[0] = even_seam(usize::from(edges) + 2);
    Ok(vec![input.lay()?, expected(one_more.lay()?, Refusal { number: 27, first: 0, second: 0 })?])
}

/// Lay: sides of as many edges as they may have and might have before, and about that.
fn lay_sides() -> Cases {
    let mut cases = Vec::new();
    for edges in SIDES.into_iter().filter(|&edges| edges >= former::PLACES) {
        cases.extend(against_one(edges)?);
        cases.push(wide_tile([edges; 4]).lay()?);
        // Edges of no cell but for the first, the last, and the first that is past the places of before.
        let mut few = wide_tile([edges; 4]);
        let kept = [1, former::PLACES + 1, edges];
        few.counts.iter_mut().zip((1..=edges).cycle()).for_each(|(count, edge)| *count = kept.contains(&edge).into());
        cases.push(few.lay()?);
    }
    for edges in [former::PLACES, PLACES] {
        cases.extend(same_count(edges)?);
    }
    Ok(cases)
}

/// One edge so many times on each side: up to 1,024 cells and one more; then just 2^32, which is none in 32 bits, and more than that.
fn same_count(edges: u16) -> Cases {
    let times = u32::from(edges);
    let most = limits::CELLS / times;
    let mut cases = Vec::new();
    for count in [0, 1, most, most + 1, u32::MAX / times + 1, u32::MAX] {
        let side = vec![0; edges.into()];
        let input = Input { record: record([&side; 4]), counts: vec![count], ..wide_tile([edges; 4]) };
        cases.push(input.room(isize::MIN).lay()?);
    }
    Ok(cases)
}

/// Outputs longer and shorter than needed.
fn buffers() -> Cases {
    let mut cases = Vec::new();
    for room in [-32, -8, -2, -1, 0, 1, 2, 7, 8, 40] {
        cases.extend(Input::good().room(room).everywhere()?);
        cases.push(Input::good().room(room).lay()?);
        // 23, 24 and 25 zero the needed part alone.
        for fault in ordered([bad_crossings(), flat_quad()]) {
            let mut input = Input::good();
            (fault.spoil)(&mut input);
            cases.push(input.clone().room(room).coons_from_parameters()?);
            cases.push(input.room(room).lay()?);
        }
        let mut input = Input::good();
        (folded()[0].spoil)(&mut input);
        cases.extend(input.room(room).everywhere()?);
    }
    // One of a mesh's two outputs too short.
    for (room, cells_room) in [(-1, 0), (0, -1), (-27, 5), (5, -16)] {
        let input = Input { room, cells_room, ..Input::good() };
        cases.push(input.clone().mesh_tile_curves()?);
        cases.push(input.mesh_tile()?);
    }
    Ok(cases)
}

// ------------------------------------------------------------------------------------------------------------------------------------
// Tolerances and shapes
// ------------------------------------------------------------------------------------------------------------------------------------

/// Curves apart by about their tolerance, which grows with the tile; corner areas about 0.
fn joins_and_windings() -> Cases {
    let mut cases = Vec::new();
    for size in [0.25, 1.0, 1000.0] {
        let tile = moved(Input::good(), |x, y| [x * size, y * size]);
        let allowed = 1e-9 * (5.0 * size).max(1.0);
        for (_, side, at) in ENDS {
            for gap in [0.99 * allowed, allowed, 1.01 * allowed, -1.01 * allowed] {
                for coordinate in [at, at + 1] {
                    let mut input = tile.clone();
                    input.curves[side][coordinate] += gap;
                    cases.push(input.coons_curves()?);
                }
            }
        }
    }
    // The left upper corner goes through the diagonal: the corner area is above 0, 0, below.
    for x in [0.5, 1.0, 1.0 - 1e-16, 1.5] {
        for y in [1.0, 0.0, -0.5] {
            let input = Input::corners([[0.0, 0.0], [1.0, 0.0], [1.0, 1.0], [x, y]]);
            cases.extend(input.clone().on_curves()?);
            cases.extend(on_loop(&vec![0.0, 0.0, 1.0, 0.0, 1.0, 1.0, x, y], 2, 2)?);
        }
    }
    Ok(cases)
}

/// Seam values at the ends of their range, of each other and of NaN.
fn seam_tolerances() -> Cases {
    let near = 1e-9f64;
    let starts = [-0.0, near, -near, near.next_up(), (-near).next_down(), 1e-300, f64::NAN, f64::NEG_INFINITY];
    let ends = [1.0 - near, 1.0 + near, 1.0 - 1.1 * near, 1.0 + 0.9 * near, (1.0 + near).next_up(), f64::NAN, f64::INFINITY];
    let middles = [0.5 - 1e-12, 0.5 - 1.1e-12, 0.5 - 0.9e-12, 0.5, 0.5f64.next_up(), -0.0, 1.0, 1.0 + near];
    let mut cases = Vec::new();
    for side in 0..4 {
        let mut with = |seam: Vec<f64>| -> Result<(), String> {
            for other in [false, true] {
                let mut input = Input::square().seams(&MIDDLE, &MIDDLE, &MIDDLE, &MIDDLE);
                input.seams[side] = seam.clone();
                if other {
                    // The same on the opposite side.
                    input.seams[(side + 2) % 4] = seam.clone();
                    input.counts.fill(1);
                    cases.push(input.clone().lay()?);
                }
                cases.push(input.coons_from_parameters()?);
            }
            Ok(())
        };
        for start in starts {
            with(vec![start, 0.5, 1.0])?;
        }
        for end in ends {
            with(vec![0.0, 0.5, end])?;
        }
        for middle in middles {
            with(vec![0.0, middle, 1.0])?;
        }
    }
    // A value that falls by less than 1e-12 passes 20, and its quad may be flat.
    for middle in middles {
        let seam = [0.0, 0.5, middle, 1.0];
        cases.push(Input::good().seams(&seam, &seam, &MIDDLE, &MIDDLE).coons_from_parameters()?);
        cases.push(Input::good().seams(&MIDDLE, &MIDDLE, &seam, &seam).coons_from_parameters()?);
    }
    Ok(cases)
}

const MIDDLE: [f64; 3] = [0.0, 0.5, 1.0];

/// Lines that slant so far that they hardly cross, or cross outside.
fn crossings() -> Cases {
    let mut cases = Vec::new();
    // About parallel: 1 - (b - a)(d - c) passes 1e-12.
    for off in [0.0, 1e-16, 2.5e-13, 5e-13, 1e-12, 2e-12, 1e-10, 1e-6, 0.01, 0.5] {
        let below = [0.0, off, 1.0];
        let above = [0.0, 1.0 - off, 1.0];
        cases.push(Input::good().seams(&below, &above, &below, &above).coons_from_parameters()?);
        cases.push(Input::good().seams(&above, &below, &above, &below).coons_from_parameters()?);
        cases.push(Input::good().seams(&below, &above, &above, &below).coons_from_parameters()?);
        cases.push(Input::square().seams(&RISING, &above, &below, &RISEN).coons_from_parameters()?);
    }
    // 24 before 23 and 23 before 24, row by row.
    let starts = [-1e-9, -1e-9, -1e-9, 1.0];
    for (first, second) in [(0.9999, 1.0), (1.0, 0.9999), (0.9, 0.9999), (0.99999, 1.0)] {
        let ends = [0.0, first, second, 1.0];
        let (rising, risen) = ([0.0, 0.0, 0.0, 1.0], [0.0, 1.0, 1.0, 1.0]);
        cases.push(Input::good().seams(&rising, &risen, &starts, &ends).coons_from_parameters()?);
        cases.push(Input::good().seams(&starts, &ends, &rising, &risen).coons_from_parameters()?);
        cases.push(Input::good().seams(&rising, &ends, &starts, &risen).coons_from_parameters()?);
    }
    let mut dice = Dice(0x5EED_0012);
    let steps = [0.0, 0.0, 1e-9, 1e-6, 0.25, 0.5, 0.75, 1.0 - 1e-9, 1.0, 1.0];
    for _ in 0..60 {
        let mut seam = || {
            let mut values = vec![0.0, dice.pick(&steps), dice.pick(&steps), 1.0];
            values.sort_by(f64::total_cmp);
            values
        };
        let (bottom, top, left, right) = (seam(), seam(), seam(), seam());
        cases.push(Input::good().seams(&bottom, &top, &left, &right).coons_from_parameters()?);
    }
    Ok(cases)
}

/// Tiles of a few metres to a kilometre, five thousand kilometres out, in metres and in millimetres.
fn far_out() -> Cases {
    let mut cases = Vec::new();
    for (far, size) in [(5e6, 1.0), (5e6, 250.0), (5e9, 1.0), (5e9, 1e6), (1e15, 1.0), (1e16, 1.0)] {
        for [right, up] in [[1.0, 1.0], [-1.0, 1.0], [1.0, -1.0], [-1.0, 0.0]] {
            let input = moved(Input::good(), |x, y| [right * far + size * x, up * far + size * y]);
            cases.extend(input.clone().cells(3, 2).everywhere()?);
            cases.push(input.lay()?);
        }
    }
    Ok(cases)
}

/// Points that stand twice: at the start, in the middle, at the end (so that the last segment has no length), on each side.
fn repeated_points() -> Cases {
    let mut cases = Vec::new();
    for side in 0..4 {
        for at in [0, 2, 4] {
            for times in [1, 3] {
                let mut input = Input::good().cells(3, 3);
                let point = input.curves[side][at..at + 2].repeat(times);
                input.curves[side].splice(at..at, point);
                cases.extend(input.clone().on_curves()?);
                cases.push(input.lay()?);
            }
        }
    }
    // The same on all sides at once, so that a loop has it too.
    for at in [0, 2, 4] {
        let mut input = Input::good().cells(3, 2);
        for curve in &mut input.curves {
            let point = curve[at..at + 2].to_vec();
            curve.splice(at..at, point);
        }
        cases.extend(input.everywhere()?);
    }
    Ok(cases)
}

/// Corners whose products overflow: their area is infinite or a NaN, and lengths still count. Also points so near that squares vanish.
fn huge_corners() -> Cases {
    let mut cases = Vec::new();
    for size in [1e-170, 1e-160, 1e-150, 1e150, 9e153, 1.3e154, 1.5e154, 2e154, 1e155, 1e300] {
        for [x0, y0] in [[0.0, 0.0], [-0.5, -0.5], [1.0, 1.0], [-1.0, 0.25]] {
            let mut input = Input::square();
            for curve in &mut input.curves {
                lengthened(curve, 9);
            }
            let input = moved(input, |x, y| [size * (x0 + x), size * (y0 + y)]);
            cases.push(input.clone().cells(2, 2).coons_curves()?);
            cases.push(input.cells(4, 3).mesh_tile()?);
        }
    }
    // Corner areas that are NaN, on tiles whose quads are small enough.
    for corner in [1.31e154, 1.34e154, 1.35e154, 1.4e154, 1.8e154] {
        for [w, h] in [[0.05, 0.05], [0.5, 0.02], [1.0, 1.0]] {
            let mut input = Input::square();
            for curve in &mut input.curves {
                lengthened(curve, 9);
            }
            let input = moved(input, |x, y| [corner * (1.0 - w * (1.0 - x)), corner * (1.0 - h * (1.0 - y))]);
            cases.push(input.clone().cells(3, 2).coons_curves()?);
            cases.push(moved(input, |x, y| [-x, -y]).cells(2, 2).coons_curves()?);
        }
    }
    Ok(cases)
}

// ------------------------------------------------------------------------------------------------------------------------------------
// Random input, by a fixed seed
// ------------------------------------------------------------------------------------------------------------------------------------

/// From 0 to 1 in steps of 1/1024.
fn unit(dice: &mut Dice) -> f64 {
    f64::from(dice.below(1025)) / 1024.0
}

/// A seam of values that may stand twice, and that may slant against the opposite one.
fn random_seam(dice: &mut Dice, cells: usize) -> Vec<f64> {
    let mut seam: Vec<f64> = (1..cells).map(|k| (k as f64 + 0.8 * (unit(dice) - 0.5)) / cells as f64).collect();
    if dice.below(6) == 0 {
        seam.iter_mut().for_each(|value| *value = unit(dice));
    }
    seam.sort_by(f64::total_cmp);
    seam.insert(0, 0.0);
    seam.push(1.0);
    seam
}

/// A tile with corners about those of the square and curves of 2 to 7 points that wander; as a loop, each of as many.
pub fn random_tile(dice: &mut Dice) -> Input {
    let near = |dice: &mut Dice, x: f64, y: f64, by: f64| [x + by * (unit(dice) - 0.5), y + by * (unit(dice) - 0.5)];
    let by = dice.pick(&[0.0, 0.1, 0.4, 1.0]);
    let corners = [[0.0, 0.0], [1.0, 0.0], [1.0, 1.0], [0.0, 1.0]].map(|[x, y]| near(dice, x, y, by));
    let mut input = Input::corners(corners);
    let points = 2 + dice.below(6) as usize;
    let wander = dice.pick(&[0.0, 0.02, 0.1, 0.3]);
    for curve in &mut input.curves {
        lengthened(curve, points);
        let inner = 2..curve.len() - 2;
        for point in curve[inner].chunks_exact_mut(2) {
            let place = near(dice, point[0], point[1], wander);
            point.copy_from_slice(&place);
        }
    }
    let size = dice.pick(&[1.0, 1.0, 1e-3, 37.5, 1e4, 1e8]);
    let far = dice.pick(&[0.0, 0.0, 5e6, -5e9]);
    let (n_u, n_v) = (1 + dice.below(4), 1 + dice.below(4));
    input.seams = [n_u, n_v, n_u, n_v].map(|cells| random_seam(dice, cells as usize));
    moved(input, |x, y| [far + size * x, size * y]).cells(n_u, n_v).room(dice.pick(&[0, 0, 1, 8, -1]))
}

fn random_tiles() -> Cases {
    let mut dice = Dice(0x5EED_0013);
    let mut cases = Vec::new();
    for _ in 0..60 {
        cases.extend(random_tile(&mut dice).everywhere()?);
    }
    Ok(cases)
}

/// Regions with one to three edges a side, whose sides mostly add up alike.
fn random_regions() -> Cases {
    let mut dice = Dice(0x5EED_0014);
    let mut cases = Vec::new();
    for _ in 0..120 {
        let mut input = random_tile(&mut dice);
        let sums = [input.n_u, input.n_v, input.n_u, input.n_v];
        let mut sides: [Vec<u16>; 4] = Default::default();
        input.counts.clear();
        for side in 0..4 {
            // Each edge has a count of its own, but for a few that have none; what is left of the sum goes to the first.
            let edges = 1 + dice.below(sums[side].min(3)) as usize;
            let mut counts: Vec<u32> = vec![1; edges];
            counts[0] += sums[side] - edges as u32;
            match dice.below(12) {
                0 => counts[edges - 1] = 0,
                1 => counts[0] += 1,
                _ => {}
            }
            let start = input.counts.len() as u16;
            sides[side] = (start..start + edges as u16).collect();
            input.counts.extend(counts);
            input.seams[side] = random_seam(&mut dice, edges);
        }
        input.record = record(lists(&sides));
        cases.push(input.lay()?);
    }
    Ok(cases)
}
