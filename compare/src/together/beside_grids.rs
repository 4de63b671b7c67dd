//! Grids, meshes, lays and roots by two builds of this library in turn, with equal results. The tile is that of `speed`, rounded. But for lay
//! these functions take the same in every version; a lay that a build refuses, for its record or its empty sides, is left out. Both builds write to one buffer: of two, one may lie better in memory, by some percent of a large grid.

use super::beside::{found, mean, open, EFFORT};
use super::call::Sides;
use super::clock::{race, Effort, Pair};
use super::random::Random;
use super::speed::{bent, seams, seconds, CELLS};
use super::speed_lays;
use crate::lay::Region;
use std::cell::RefCell;
use std::ffi::c_void;
use std::mem::transmute;

type Answer = *mut [u32; 3];
type List = *const f64;
type SeamedFn = unsafe extern "C" fn(
    List,
    usize,
    List,
    usize,
    List,
    usize,
    List,
    usize,
    List,
    usize,
    List,
    usize,
    List,
    usize,
    List,
    usize,
    *mut f64,
    usize,
    Answer,
) -> u32;
type MeshFn =
    unsafe extern "C" fn(List, usize, List, usize, List, usize, List, usize, u32, u32, *mut f64, usize, *mut u32, usize, Answer) -> u32;
type LayFn = unsafe extern "C" fn(
    *const u16,
    usize,
    *const u32,
    usize,
    List,
    usize,
    List,
    usize,
    List,
    usize,
    List,
    usize,
    List,
    usize,
    List,
    usize,
    List,
    usize,
    List,
    usize,
    *mut f64,
    usize,
    Answer,
) -> u32;
type RootFn = unsafe extern "C" fn(f64, *mut [f64; 1]) -> u32;

/// The turns of a grid of a million points.
const LARGE: Effort = Effort { turn: 0.0, seconds: 2.0, turns: 15 };

/// The functions of a loaded build, which is never closed.
pub struct Grids {
    seamed: SeamedFn,
    mesh: MeshFn,
    lay: LayFn,
    root: RootFn,
}

impl Grids {
    /// # Safety
    /// The file is a build of this library: its functions take and do what rust/src/archive.rs says.
    pub unsafe fn load(name: &str) -> Result<Grids, String> {
        // SAFETY: by this function's condition; the object is never closed, and what has these names are functions of these types.
        unsafe {
            let object = open(name)?;
            Ok(Grids {
                seamed: transmute::<*mut c_void, SeamedFn>(found(object, name, c"juplatsk_coons_from_parameters")?),
                mesh: transmute::<*mut c_void, MeshFn>(found(object, name, c"juplatsk_mesh_tile_curves")?),
                lay: transmute::<*mut c_void, LayFn>(found(object, name, c"juplatsk_lay_region")?),
                root: transmute::<*mut c_void, RootFn>(found(object, name, c"juplatsk_root")?),
            })
        }
    }

    /// The quads between four curves, by the seams of bottom, right, top and left.
    fn quads(&self, [b, r, t, l]: &Sides, [bu, rv, tu, lv]: &Sides, out: &mut [f64]) -> u32 {
        let mut answer = [0; 3];
        let list = |list: &Vec<f64>| (list.as_ptr(), list.len());
        let (b, r, t, l, bu, rv, tu, lv) = (list(b), list(r), list(t), list(l), list(bu), list(rv), list(tu), list(lv));
        let (lent, length) = (out.as_mut_ptr(), out.len());
        // SAFETY: each pointer is that of a slice or array, with its length, and what is written is lent by `&mut` alone.
        unsafe {
            (self.seamed)(b.0, b.1, r.0, r.1, t.0, t.1, l.0, l.1, bu.0, bu.1, tu.0, tu.1, lv.0, lv.1, rv.0, rv.1, lent, length, &mut answer)
        }
    }

    fn mesh(&self, [b, r, t, l]: &Sides, cells: usize, points: &mut [f64], indices: &mut [u32]) -> u32 {
        let mut answer = [0; 3];
        let list = |list: &Vec<f64>| (list.as_ptr(), list.len());
        let (b, r, t, l) = (list(b), list(r), list(t), list(l));
        let (lent, length, cell) = (points.as_mut_ptr(), points.len(), cells as u32);
        let (to, many) = (indices.as_mut_ptr(), indices.len());
        // SAFETY: as for the quads.
        unsafe { (self.mesh)(b.0, b.1, r.0, r.1, t.0, t.1, l.0, l.1, cell, cell, lent, length, to, many, &mut answer) }
    }

    /// The sum of the roots' bits.
    fn lay(&self, Region { record, counts, breaks: [b0, b1, b2, b3], curves: [b, r, t, l] }: &Region, out: &mut [f64]) -> u32 {
        let mut answer = [0; 3];
        let list = |list: &Vec<f64>| (list.as_ptr(), list.len());
        let (b0, b1, b2, b3, b, r, t, l) = (list(b0), list(b1), list(b2), list(b3), list(b), list(r), list(t), list(l));
        let (region, numbers) = ((record.as_ptr(), record.len()), (counts.as_ptr(), counts.len()));
        let (lent, length) = (out.as_mut_ptr(), out.len());
        // SAFETY: as above.
        unsafe {
            (self.lay)(
                region.0,
                region.1,
                numbers.0,
                numbers.1,
                b0.0,
                b0.1,
                b1.0,
                b1.1,
                b2.0,
                b2.1,
                b3.0,
                b3.1,
                b.0,
                b.1,
                r.0,
                r.1,
                t.0,
                t.1,
                l.0,
                l.1,
                lent,
                length,
                &mut answer,
            )
        }
    }

    fn roots(&self, values: &[f64]) -> u64 {
        let mut root = [0.0];
        values.iter().fold(0, |sum: u64, &x| {
            // SAFETY: the root is written to an array that is lent.
            unsafe { (self.root)(x, &mut root) };
            sum.wrapping_add(root[0].to_bits())
        })
    }
}

/// The tile of `speed` with multiples of 2^-20 for coordinates: then a blend at the end of a curve is its last point, and a build from
/// before 02's item 12 makes the same grid.
fn tile(points: usize) -> Sides {
    let steps = f64::from(1 << 20);
    bent(points).map(|curve| curve.into_iter().map(|x| (x * steps).round() / steps).collect())
}

/// The tables of large and small grids, meshes and roots, and the mean.
pub fn tables(old: &Grids, new: &Grids) -> Result<(), String> {
    println!("\nGrids of {CELLS} by {CELLS} cells and small ones, on a bent tile, and 4,096 roots.\n");
    println!("| what | points of a curve | old | new | old / new |\n|---|---|---|---|---|");
    let mut ratios = Vec::new();
    let mut row = |what: String, length: String, pair: Pair| {
        println!("| {what} | {length} | {} | {} | **{:.3}** |", seconds(pair.rust), seconds(pair.here), pair.ratio());
        ratios.push(pair.ratio());
    };
    // long curves with few cells and short ones with more have rooms of different sizes for the two
    let small = [(1, &[2, 16, 32, 100][..]), (4, &[16, 32, 100]), (16, &[16]), (32, &[2, 16, 100]), (64, &[16])];
    let small = small.map(|(cells, lengths)| (cells, lengths, EFFORT));
    for (cells, lengths, effort) in [(CELLS, &[2, 64, 1024][..], LARGE)].into_iter().chain(small) {
        for &length in lengths {
            let curves = tile(length);
            for (name, slanted) in [("even", false), ("slanted", true)] {
                let pair = quads(old, new, effort, &curves, &seams(cells, slanted), cells)?;
                row(format!("quads, {cells} by {cells}, {name}"), length.to_string(), pair);
            }
            row(format!("mesh, {cells} by {cells}"), length.to_string(), mesh(old, new, effort, &curves, cells)?);
        }
    }
    for laid in &speed_lays::TILES {
        if let Some(pair) = lay(old, new, laid)? {
            row(format!("lay, {}", laid.name().replace(" | ", ", edges ")), "16".to_string(), pair);
        }
    }
    let mut random = Random::new(1);
    let values: Vec<f64> = (0..4096).map(|_| random.unit() * 1e4).collect();
    row("roots, 0 to 10,000".to_string(), String::new(), race(EFFORT, || old.roots(&values), || new.roots(&values), same)?);
    println!("\nGeometric mean of old / new: {:.3}.", mean(&ratios));
    Ok(())
}

fn same<A: PartialEq>(old: &A, new: &A) -> Result<(), String> {
    if old == new {
        Ok(())
    } else {
        Err("the two builds differ".to_string())
    }
}

fn quads(old: &Grids, new: &Grids, effort: Effort, curves: &Sides, seams: &Sides, cells: usize) -> Result<Pair, String> {
    let written = |build: &Grids| {
        let mut out = vec![f64::NAN; 8 * cells * cells];
        (build.quads(curves, seams, &mut out), bits(&out))
    };
    same(&written(old), &written(new))?;
    let out = RefCell::new(vec![f64::NAN; 8 * cells * cells]);
    race(effort, || old.quads(curves, seams, &mut out.borrow_mut()), || new.quads(curves, seams, &mut out.borrow_mut()), same)
}

fn mesh(old: &Grids, new: &Grids, effort: Effort, curves: &Sides, cells: usize) -> Result<Pair, String> {
    let lent = || (vec![f64::NAN; 3 * (cells + 1) * (cells + 1)], vec![u32::MAX; 4 * cells * cells]);
    let written = |build: &Grids| {
        let (mut points, mut indices) = lent();
        (build.mesh(curves, cells, &mut points, &mut indices), bits(&points), indices)
    };
    same(&written(old), &written(new))?;
    let out = RefCell::new(lent());
    let run = |build: &Grids| {
        let (points, indices) = &mut *out.borrow_mut();
        build.mesh(curves, cells, points, indices)
    };
    race(effort, || run(old), || run(new), same)
}

/// None if a build refuses the tile.
fn lay(old: &Grids, new: &Grids, laid: &speed_lays::Tile) -> Result<Option<Pair>, String> {
    let region = laid.region(tile(16));
    let lent = || vec![f64::NAN; laid.room()];
    let written = |build: &Grids| {
        let mut out = lent();
        (build.lay(&region, &mut out), bits(&out))
    };
    let (before, after) = (written(old), written(new));
    if before.0 != 0 || after.0 != 0 {
        return Ok(None);
    }
    same(&before, &after)?;
    let out = RefCell::new(lent());
    race(EFFORT, || old.lay(&region, &mut out.borrow_mut()), || new.lay(&region, &mut out.borrow_mut()), same).map(Some)
}

fn bits(values: &[f64]) -> Vec<u64> {
    values.iter().map(|x| x.to_bits()).collect()
}
