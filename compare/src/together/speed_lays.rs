//! Lay beside the model's tests and seams (src/lay.rs) with the Rust's grid on them, with equal results: the Rust has no lay.

use super::call::Sides;
use super::clock::{race, Effort, Pair};
use super::library;
use super::speed::{bent, even, published, same_quads, times, Quads, SHORT};
use crate::farm::{lists, record};
use crate::lay::{self, Region};
use crate::simons_qgp_stones;
use crate::stones::BoundaryCurves;

/// A tile to lay: its cells along bottom and top and along right and left, and the edges of these sides. Sides without edges have one cell
/// across.
pub struct Tile {
    pub cells: [usize; 2],
    pub edges: [u16; 2],
}

pub const TILES: [Tile; 8] = [
    Tile { cells: [1, 1], edges: [1, 1] },
    Tile { cells: [1, 1], edges: [0, 0] },
    Tile { cells: [4, 4], edges: [2, 2] },
    Tile { cells: [1, 16], edges: [1, 4] },
    Tile { cells: [1, 16], edges: [0, 4] },
    Tile { cells: [64, 64], edges: [32, 32] },
    Tile { cells: [1, 1024], edges: [1, 32] },
    Tile { cells: [1, 1024], edges: [0, 32] },
];

impl Tile {
    pub fn name(&self) -> String {
        let Tile { cells: [across, up], edges } = self;
        format!("{across} by {up} | {} and {}", edges[0], edges[1])
    }

    /// The region of this tile, each edge with as many cells as the others of its side. Breaks of sides without edges are not read: none.
    pub fn region(&self, curves: Sides) -> Region {
        let [across, up] = self.edges;
        let edges = |from: u16, many: u16| (from..from + many).collect::<Vec<u16>>();
        let sides = [edges(0, across), edges(across, up), edges(across + up, across), edges(2 * across + up, up)];
        let count = |side: usize| self.cells[side % 2] / sides[side].len().max(1);
        let counts = (0..4).flat_map(|side| vec![count(side) as u32; sides[side].len()]).collect();
        let breaks = sides.each_ref().map(|side| if side.is_empty() { vec![] } else { even(side.len()) });
        Region { record: record(lists(&sides)), counts, breaks, curves }
    }

    pub fn room(&self) -> usize {
        8 * self.cells[0] * self.cells[1]
    }
}

/// The model's tests and seams, and the Rust's quads on them, between the same curves as it takes them.
fn quads(region: &Region, curves: &BoundaryCurves) -> Quads {
    let seams = lay::seams(region).map_err(|stop| stop.to_string())?;
    simons_qgp_stones::coons_from_parameters(curves, &seams.bottom, &seams.top, &seams.left, &seams.right)
}

fn laid(effort: Effort, tile: &Tile, curves: Sides) -> Result<Pair, String> {
    let region = tile.region(curves);
    let Region { record, counts, breaks, curves } = &region;
    let boundary = published(curves)?;
    let out = std::cell::RefCell::new(vec![f64::NAN; tile.room()]);
    let here = || library::lay_region(record, counts, lists(breaks), lists(curves), &mut out.borrow_mut(), &mut [0; 3]);
    race(effort, || quads(&region, &boundary), here, |quads, refusal| same_quads(quads, *refusal, &out.borrow()))
}

pub fn table() -> Result<(), String> {
    println!("\nLay: the seams of a plain model and the Rust's grid on them, and this library; on curves of 16 points.\n");
    println!("| cells | edges of bottom and right | model and Rust | here | ratio |");
    println!("|---|---|---|---|---|");
    for tile in &TILES {
        println!("| {} | {} |", tile.name(), times(laid(SHORT, tile, bent(16))?));
    }
    Ok(())
}
