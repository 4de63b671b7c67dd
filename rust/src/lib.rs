//! The field gridder: how many pieces each edge of each tile is cut into, and where the pegs of a tile stand.
//!
//! The answers are those of proved functions, which lie in the archive that `rt lib` in crates/juplatsk makes. What stands around them here is plain
//! Rust, and tested: it lends lists, turns numbers, and puts refusals into words. [`BoundaryCurves::from_corners`],
//! [`BoundaryCurves::from_loop`] and [`signed_area`] are plain Rust altogether. [`Refusal`] is the one error.
//!
//! ```
//! use juplatsk::{energy, lay_region, solve_counts, BoundaryCurves, Region};
//!
//! // one tile, 40 by 20 metres, with a peg about every 9 metres
//! let tile = Region::new([vec![0], vec![1], vec![2], vec![3]]);
//! let ideals = [40.0 / 9.0, 20.0 / 9.0, 40.0 / 9.0, 20.0 / 9.0];
//! let counts = solve_counts(&[tile.clone()], &ideals)?;
//! assert_eq!(counts, [4, 2, 4, 2]);
//! assert!(energy(&counts, &ideals)? < 0.05);
//!
//! let curves = BoundaryCurves::from_corners([[0.0, 0.0], [40.0, 0.0], [40.0, 20.0], [0.0, 20.0]]);
//! let quads = lay_region(&tile, &counts, [&[0.0, 1.0]; 4], &curves)?;
//! assert_eq!(quads.len(), 8);
//! assert_eq!(quads[0], [[0.0, 0.0], [10.0, 0.0], [10.0, 10.0], [0.0, 10.0]]);
//! # Ok::<(), juplatsk::Refusal>(())
//! ```
//!
//! # Switching from `simons_qgp`
//!
//! | There | Here |
//! |---|---|
//! | `Result<_, String>` | `Result<_, Refusal>`; a [`Refusal`] turns into a `String` by `?` or `into()` |
//! | `solve_counts(..)` lets each search make 100,000 expansions | the same call lets it make 10,000; `solve(.., SearchLimit::Expansions(100_000))?.counts` is what it gives there |
//! | `energy`, `coons_from_parameters`, `coons_curves`, `coons_checked`, `mesh_tile`, `mesh_tile_curves` | the same |
//! | `Region`, `BoundaryCurves`, `from_corners`, `from_loop`, `signed_area` | the same |
//! | `constraints_hold(..)` is a `bool` | it is a `Result`: there are limits; `constraints_hold(..) == Ok(true)` |
//! | `coons(..)` hides errors | `coons_checked(..).unwrap_or_default()` |
//! | `mesh.cells[i].nodes` is a `Vec`, beside a `kind` | an array of four, all cells are quads |
//! | no limits of size | at most 128 regions, 32 edges a side, 256 edges; counts up to 1,000,000 in a round and in `energy`; curves of 1,024 points, loops of 4,096, seams of 1,025 values, 1,024 cells along a side |
//! | | new: [`solve`] (with a [`SearchLimit`], and the number of moves), [`round`], [`lay_region`], [`root`] |
//! | | new: a range for each edge, as `2.0..=5.0`, in place of an ideal count: [`solve_counts_within`], [`solve_within`], [`round_within`] |
//!
//! # Before pegs are set
//!
//! Facts that decide whether pegs meet. `tests/facts.rs` shows each; docs/DIFFERENCES.md of the repository has them in full.
//!
//! - **A count of 0 is an answer.** Lay then sets no peg of that edge where it begins, at its left or lower end; it is refused by 21 if the edge is the
//!   first of its side and has a length, by 18 if the side has no piece at all, unless neither it nor the opposite one has edges. Look for counts of 0
//!   after a solve. With a range from 1 for that edge a count of 1 costs nothing and 0 costs 1, and that is all: the count may still be 0.
//!
//!   ```
//!   use juplatsk::{solve_counts, solve_counts_within, Region};
//!
//!   // 12 m by 9 m, a peg about every 9 m; the top is a fence of 9 m and a gateway of 3 m
//!   let tile = [Region::new([vec![0], vec![1], vec![3, 4], vec![2]])];
//!   let ideals = [12.0 / 9.0, 1.0, 1.0, 1.0, 3.0 / 9.0];
//!   assert_eq!(solve_counts(&tile, &ideals)?, [1, 1, 1, 1, 0]);
//!
//!   let mut ranges = ideals.map(|ideal| ideal..=ideal);
//!   ranges[0] = 1.0..=2.0;
//!   ranges[4] = 1.0..=1.0;
//!   assert_eq!(solve_counts_within(&tile, &ranges)?, [2, 1, 1, 1, 1]);
//!   # Ok::<(), juplatsk::Refusal>(())
//!   ```
//! - **A strip has no peg of its neighbour on its short sides.** Two opposite sides without edges have one quad across: no peg between their corners,
//!   whatever their neighbours set there. A strip of 18 m by 27 m without edges on its short sides, on top of a tile whose top has two pieces: a peg
//!   at 9 m in the tile, none in the strip. Where a strip meets another tile list the common edge, and one opposite to it.
//! - **Even seams know nothing of T-junctions.** [`coons_curves`], [`coons_checked`] and the meshes space the points of a side evenly: with solved
//!   counts the number of points agrees with the neighbours', and not where they stand. A side of 19 m whose neighbours meet at 14 m, one piece
//!   each, gets its middle point at 9.5 m. Use [`lay_region`] where a side has more than one edge.
//! - **A peg on a common edge has two versions**, one of each tile, and their last bits may differ. Two tiles of 31.502 m by 9 m, one above the other,
//!   in four pieces: 7.875499999999998 and 7.8755 m, which round to 7,875 and 7,876 mm. Take the pegs of a common edge from one of its tiles, as
//!   `examples/farm` does.
//! - **A corner peg is the surveyed stone, bit for bit,** where the two curves that meet there have the same point, bit for bit, and the seams run from
//!   0 to 1; only -0 may become +0. Where they end apart, by a bit even, the peg may be neither end. Give neighbouring curves the same point.
//!
//!   ```
//!   use juplatsk::{mesh_tile_curves, BoundaryCurves};
//!
//!   let [a, b, c, d] = [[0.1, -0.2], [0.9, -0.3], [1.1, 0.7], [0.3, 0.6]];
//!   let curves = BoundaryCurves { bottom: vec![a, [0.5, -0.1], b], right: vec![b, c], top: vec![c, [0.7, 0.9], d], left: vec![d, a] };
//!   let points = mesh_tile_curves(&curves, 3, 2)?.points;
//!   assert_eq!([points[0], points[3], points[11], points[8]], [a, b, c, d].map(|[x, y]| [x, y, 0.0]));
//!   # Ok::<(), juplatsk::Refusal>(())
//!   ```
//! - **A solve may be cut, and does not tell.** On wide farms its searches are turned back at their limit ([`SearchLimit`]), and edges that want
//!   many pieces may be left at 0. Of 13 strips of 45 m by 9 m side by side, each border between two cut into edges of 9, 9 and 27 m, all 12 edges
//!   of 27 m are if no limit is stated, and none with 100,000; of 16 strips all 15 are with either. After a solve make one [`round`] on its counts
//!   with its own limit ([`round_within`] after a solve within ranges). It makes no move. If it was not cut, no unit move costs less than -2e-12; if
//!   it was, there may be one: solve again with a higher limit, or make rounds with a higher one on these counts. Where 100,000 does not do,
//!   compare with balanced counts of your own, for ideals by [`energy`].
//!
//!   ```
//!   use juplatsk::{round, solve, Region, SearchLimit};
//!
//!   // nine strips side by side; the last edge of each border wants a piece, the others a fifth of one
//!   let borders: [&[usize]; 10] = [
//!       &[0], &[1, 2], &[3, 4, 5], &[6, 7, 8], &[9, 10, 11], &[12, 13, 14], &[15, 16, 17], &[18, 19, 20], &[21, 22, 23], &[24],
//!   ];
//!   let strips: Vec<Region> =
//!       borders.windows(2).map(|pair| Region::new([vec![], pair[1].to_vec(), vec![], pair[0].to_vec()])).collect();
//!   let mut ideals = [0.2; 25];
//!   borders.iter().for_each(|border| ideals[border[border.len() - 1]] = 1.0);
//!
//!   let mut solved = solve(&strips, &ideals, SearchLimit::Default)?;
//!   assert_eq!((&solved.counts[..], solved.moves), (&[0; 25][..], 0));
//!   if round(&strips, &ideals, &mut solved.counts, SearchLimit::Default)?.cut {
//!       solved = solve(&strips, &ideals, SearchLimit::Expansions(100_000))?;
//!   }
//!   assert_eq!(solved.counts, ideals.map(|ideal| if ideal == 1.0 { 1 } else { 0 }));
//!   # Ok::<(), juplatsk::Refusal>(())
//!   ```
//! - **A loop of 8 points or more has each corner twice** and, if it ends just where it began, its first point once more behind that:
//!   [`BoundaryCurves::from_loop`].
//! - **Far from the origin areas drown in rounding**, and good tiles are refused by 17 or 25: a square of 1 m at (1e8, 1e8), one of 9 m at (1e9, 1e9) cut
//!   into 10 by 10. Move the origin near the tile.
//!
//! # A long solve
//!
//! A solve tells nothing before it ends, which on wide farms takes seconds or minutes. [`round`] from zeros with the same limit makes the same moves
//! one by one, each with a search anew, so that it may take longer in all: show how far it is, and stop when you like, or at 200,000 moves, after
//! which a solve makes none (and is refused by 7 if it finds one). Opposite sides agree after every round, since they do at the start.
//! `examples/rounds.rs` is a program that does so.
//!
//! ```
//! use juplatsk::{constraints_hold, round, solve, Region, SearchLimit};
//!
//! let regions = [Region::new([vec![0], vec![1], vec![2, 3], vec![4]])];
//! let ideals = [4.0, 1.0, 2.0, 2.0, 1.0];
//! let limit = SearchLimit::Default;
//! let (mut counts, mut moves) = (vec![0; ideals.len()], 0);
//! while moves < 200_000 && round(&regions, &ideals, &mut counts, limit)?.cost.is_some() {
//!     moves += 1; // show it, or leave the loop
//!     assert_eq!(constraints_hold(&regions, &counts), Ok(true));
//! }
//! let solved = solve(&regions, &ideals, limit)?;
//! assert_eq!((counts, moves), (solved.counts, solved.moves));
//! # Ok::<(), juplatsk::Refusal>(())
//! ```
//!
//! # Linking
//!
//! The build script takes the archive `libjuplatsk.a` from the folder that the variable `JUPLATSK_LIB` names (a relative path starts at this
//! package), or else calls `rt lib` in crates/juplatsk, beside this package, which needs the Rattle kit, and proves the library the first
//! time: some minutes. The archive is for x86-64 Linux. It has a version, which is held against the package's before each call of
//! it ([`check_version`]).

#![warn(missing_docs)]

mod archive;
mod geometry;
mod limit;
mod raw;
mod refusal;
mod solver;
mod version;

pub use geometry::{
    coons_checked, coons_curves, coons_from_parameters, lay_region, mesh_tile, mesh_tile_curves, signed_area, BoundaryCurves, Cell, Mesh,
    Point, Quad,
};
pub use limit::{Limit, Limited};
pub use refusal::Refusal;
pub use solver::{
    constraints_hold, energy, round, round_within, solve, solve_counts, solve_counts_within, solve_within, Region, Round, SearchLimit,
    Solved,
};
pub use version::{archive_version, check_version, VERSION};

/// The square root, correctly rounded: squareRoot of IEEE 754, to nearest. +0, -0 and +infinity are their own roots. Refused by 28: a NaN, or
/// a number below 0.
///
/// ```
/// assert_eq!(juplatsk::root(2.0), Ok(2.0_f64.sqrt()));
/// assert_eq!(juplatsk::root(f64::INFINITY), Ok(f64::INFINITY));
/// assert!(juplatsk::root(-0.0).unwrap().is_sign_negative());
/// assert_eq!(juplatsk::root(-1.0).unwrap_err().number, 28);
/// ```
pub fn root(x: f64) -> Result<f64, Refusal> {
    raw::root(x)
}
