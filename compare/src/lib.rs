//! The oracle: the published Rust, asked for its answers to cases. It is compiled twice (build.rs): `simons_qgp` unchanged, which has all
//! that does not reach a curve's end, and `simons_qgp_stones` with 02's two returns in `at` (item 12), which has curves, grids and meshes.
//! With the feature `library`, `together` holds this library against them.
//!
//! - `reach`: the private parts of the published solver, and its round with `max_expansions` set.
//! - `stones`, `blended`: those of curves (src/reach_curves.rs), in the Rust whose curves end on their stones (02's surveyed corners), and
//!   in the unchanged one, which blends two points there too.
//! - `refusal`: the Rust's error messages as 01's numbers and places.
//! - `limits`: 01's and 02's limits, which the Rust does not have; `former`: the record with 16 places a side.
//! - `solver`, `geometry`: an operation a function, on plain lists.
//! - `words`, `case`: cases and answers as text.
//! - `farm`: records, and farms made of rows.
//! - `lay`: 01's lay with 02's strips (item 2), which the Rust does not have.
//! - `ranges`: a plain model of rounds and solves within ranges, which the Rust does not have.
//! - `turned`: sheets turned round (02, item 13).
//! - `landed`: 02's items that have landed, and which vectors hold by them.
//! - `stored`, `grids`: stored cases of the solver and of geometry; `json`, `vector`: from the vectors; `dice`, `generate`,
//!   `generate_wide`, `generate_geometry`, `generate_stones`, `generate_strips`, `generate_ranges`, `generate_limits`, `generate_turned`:
//!   made here; `pack`: as bytes (src/bin/stored.rs).
//! - `tool`: how a tool ends.

include!(concat!(env!("OUT_DIR"), "/published.rs"));

mod quality;

pub mod case;
pub mod dice;
pub mod farm;
pub mod former;
pub mod generate;
pub mod generate_geometry;
pub mod generate_limits;
pub mod generate_ranges;
pub mod generate_stones;
pub mod generate_strips;
pub mod generate_turned;
pub mod generate_wide;
pub mod geometry;
pub mod grids;
pub mod json;
pub mod landed;
pub mod lay;
pub mod limits;
pub mod pack;
pub mod ranges;
pub mod refusal;
pub mod solver;
pub mod stored;
#[cfg(feature = "library")]
pub mod together;
pub mod tool;
pub mod turned;
pub mod vector;
pub mod words;

pub use simons_qgp::{reach, reach_curves as blended};
pub use simons_qgp_stones::reach_curves as stones;
