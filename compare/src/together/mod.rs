//! The oracle and this library in one process (feature `library`: it links the archive of the crate `juplatsk`).
//!
//! - `library`: the exported functions, by the users' package's file.
//! - `call`: a call with all that it is lent, and its effect.
//! - `line`: a call and its effect as a line of the vectors' format.
//! - `expected`: the effect that the oracle and 01 give; `turned`: that of the same call on a turned sheet.
//! - `clock`, `farms`, `speed`, `growth`, `plot`: both timed in turn; `speed_ranges`: within ranges beside by ideals, and beside the model;
//!   `speed_limits`: solves without a limit; `speed_lays`: lay beside the model.
//! - `beside`: two builds of this library, timed in turn; `beside_grids`: their grids, meshes, lays and roots.
//! - `scale`: both on many calls; `roots`: roots beside the machine's own; `random`: numbers from a seed.

pub mod beside;
pub mod beside_grids;
pub mod call;
pub mod clock;
pub mod expected;
pub mod farms;
pub mod growth;
#[path = "../../../rust/src/archive.rs"]
pub mod library;
pub mod line;
pub mod plot;
pub mod random;
pub mod roots;
pub mod scale;
pub mod speed;
pub mod speed_lays;
pub mod speed_limits;
pub mod speed_ranges;
pub mod turned;

/// These tools call the archive past the package, so they look themselves whether it is of the package's version.
pub fn check_version() -> Result<(), String> {
    juplatsk::check_version().map_err(String::from)
}
