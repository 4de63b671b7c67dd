//! 01's limits, and 02's for the places of a side (item 9) and for a search for which none is stated (item 5). Of these the Rust has the
//! 100,000 of a search alone, so a case that passes one is not the Rust's to answer.

/// Places of a side, and so the most edges that it can have. It stands here alone: all that rests on it is written from it.
pub const SIDE_EDGES: usize = 32;
/// Numbers of 16 bits of a side: how many edges, and the places.
pub const SIDE: usize = SIDE_EDGES + 1;
/// Numbers of a record: four sides.
pub const RECORD: usize = 4 * SIDE;
pub const REGIONS: usize = 128;
pub const EDGES: usize = 256;
pub const COUNT: u32 = 1_000_000;
/// The largest limit of a search, which is the Rust's.
pub const SEARCH: u32 = 100_000;
/// The limit of a search for which none is stated (02, item 5: "without one, either now gets 10,000").
pub const SEARCH_UNSTATED: u32 = 10_000;
pub const CURVE_POINTS: usize = 1024;
pub const LOOP_POINTS: usize = 4096;
pub const SEAM: usize = 1025;
pub const CELLS: u32 = 1024;

/// The expansions that a search may make by a limit, stated or not. 0 is a limit.
pub fn expansions(limit: Option<u32>) -> u32 {
    limit.unwrap_or(SEARCH_UNSTATED)
}
