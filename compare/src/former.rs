//! The record before 02's item 9, with 16 places a side: as an old caller still writes it, and as some vectors have it.

use crate::limits;

/// Places of a side.
pub const PLACES: u16 = 16;
const SIDE: usize = PLACES as usize + 1;
/// Numbers of a record.
pub const RECORD: usize = 4 * SIDE;

/// A record; the places past a side's number of edges hold `rest`.
fn record(sides: [&[u16]; 4], rest: u16) -> Vec<u16> {
    let mut numbers = Vec::new();
    for side in sides {
        let start = numbers.len();
        numbers.push(side.len() as u16);
        numbers.extend(side);
        numbers.resize(start + SIDE, rest);
    }
    numbers
}

/// As `generate::row` is today.
pub fn row(regions: usize, rest: u16) -> Vec<u16> {
    (0..regions as u16).flat_map(|i| record([&[], &[i + 1], &[], &[i]], rest)).collect()
}

/// A list of such records in those of today, to the same answers: a side's number that was too large is so by as much, or is the
/// largest that there is, and what stood behind the last whole record stands there still.
pub fn repacked(list: &[u16]) -> Vec<u16> {
    let (records, rest) = list.split_at(list.len() / RECORD * RECORD);
    let more = limits::SIDE_EDGES as u16 - PLACES;
    let mut numbers = Vec::new();
    for side in records.chunks_exact(SIDE) {
        let start = numbers.len();
        numbers.push(if side[0] > PLACES { side[0].saturating_add(more) } else { side[0] });
        numbers.extend(&side[1..]);
        numbers.resize(start + limits::SIDE, u16::MAX);
    }
    numbers.extend(rest);
    numbers
}
