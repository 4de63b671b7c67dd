//! Sheets turned round, written from 02's text (item 13): "exchanging sides 0 and 2, or 1 and 3, in any regions must give, from the same
//! starting counts and ideals, the same counts, the same number of moves and the same cut marks, at every limit". Each pair of sides of
//! each region is exchanged or not by itself. A side is its number of edges and its places; those past the number are never read.

use crate::limits::{RECORD, SIDE, SIDE_EDGES};

/// Which pairs of a region are exchanged: sides 0 and 2, sides 1 and 3.
pub type Pairs = [bool; 2];

/// The records with the pairs exchanged that `choice` says of each region. What stands behind the last whole record stays.
pub fn turned(records: &[u16], mut choice: impl FnMut(usize) -> Pairs) -> Vec<u16> {
    let mut turned = records.to_vec();
    for (region, record) in turned.chunks_exact_mut(RECORD).enumerate() {
        let (first, second) = record.split_at_mut(2 * SIDE);
        let sides = first.chunks_exact_mut(SIDE).zip(second.chunks_exact_mut(SIDE));
        for ((side, opposite), _) in sides.zip(choice(region)).filter(|(_, exchanged)| *exchanged) {
            side.swap_with_slice(opposite);
        }
    }
    turned
}

/// The records with other values in the places that are never read.
pub fn scribbled(records: &[u16], mut value: impl FnMut() -> u16) -> Vec<u16> {
    let mut scribbled = records.to_vec();
    for side in scribbled.chunks_exact_mut(RECORD).flat_map(|record| record.chunks_exact_mut(SIDE)) {
        let places = read(side).len();
        side[places..].fill_with(&mut value);
    }
    scribbled
}

/// A choice for up to 32 regions as a number: of each region two bits, the lower one for sides 0 and 2.
pub fn numbered(choice: u64) -> impl Fn(usize) -> Pairs {
    move |region| [0, 1].map(|pair| choice >> (2 * region + pair) & 1 == 1)
}

/// In how many pairs the second list has the sides of the first the other way round; none if it is not the first one turned.
pub fn exchanged(records: &[u16], turned: &[u16]) -> Option<usize> {
    let (former, latter) = (records.chunks_exact(RECORD), turned.chunks_exact(RECORD));
    if former.len() != latter.len() || former.remainder() != latter.remainder() {
        return None;
    }
    former.zip(latter).map(|(former, latter)| exchanged_of_region(former, latter)).sum()
}

fn exchanged_of_region(former: &[u16], latter: &[u16]) -> Option<usize> {
    let of_pair = |number| match (pair(former, number), pair(latter, number)) {
        (former, latter) if former == latter => Some(0),
        ([side, opposite], latter) if latter == [opposite, side] => Some(1),
        _ => None,
    };
    [0, 1].into_iter().map(of_pair).sum()
}

/// What is read of a pair of sides.
fn pair(record: &[u16], number: usize) -> [&[u16]; 2] {
    [number, number + 2].map(|side| read(&record[side * SIDE..(side + 1) * SIDE]))
}

/// The numbers of a side that are read: how many edges it has, and their places. If it says more than it has places, all of them.
fn read(side: &[u16]) -> &[u16] {
    &side[..=usize::from(side[0]).min(SIDE_EDGES)]
}
