//! Regions, and how many pieces each edge is cut into.

use crate::limit::{self, PLACES};
use crate::raw::{self, Made};
use crate::refusal::{naming, Refusal, MALFORMED};
use std::ops::RangeInclusive;

/// One tile: its four sides counter-clockwise (bottom, right, top, left), each a list of edge numbers.
///
/// Sides 0 and 2 list their edges from left to right, sides 1 and 3 from bottom to top. Opposite sides must come to equally many
/// pieces. A side may be empty. It has at most 32 edges; there are at most 128 regions and 256 edges.
///
/// Rounds, solves and [`constraints_hold`] do not look at which of two opposite sides is which: with bottom and top exchanged, or right and
/// left, in any tiles, they answer the same, if the tiles are accepted. The order of a side's edges can matter.
///
/// ```
/// use juplatsk::{solve, Region, SearchLimit};
///
/// let counts = |bottom: &[usize], top: &[usize]| {
///     let tile = Region::new([bottom.to_vec(), vec![], top.to_vec(), vec![]]);
///     solve(&[tile], &[1.0, 1.0, 1.0], SearchLimit::Default).map(|solved| solved.counts)
/// };
/// assert_eq!(counts(&[0], &[1, 2])?, [1, 1, 0]);
/// assert_eq!(counts(&[1, 2], &[0])?, [1, 1, 0]);
/// assert_eq!(counts(&[0], &[2, 1])?, [1, 0, 1]);
/// # Ok::<(), juplatsk::Refusal>(())
/// ```
#[derive(Clone, Debug, Default, PartialEq, Eq)]
pub struct Region {
    /// Side `i` is the list of the numbers of its edges.
    pub sides: [Vec<usize>; 4],
}

const SIDES: usize = 4;
const RECORD: usize = SIDES * (PLACES + 1);

impl Region {
    /// A tile from its four sides.
    pub fn new(sides: [Vec<usize>; 4]) -> Region {
        Region { sides }
    }

    /// The record that the library reads. A side with more edges than it has places makes a broken record. An edge that does not fit
    /// into 16 bits becomes one that is out of range too.
    fn put_record(&self, record: &mut [u16]) {
        for (side, slots) in self.sides.iter().zip(record.chunks_exact_mut(PLACES + 1)) {
            slots[0] = small(side.len());
            for (slot, &edge) in slots[1..].iter_mut().zip(side) {
                *slot = small(edge);
            }
        }
    }

    pub(crate) fn record(&self) -> [u16; RECORD] {
        let mut record = [0; RECORD];
        self.put_record(&mut record);
        record
    }

    /// What the counts of a side add up to, where an edge without a count has none.
    pub(crate) fn pieces(&self, side: usize, counts: &[usize]) -> usize {
        let count = |&edge: &usize| counts.get(edge).copied().unwrap_or(0);
        self.sides[side].iter().map(count).fold(0, usize::saturating_add)
    }

    /// How many quads lay sets along a side: as many as its counts add up to, and one where neither it nor the opposite side has edges.
    pub(crate) fn quads_along(&self, side: usize, counts: &[usize]) -> usize {
        let empty = self.sides[side].is_empty() && self.sides[(side + 2) % 4].is_empty();
        if empty {
            1
        } else {
            self.pieces(side, counts)
        }
    }
}

fn records(regions: &[Region]) -> Vec<u16> {
    let mut list = vec![0; regions.len() * RECORD];
    for (region, record) in regions.iter().zip(list.chunks_exact_mut(RECORD)) {
        region.put_record(record);
    }
    list
}

/// A number too large for 16 bits is refused just as the largest one is.
fn small(number: usize) -> u16 {
    u16::try_from(number).unwrap_or(u16::MAX)
}

/// A number too large for 32 bits is refused just as the largest one is.
pub(crate) fn wide(number: usize) -> u32 {
    u32::try_from(number).unwrap_or(u32::MAX)
}

pub(crate) fn wide_counts(counts: &[usize]) -> Vec<u32> {
    counts.iter().map(|&n| wide(n)).collect()
}

fn plain_counts(counts: &[u32]) -> impl Iterator<Item = usize> + '_ {
    counts.iter().map(|&n| n as usize)
}

/// How many expansions each search of a round or of a solve may make: stated, or left to the library.
///
/// A round looks for its move by searches, one or two from each edge, and a solve is round after round. A search goes from edge to edge, and
/// each entry to an edge is one expansion. One that is turned back at its limit is cut: it may miss a move, or keep a dearer one, and
/// [`Round::cut`] tells. With a higher limit a call may take longer. At any limit opposite sides of a solve's counts add up to the same, and a
/// round leaves their differences as they were.
///
/// ```
/// use juplatsk::{solve, SearchLimit};
///
/// // 2 and 3 pieces for two edges that no tile names
/// assert_eq!(solve(&[], &[2.0, 3.0], SearchLimit::Default)?.counts, [2, 3]);
/// assert_eq!(solve(&[], &[2.0, 3.0], SearchLimit::Expansions(100_000))?.counts, [2, 3]);
/// // 0 is a limit: every search is turned back at once
/// assert_eq!(solve(&[], &[2.0, 3.0], SearchLimit::Expansions(0))?.counts, [0, 0]);
/// assert_eq!(solve(&[], &[2.0, 3.0], SearchLimit::Expansions(100_001)).unwrap_err().number, 10);
/// # Ok::<(), juplatsk::Refusal>(())
/// ```
#[derive(Clone, Copy, Debug, Default, PartialEq, Eq, Hash)]
pub enum SearchLimit {
    /// None stated: 10,000.
    #[default]
    Default,
    /// So many, 0 to 100,000; more is refused by 10, if by nothing that is tested before. `simons_qgp` has 100,000, and so had every solve of this package up to version 0.3.0.
    Expansions(usize),
}

impl SearchLimit {
    /// As the archive is told.
    fn stated(self) -> Option<u32> {
        match self {
            SearchLimit::Default => None,
            SearchLimit::Expansions(limit) => Some(wide(limit)),
        }
    }
}

/// What a solve finds.
#[derive(Clone, Debug, PartialEq, Eq)]
pub struct Solved {
    /// How many pieces each edge is cut into.
    pub counts: Vec<usize>,
    /// How many moves led there.
    pub moves: usize,
}

/// A solve of so many edges, by a call that fills in their counts and tells the number of moves.
fn solved(edges: usize, call: impl FnOnce(&mut [u32]) -> Result<u32, Refusal>) -> Result<Solved, Refusal> {
    let mut counts = vec![0; edges];
    let moves = call(&mut counts)?;
    Ok(Solved { counts: plain_counts(&counts).collect(), moves: moves as usize })
}

/// The least and the most of each range.
fn ends(ranges: &[RangeInclusive<f64>]) -> (Vec<f64>, Vec<f64>) {
    ranges.iter().map(|range| (*range.start(), *range.end())).unzip()
}

/// The counts of every edge: [`solve`] with no limit stated, so that each search makes 10,000 expansions at most, and without the number of moves.
/// Up to version 0.3.0, and in `simons_qgp`, it is 100,000: on wide farms the counts may be others. `edge_ideal` has an ideal count for each edge.
/// Opposite sides of every region then add up to the same. A count may be 0, and where searches were cut there may be a better answer, which a
/// solve does not tell: see [Before pegs are set](crate#before-pegs-are-set).
///
/// ```
/// use juplatsk::{solve_counts, Region};
///
/// // two tiles side by side, which share edge 1
/// let regions = [
///     Region::new([vec![0], vec![1], vec![2], vec![3]]),
///     Region::new([vec![4], vec![5], vec![6], vec![1]]),
/// ];
/// let counts = solve_counts(&regions, &[4.0, 2.0, 4.0, 2.0, 2.0, 2.0, 2.0])?;
/// assert_eq!(counts, [4, 2, 4, 2, 2, 2, 2]);
/// # Ok::<(), juplatsk::Refusal>(())
/// ```
///
/// Refused as [`solve`], but never by 10.
pub fn solve_counts(regions: &[Region], edge_ideal: &[f64]) -> Result<Vec<usize>, Refusal> {
    solve(regions, edge_ideal, SearchLimit::Default).map(|solved| solved.counts)
}

/// The counts of every edge, with the number of moves: from zeros, round after round with this limit, until one finds no move. `edge_ideal` has an
/// ideal count for each edge. With `SearchLimit::Expansions(100_000)` the counts are those of `simons_qgp`. Opposite sides of every region then add up
/// to the same, at any limit. A count may be 0, and where searches were cut there may be a better answer, which a solve does not tell: see
/// [Before pegs are set](crate#before-pegs-are-set).
///
/// ```
/// use juplatsk::{solve, Region, SearchLimit};
///
/// let tile = [Region::new([vec![0], vec![1], vec![2], vec![3]])];
/// let solved = solve(&tile, &[5.0, 3.0, 1.0, 3.0], SearchLimit::Default)?;
/// assert_eq!((solved.counts, solved.moves), (vec![1, 3, 1, 3], 4));
///
/// let solved = solve(&tile, &[5.0, 3.0, 1.0, 3.0], SearchLimit::Expansions(100_000))?;
/// assert_eq!((solved.counts, solved.moves), (vec![1, 3, 1, 3], 4));
/// # Ok::<(), juplatsk::Refusal>(())
/// ```
///
/// Refused by 1, 10, 2, 3 to 5 by region and pair of sides, 6, 7, in this order.
pub fn solve(regions: &[Region], edge_ideal: &[f64], limit: SearchLimit) -> Result<Solved, Refusal> {
    let exceeded = || limit::of_regions(regions, &[edge_ideal.len()]);
    naming(exceeded, solved(edge_ideal.len(), |counts| raw::solve_counts(&records(regions), edge_ideal, counts, limit.stated())))
}

/// [`solve_counts`] with a range for each edge in place of an ideal count. No limit is stated.
///
/// A range goes from the least to the most pieces that are wanted. A count in it, ends included, costs nothing; one below costs
/// (count / least - 1)², one above (count / most - 1)². The ends must be finite and above 0, and the least not above the most. They need not
/// be whole, and a range need not hold a whole number. Ranges `x..=x` give what ideal counts `x` give.
///
/// ```
/// use juplatsk::{solve_counts_within, Region};
///
/// // 2 to 5 pieces at the bottom, 3 or 4 at the top
/// let tile = [Region::new([vec![0], vec![1], vec![2], vec![3]])];
/// let counts = solve_counts_within(&tile, &[2.0..=5.0, 1.0..=4.0, 3.0..=4.0, 1.0..=4.0])?;
/// assert_eq!(counts, [3, 1, 3, 1]);
///
/// let reversed = solve_counts_within(&tile, &[2.0..=5.0, 4.0..=1.0, 3.0..=4.0, 1.0..=4.0]).unwrap_err();
/// assert_eq!((reversed.number, reversed.first), (35, 1));
/// # Ok::<(), juplatsk::Refusal>(())
/// ```
///
/// Refused as [`solve_within`], but never by 10.
pub fn solve_counts_within(regions: &[Region], ranges: &[RangeInclusive<f64>]) -> Result<Vec<usize>, Refusal> {
    solve_within(regions, ranges, SearchLimit::Default).map(|solved| solved.counts)
}

/// [`solve`] with a range for each edge in place of an ideal count; [`solve_counts_within`] says what a range means.
///
/// ```
/// use juplatsk::{solve_within, SearchLimit};
///
/// // no whole number lies from 2.2 to 2.8
/// let solved = solve_within(&[], &[2.0..=5.0, 2.2..=2.8], SearchLimit::Default)?;
/// assert_eq!((solved.counts, solved.moves), (vec![2, 3], 5));
/// # Ok::<(), juplatsk::Refusal>(())
/// ```
///
/// Refused by 1, 10, 2, 35 (a least above its most), 3 to 5 by region and pair of sides, 6, 7, in this order. 2 is tested for all edges, then
/// 35, and each names the lowest edge. The ranges are one list, so least and most are always equally many.
pub fn solve_within(regions: &[Region], ranges: &[RangeInclusive<f64>], limit: SearchLimit) -> Result<Solved, Refusal> {
    let (least, most) = ends(ranges);
    let exceeded = || limit::of_regions(regions, &[ranges.len()]);
    let call = |counts: &mut [u32]| raw::solve_counts_within(&records(regions), [&least, &most], counts, limit.stated());
    naming(exceeded, solved(ranges.len(), call))
}

/// What a round did.
#[derive(Clone, Copy, Debug, PartialEq)]
pub struct Round {
    /// The cost of the move made, below -1e-12, or None if none was.
    pub cost: Option<f64>,
    /// Whether a search was turned back at its limit. If not, and no move was made, no unit move costs less than -2e-12.
    pub cut: bool,
}

/// A round on counts, by a call that changes them.
fn round_on(counts: &mut [usize], call: impl FnOnce(&mut [u32]) -> Result<Made, Refusal>) -> Result<Round, Refusal> {
    let mut numbers = wide_counts(counts);
    let (cost, cut) = call(&mut numbers)?;
    for (count, number) in counts.iter_mut().zip(plain_counts(&numbers)) {
        *count = number;
    }
    Ok(Round { cost, cut })
}

/// One round of the solver: the move found, if there is one, is made on the counts.
///
/// ```
/// use juplatsk::{round, Region, SearchLimit};
///
/// let tile = [Region::new([vec![0], vec![1], vec![2], vec![3]])];
/// let mut counts = [0, 0, 0, 0];
/// let made = round(&tile, &[1.0, 2.0, 1.0, 2.0], &mut counts, SearchLimit::Default)?;
/// assert_eq!((made.cost, made.cut), (Some(-2.0), false));
/// assert_eq!(counts, [1, 0, 1, 0]);
///
/// // one expansion takes a search no further than its first edge
/// let made = round(&tile, &[1.0, 2.0, 1.0, 2.0], &mut counts, SearchLimit::Expansions(1))?;
/// assert_eq!((made.cost, made.cut), (None, true));
/// assert_eq!(counts, [1, 0, 1, 0]);
/// # Ok::<(), juplatsk::Refusal>(())
/// ```
///
/// Refused by 1, 10, 8 (more or fewer counts than ideals), 2, 9, 3 to 5 by region and pair of sides, 6, in this order, and then the counts are as
/// they were.
pub fn round(regions: &[Region], edge_ideal: &[f64], counts: &mut [usize], limit: SearchLimit) -> Result<Round, Refusal> {
    let edges = [edge_ideal.len(), counts.len()];
    let exceeded = || limit::of_regions(regions, &edges);
    naming(exceeded, round_on(counts, |counts| raw::round(&records(regions), edge_ideal, counts, limit.stated())))
}

/// [`round`] with a range for each edge in place of an ideal count; [`solve_counts_within`] says what a range means.
///
/// ```
/// use juplatsk::{round_within, Region, SearchLimit};
///
/// // only the top is outside its range
/// let tile = [Region::new([vec![0], vec![1], vec![2], vec![3]])];
/// let ranges = [2.0..=5.0, 1.0..=4.0, 4.0..=4.0, 1.0..=4.0];
/// let mut counts = [2, 1, 2, 1];
/// let made = round_within(&tile, &ranges, &mut counts, SearchLimit::Default)?;
/// assert_eq!(made.cost, Some(0.0625 - 0.25));
/// assert_eq!(counts, [3, 1, 3, 1]);
/// # Ok::<(), juplatsk::Refusal>(())
/// ```
///
/// Refused by 1, 10, 8 (more or fewer counts than ranges), 2, 35 (a least above its most), 9, 3 to 5 by region and pair of sides, 6, in this
/// order, and then the counts are as they were. 2 is tested for all edges, then 35, then 9, and each names the lowest edge.
pub fn round_within(
    regions: &[Region],
    ranges: &[RangeInclusive<f64>],
    counts: &mut [usize],
    limit: SearchLimit,
) -> Result<Round, Refusal> {
    let (least, most) = ends(ranges);
    let edges = [ranges.len(), counts.len()];
    let exceeded = || limit::of_regions(regions, &edges);
    naming(exceeded, round_on(counts, |counts| raw::round_within(&records(regions), [&least, &most], counts, limit.stated())))
}

/// The energy of counts: the sum of (count / ideal - 1)² over the edges.
///
/// ```
/// assert_eq!(juplatsk::energy(&[1, 3], &[2.0, 3.0]), Ok(0.25));
/// ```
///
/// Refused by 1, 8, 2, 9.
pub fn energy(counts: &[usize], edge_ideal: &[f64]) -> Result<f64, Refusal> {
    let edges = [edge_ideal.len(), counts.len()];
    naming(|| limit::of_regions(&[], &edges), raw::energy(&wide_counts(counts), edge_ideal))
}

/// Whether opposite sides of every region add up to the same. An edge without a count makes it false.
///
/// ```
/// use juplatsk::{constraints_hold, Region};
///
/// let tile = [Region::new([vec![0], vec![1], vec![2, 3], vec![4]])];
/// assert_eq!(constraints_hold(&tile, &[4, 1, 2, 2, 1]), Ok(true));
/// assert_eq!(constraints_hold(&tile, &[4, 1, 2, 3, 1]), Ok(false));
/// ```
///
/// Refused by 1 alone.
pub fn constraints_hold(regions: &[Region], counts: &[usize]) -> Result<bool, Refusal> {
    let exceeded = || limit::of_regions(regions, &[counts.len()]).or_else(|| limit::of_counts(counts));
    let held = match limit::of_counts(counts) {
        Some(_) => Err(Refusal::new(MALFORMED, 0, 0)),
        None => raw::constraints_hold(&records(regions), &wide_counts(counts)),
    };
    naming(exceeded, held)
}
