//! Cases of lay on strips (02, item 2): two opposite sides list no edge, so there is one cell across and their breaks are not read. And on
//! what is no strip: one side empty alone, edges that have no cell. Answers that 01 and 02 name are expected here; the grid is the oracle's.

use crate::dice::Dice;
use crate::farm::{lists, record};
use crate::generate::{expected, Cases, PLACES};
use crate::generate_geometry::{
    clockwise, even_seam, fault, faults_of, moved, no_length, no_room, odd, ordered, random_tile, seam_ends, seam_falling,
    seam_out_of_range, wide_tile, Fault, Input,
};
use crate::generate_stones::{self, End, MISSED, ZEROS};
use crate::limits;
use crate::refusal::Refusal;
use crate::stored::Case;

pub fn all() -> Cases {
    let parts = [
        unread_breaks(),
        long_lists(),
        one_quad(),
        no_counts(),
        empty_alone(),
        empty_on_neighbours(),
        three_empty(),
        no_cells(),
        strip_faults(),
        buffers(),
        flat_rows(),
        wide_strips(),
        long_strips(),
        slanted(),
        far_out(),
        stones(),
        random_strips(),
    ];
    let mut cases = Vec::new();
    for part in parts {
        cases.extend(part?);
    }
    Ok(cases)
}

/// Opposite sides.
const PAIRS: [[usize; 2]; 2] = [[0, 2], [1, 3]];

/// The sides in 01's order of seams: bottom, top, left, right.
const SEAMS: [usize; 4] = [0, 2, 3, 1];

/// The bent tile with no edge and no breaks on these sides; each of the others has two edges of count 1. Its other breaks slant.
pub fn emptied(sides: &[usize]) -> Input {
    let mut input = Input::good();
    for &side in sides {
        input.record[side * limits::SIDE] = 0;
        input.seams[side].clear();
    }
    input
}

/// Breaks, as many as wanted, of which none would pass if they were read: NaN, infinite, outside, falling, -0.
pub fn odd_breaks(length: usize) -> Vec<f64> {
    let odd = [f64::NAN, f64::INFINITY, 2.0, -0.0, -1.0, f64::NEG_INFINITY, 0.5, 1e-300];
    odd.into_iter().cycle().take(length).collect()
}

/// The case, if it is accepted with so many quads.
fn accepted(case: Case, quads: u32) -> Result<Case, String> {
    match &case {
        Case::Grid(grid) if grid.answer == Ok(quads) => Ok(case),
        _ => Err(format!("a generated strip should have {quads} quads: {case:?}")),
    }
}

/// The case, if it is refused by this number with this side.
fn refused(case: Case, number: u32, side: usize) -> Result<Case, String> {
    expected(case, Refusal { number, first: side as u32, second: 0 })
}

// ------------------------------------------------------------------------------------------------------------------------------------
// Breaks that are not read
// ------------------------------------------------------------------------------------------------------------------------------------

/// Each pair without edges, with no breaks, one, two, more, as many on both sides and not; of the other pair two edges a side.
fn unread_breaks() -> Cases {
    let plain: [[&[f64]; 2]; 12] = [
        [&[], &[]],
        [&[0.0], &[0.0]],
        [&[0.0], &[1.0]],
        [&[0.0, 1.0], &[0.0, 1.0]],
        [&[0.0, 0.25, 1.0], &[0.0, 0.75, 1.0]],
        [&[], &[0.0]],
        [&[0.0, 1.0], &[]],
        [&[-0.0], &[-0.0, 1.0]],
        [&[1.0, 0.0], &[0.75, 0.5, 0.25]],
        [&[f64::NAN], &[f64::NAN, f64::NAN]],
        [&[f64::INFINITY, f64::NEG_INFINITY], &[f64::NEG_INFINITY]],
        [&[5.0], &[-5.0, 1e300]],
    ];
    let mut cases = Vec::new();
    for pair in PAIRS {
        for lists in plain {
            cases.push(accepted(with_breaks(emptied(&pair), pair, lists).lay()?, 2)?);
        }
        let places = usize::from(PLACES);
        for lengths in [[3, 4], [0, places], [places + 1, places + 2], [17, 1]] {
            let lists = lengths.map(odd_breaks);
            cases.push(accepted(with_breaks(emptied(&pair), pair, [&lists[0], &lists[1]]).lay()?, 2)?);
        }
    }
    Ok(cases)
}

fn with_breaks(mut input: Input, sides: [usize; 2], lists: [&[f64]; 2]) -> Input {
    for (side, breaks) in sides.into_iter().zip(lists) {
        input.seams[side] = breaks.to_vec();
    }
    input
}

/// Breaks about as many as a seam may have, and one more. Few, since they are long.
fn long_lists() -> Cases {
    let most = limits::SEAM;
    let mut cases = Vec::new();
    for (pair, lengths) in PAIRS.into_iter().zip([[most, most + 1], [most + 1, 0]]) {
        let lists = lengths.map(odd_breaks);
        cases.push(accepted(with_breaks(emptied(&pair), pair, [&lists[0], &lists[1]]).lay()?, 2)?);
    }
    let mut quad = emptied(&[0, 1, 2, 3]);
    quad.seams[3] = even_seam(most + 1);
    cases.push(accepted(quad.lay()?, 1)?);
    // Where they are read, it is 27, also on a side that is empty alone.
    let mut alone = emptied(&[2]);
    alone.seams[2] = even_seam(most + 1);
    cases.push(refused(alone.lay()?, 27, 2)?);
    Ok(cases)
}

/// No edge on any side: one quad, whatever the breaks.
fn one_quad() -> Cases {
    let mut cases = Vec::new();
    for lengths in [[0, 0, 0, 0], [1, 1, 1, 1], [2, 2, 2, 2], [0, 1, 2, 3], [3, 0, 1, 0], [1, 0, 0, 34], [0, 33, 0, 0]] {
        let mut quad = emptied(&[0, 1, 2, 3]);
        quad.seams = lengths.map(odd_breaks);
        cases.push(accepted(quad.lay()?, 1)?);
    }
    for room in [-8, -1, 1, 9] {
        let case = emptied(&[0, 1, 2, 3]).room(room).lay()?;
        cases.push(if room < 0 { expected(case, Refusal::plain(11))? } else { accepted(case, 1)? });
    }
    Ok(cases)
}

/// A tile without edges needs no counts; too many are 1 there too. Nor do counts of other edges matter to a strip.
fn no_counts() -> Cases {
    let mut cases = Vec::new();
    for counts in [0, 1, 256, 257] {
        let mut quad = emptied(&[0, 1, 2, 3]);
        quad.counts = vec![u32::MAX; counts];
        let case = quad.lay()?;
        cases.push(if counts > limits::EDGES { expected(case, Refusal::plain(1))? } else { accepted(case, 1)? });
    }
    for pair in PAIRS {
        let mut strip = emptied(&pair);
        for edge in pair.into_iter().flat_map(|side| [2 * side, 2 * side + 1]) {
            strip.counts[edge] = [0, 1025, u32::MAX][edge % 3];
        }
        cases.push(accepted(strip.lay()?, 2)?);
    }
    Ok(cases)
}

// ------------------------------------------------------------------------------------------------------------------------------------
// No strips
// ------------------------------------------------------------------------------------------------------------------------------------

/// One side empty alone: 27 if its breaks are not one, else 18, since its seam has one value. Also opposite edges of count 0.
fn empty_alone() -> Cases {
    let mut cases = Vec::new();
    for side in 0..4 {
        for length in [0, 2, 3] {
            let mut input = emptied(&[side]);
            input.seams[side] = even_seam(length);
            cases.push(refused(input.lay()?, 27, side)?);
        }
        for only in [0.0, 1.0, 0.5, f64::NAN] {
            let mut input = emptied(&[side]);
            input.seams[side] = vec![only];
            cases.push(refused(input.clone().lay()?, 18, side)?);
            let opposite = (side + 2) % 4;
            input.counts[2 * opposite..2 * opposite + 2].fill(0);
            cases.push(refused(input.clone().lay()?, 18, first_seam(&[side, opposite]))?);
            input.seams[side].push(1.0);
            cases.push(refused(input.lay()?, 27, side)?);
        }
    }
    Ok(cases)
}

/// Which of these sides has the seam that is tested first.
fn first_seam(sides: &[usize]) -> usize {
    SEAMS.into_iter().find(|side| sides.contains(side)).unwrap_or_default()
}

/// Two neighbouring sides empty, so each opposite one with edges: 27 by side number, 18 in the order of seams.
fn empty_on_neighbours() -> Cases {
    let mut cases = Vec::new();
    for sides in [[0, 1], [1, 2], [2, 3], [0, 3]] {
        for wrong in [[false, false], [true, false], [false, true], [true, true]] {
            let mut input = emptied(&sides);
            for (side, wrong) in sides.into_iter().zip(wrong) {
                input.seams[side] = if wrong { vec![] } else { vec![0.0] };
            }
            let first_wrong = sides.into_iter().zip(wrong).find(|(_, wrong)| *wrong);
            cases.push(match first_wrong {
                Some((side, _)) => refused(input.lay()?, 27, side)?,
                None => refused(input.lay()?, 18, first_seam(&sides))?,
            });
        }
    }
    Ok(cases)
}

/// A strip of which one long side is empty too: its breaks are read, those of the empty pair are not.
fn three_empty() -> Cases {
    let mut cases = Vec::new();
    for kept in 0..4 {
        let alone = (kept + 2) % 4;
        for length in 0..4 {
            let mut input = emptied(&[0, 1, 2, 3].map(|side| if side == kept { alone } else { side }));
            input.seams[(kept + 1) % 4] = odd_breaks(length);
            input.seams[alone] = even_seam(length);
            cases.push(refused(input.lay()?, if length == 1 { 18 } else { 27 }, alone)?);
        }
    }
    Ok(cases)
}

/// Edges of count 0 on both sides: these are no empty sides, so it is 18, and 27 where the breaks are wrong. Also as the long sides of a
/// strip, and as the only edge of a side.
fn no_cells() -> Cases {
    let mut cases = Vec::new();
    for pair in PAIRS {
        for unmarked in [vec![], PAIRS[(pair[0] + 1) % 2].to_vec()] {
            let mut input = emptied(&unmarked);
            for side in pair {
                input.counts[2 * side..2 * side + 2].fill(0);
            }
            cases.push(refused(input.clone().lay()?, 18, first_seam(&pair))?);
            for side in pair {
                let mut wrong = input.clone();
                wrong.seams[side].clear();
                cases.push(refused(wrong.lay()?, 27, side)?);
            }
            let mut single = input;
            for side in pair {
                single.record[side * limits::SIDE] = 1;
                single.seams[side] = vec![0.0, 1.0];
            }
            cases.push(refused(single.lay()?, 18, first_seam(&pair))?);
        }
    }
    Ok(cases)
}

// ------------------------------------------------------------------------------------------------------------------------------------
// Faults of strips, and their limits
// ------------------------------------------------------------------------------------------------------------------------------------

/// Every fault of a strip alone and every two at once, by 01's order, with breaks of its empty sides that would be refused too.
fn strip_faults() -> Cases {
    let mut cases = Vec::new();
    for (unmarked, long) in [(PAIRS[0], PAIRS[1]), (PAIRS[1], PAIRS[0])] {
        let mut strip = emptied(&unmarked);
        strip.seams[unmarked[0]] = odd_breaks(2);
        strip.seams[unmarked[1]] = odd_breaks(3);
        cases.extend(faults_of(&strip, &in_order(unmarked, long), Input::lay)?);
    }
    Ok(cases)
}

/// One fault of each kind, those of seams in the order of the long sides' seams.
fn in_order(unmarked: [usize; 2], long: [usize; 2]) -> Vec<Fault> {
    let first = first_seam(&long);
    let second = long[0] + long[1] - first;
    let broken = fault(1, 0, 0, move |i| i.record[unmarked[1] * limits::SIDE] = PLACES + 1);
    let edge = |side: usize| fault(3, 0, side as u32, move |i| i.record[side * limits::SIDE + 1] = 300);
    let breaks = |side: usize| fault(27, side as u32, 0, move |i| i.seams[side].push(1.0));
    let too_long = fault(1, 0, 0, move |i| i.counts[2 * second] = 1025);
    let apart = fault(16, 2, 0, |i| i.curves[2][4] += 0.5);
    let none = fault(18, second as u32, 0, move |i| i.counts[2 * second..2 * second + 2].fill(0));
    let unequal = fault(22, long[0] as u32, 0, move |i| i.counts[2 * second + 1] = 2);
    let flat = fault(25, 0, 0, move |i| long.into_iter().for_each(|side| i.seams[side] = vec![0.0, 0.0, 1.0]));
    ordered([
        vec![broken],
        odd(),
        vec![edge(long[0]), edge(long[1]), breaks(long[0]), breaks(long[1]), too_long, no_length(1), apart],
        clockwise(),
        vec![seam_out_of_range(first as u32), seam_ends(first as u32), none, seam_falling(second as u32), unequal],
        no_room(),
        vec![flat],
    ])
}

/// Outputs longer and shorter than a strip needs.
fn buffers() -> Cases {
    let mut cases = Vec::new();
    for pair in PAIRS {
        for room in [-16, -8, -1, 0, 1, 8] {
            let case = emptied(&pair).room(room).lay()?;
            cases.push(if room < 0 { expected(case, Refusal::plain(11))? } else { accepted(case, 2)? });
        }
    }
    Ok(cases)
}

/// A row of no height, and a tile that folds: 25, which zeroes the needed part alone.
fn flat_rows() -> Cases {
    let mut cases = Vec::new();
    for (unmarked, long) in [(PAIRS[0], PAIRS[1]), (PAIRS[1], PAIRS[0])] {
        for (row, middle) in [(0, 0.0), (1, 1.0)] {
            let mut strip = emptied(&unmarked);
            long.into_iter().for_each(|side| strip.seams[side] = vec![0.0, middle, 1.0]);
            let (first, second) = if long[0] == 0 { (row, 0) } else { (0, row) };
            for room in [0, 5] {
                cases.push(expected(strip.clone().room(room).lay()?, Refusal { number: 25, first, second })?);
            }
        }
    }
    let mut folded = emptied(&[0, 1, 2, 3]);
    folded.curves = generate_stones::curves([[0.0, 0.0], [1.0, 0.0], [0.1, 0.1], [0.0, 1.0]], [[End::Plain; 2]; 4]);
    cases.push(folded.clone().lay()?);
    folded.curves[0] = vec![0.0, 0.0, 0.5, 9.0, 1.0, 0.0];
    folded.record[limits::SIDE] = 2;
    folded.record[3 * limits::SIDE] = 2;
    folded.seams[1] = vec![0.0, 0.5, 1.0];
    folded.seams[3] = vec![0.0, 0.5, 1.0];
    cases.push(folded.room(3).lay()?);
    Ok(cases)
}

/// So many edges on both long sides.
fn wide_strip(unmarked: [usize; 2], edges: u16) -> Input {
    let sides = [0, 1, 2, 3].map(|side| if unmarked.contains(&side) { 0 } else { edges });
    let mut strip = wide_tile(sides);
    unmarked.into_iter().for_each(|side| strip.seams[side].clear());
    strip
}

/// Long sides of one edge, and of as many as they may have, one less and one more; one edge against as many as there may be.
fn wide_strips() -> Cases {
    let mut cases = Vec::new();
    for pair in PAIRS {
        for edges in [1, 2, PLACES - 1, PLACES] {
            cases.push(accepted(wide_strip(pair, edges).lay()?, edges.into())?);
        }
        let long = pair[0] + 1;
        let mut more = wide_strip(pair, PLACES);
        more.record[long * limits::SIDE] = PLACES + 1;
        cases.push(expected(more.lay()?, Refusal::plain(1))?);
        let mut against = wide_strip(pair, PLACES);
        against.record[long * limits::SIDE] = 1;
        against.seams[long] = vec![0.0, 1.0];
        let edge = usize::from(against.record[long * limits::SIDE + 1]);
        against.counts[edge] = PLACES.into();
        cases.push(accepted(against.lay()?, PLACES.into())?);
    }
    Ok(cases)
}

/// Strips of 1,024 cells, one less and one more: with no room 11, else 1, and each pair once with all its quads.
fn long_strips() -> Cases {
    let mut cases = Vec::new();
    for pair in PAIRS {
        for count in [limits::CELLS - 1, limits::CELLS, limits::CELLS + 1, u32::MAX] {
            let mut strip = wide_strip(pair, 1);
            strip.counts.fill(count);
            let number = if count > limits::CELLS { 1 } else { 11 };
            cases.push(expected(strip.room(isize::MIN).lay()?, Refusal::plain(number))?);
        }
        let mut strip = wide_strip(pair, PLACES);
        strip.counts.fill(limits::CELLS / u32::from(PLACES));
        cases.push(accepted(strip.lay()?, limits::CELLS)?);
    }
    Ok(cases)
}

// ------------------------------------------------------------------------------------------------------------------------------------
// Shapes
// ------------------------------------------------------------------------------------------------------------------------------------

/// Breaks of the long sides that lie ever more apart, up to lines from corner to corner.
fn slanted() -> Cases {
    let mut cases = Vec::new();
    for (unmarked, long) in [(PAIRS[0], PAIRS[1]), (PAIRS[1], PAIRS[0])] {
        for off in [0.5, 0.25, 0.01, 1e-9, 1e-16, 0.0] {
            let mut strip = emptied(&unmarked);
            strip.seams[long[0]] = vec![0.0, off, 1.0];
            strip.seams[long[1]] = vec![0.0, 1.0 - off, 1.0];
            cases.push(strip.clone().lay()?);
            // Several cells an edge, and other numbers of edges on both sides.
            strip.counts.fill(3);
            cases.push(strip.clone().lay()?);
            strip.record[long[1] * limits::SIDE] = 1;
            strip.seams[long[1]].remove(1);
            strip.counts[2 * long[1]] = 6;
            cases.push(accepted(strip.lay()?, 6)?);
        }
    }
    Ok(cases)
}

/// Strips and one quad, five thousand kilometres out.
fn far_out() -> Cases {
    let mut cases = Vec::new();
    for sides in [&[0, 2][..], &[1, 3], &[0, 1, 2, 3]] {
        for (far, size) in [(5e6, 1.0), (-5e9, 250.0)] {
            cases.push(moved(emptied(sides), |x, y| [far + size * x, far + size * y]).lay()?);
        }
    }
    Ok(cases)
}

/// On curves that end on their stones (02, item 12).
fn stones() -> Cases {
    let mut cases = Vec::new();
    for (corners, end) in [(MISSED, End::Plain), (ZEROS, End::MinusZero), (ZEROS, End::Twice), (ZEROS, End::Absorbed)] {
        for sides in [&[0, 2][..], &[1, 3], &[0, 1, 2, 3]] {
            let mut strip = emptied(sides);
            strip.curves = generate_stones::curves(corners, [[end, End::Plain]; 4]);
            cases.push(strip.lay()?);
        }
    }
    Ok(cases)
}

/// Random tiles of which each side may be empty: often a pair, now and then one side alone. Breaks of an empty side are anything.
fn random_strips() -> Cases {
    let mut dice = Dice(0x5EED_0501);
    let mut cases = Vec::new();
    for _ in 0..100 {
        let mut input = random_tile(&mut dice);
        let mut empty = [dice.below(2) == 0, dice.below(3) == 0].repeat(2);
        if dice.below(8) == 0 {
            let side = dice.below(4) as usize;
            empty[side] = !empty[side];
        }
        let mut sides: [Vec<u16>; 4] = Default::default();
        input.counts.clear();
        for side in 0..4 {
            if empty[side] {
                input.seams[side] = odd_breaks(dice.below(4) as usize);
                continue;
            }
            // Every cell by an edge of its own.
            let start = input.counts.len() as u16;
            let cells = input.seams[side].len() as u16 - 1;
            sides[side] = (start..start + cells).collect();
            input.counts.resize((start + cells).into(), 1);
        }
        input.record = record(lists(&sides));
        cases.push(input.lay()?);
    }
    Ok(cases)
}
