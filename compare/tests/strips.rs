//! Strips with no marked edges (02, item 2): what the model of lay (src/lay.rs) must say of them, worked out from 02's text; and the vectors.

use compare::dice::Dice;
use compare::farm::{cut_rows, record, without_pairs, Farm};
use compare::generate_strips::{self, odd_breaks};
use compare::geometry::Seams;
use compare::grids::{self, Source};
use compare::json;
use compare::landed::{applies, Changed, PassedOver};
use compare::lay::{self, Region};
use compare::limits::{RECORD, SIDE};
use compare::refusal::{Refusal, Stop};
use compare::stored::{self, Case, Spacing};
use compare::{pack, solver, vector};

fn square() -> [Vec<f64>; 4] {
    [vec![0.0, 0.0, 1.0, 0.0], vec![1.0, 0.0, 1.0, 1.0], vec![1.0, 1.0, 0.0, 1.0], vec![0.0, 1.0, 0.0, 0.0]]
}

/// The unit square with these edges on its sides.
fn region(sides: [&[u16]; 4], counts: &[u32], breaks: [&[f64]; 4]) -> Region {
    Region { record: record(sides), counts: counts.to_vec(), breaks: breaks.map(<[f64]>::to_vec), curves: square() }
}

/// What lay answers, and the bits that it writes; more is lent than any of these tests needs.
fn laid(region: Region) -> (Result<u32, Refusal>, Vec<u64>) {
    match grids::grid(Source::Lay(region), 64) {
        Ok(Case::Grid(case)) => (case.answer, case.written.iter().map(|x| x.to_bits()).collect()),
        other => panic!("lay is a grid: {other:?}"),
    }
}

fn answer(region: Region) -> Result<u32, Refusal> {
    laid(region).0
}

fn refused(number: u32, first: u32, second: u32) -> Result<u32, Refusal> {
    Err(Refusal { number, first, second })
}

fn bits(values: &[f64]) -> Vec<u64> {
    values.iter().map(|x| x.to_bits()).collect()
}

/// By side number.
fn seams(region: &Region) -> [Vec<u64>; 4] {
    let Seams { bottom, top, left, right } = lay::seams(region).unwrap_or_else(|stop| panic!("{stop}"));
    [&bottom, &right, &top, &left].map(|seam| bits(seam))
}

const NONE: &[f64] = &[];
const WHOLE: &[f64] = &[0.0, 1.0];

// ------------------------------------------------------------------------------------------------------------------------------------
// "means one cell across: its seams are 0 and 1"
// ------------------------------------------------------------------------------------------------------------------------------------

#[test]
fn seams_are_zero_and_one() {
    let (one_cell, halves) = (bits(&[0.0, 1.0]), bits(&[0.0, 0.5, 1.0]));
    assert_eq!(one_cell, [0, 0x3FF0_0000_0000_0000]);
    for unread in [&[][..], &[-0.0], &[-0.0, 1.0], &[0.25, 0.5], &[f64::NAN; 3]] {
        let level = region([&[], &[0], &[], &[0]], &[2], [unread, WHOLE, unread, WHOLE]);
        assert_eq!(seams(&level), [&one_cell, &halves, &one_cell, &halves].map(Vec::clone));
        let upright = region([&[0], &[], &[0], &[]], &[2], [WHOLE, unread, WHOLE, unread]);
        assert_eq!(seams(&upright), [&halves, &one_cell, &halves, &one_cell].map(Vec::clone));
        let both = region([&[]; 4], &[], [unread, NONE, WHOLE, unread]);
        assert_eq!(seams(&both), [(); 4].map(|()| one_cell.clone()));
    }
}

#[test]
fn quads_of_strips() {
    let two_up = [0.0, 0.0, 1.0, 0.0, 1.0, 0.5, 0.0, 0.5, 0.0, 0.5, 1.0, 0.5, 1.0, 1.0, 0.0, 1.0];
    let strip = region([&[], &[0], &[], &[1]], &[2, 2], [NONE, WHOLE, NONE, WHOLE]);
    assert_eq!(laid(strip), (Ok(2), bits(&two_up)));
    let two_across = [0.0, 0.0, 0.5, 0.0, 0.5, 1.0, 0.0, 1.0, 0.5, 0.0, 1.0, 0.0, 1.0, 1.0, 0.5, 1.0];
    let strip = region([&[0], &[], &[1], &[]], &[2, 2], [WHOLE, NONE, WHOLE, NONE]);
    assert_eq!(laid(strip), (Ok(2), bits(&two_across)));
    let one = [0.0, 0.0, 1.0, 0.0, 1.0, 1.0, 0.0, 1.0];
    assert_eq!(laid(region([&[]; 4], &[], [NONE; 4])), (Ok(1), bits(&one)));
}

/// A strip is what the same tile is with one edge of count 1 and the breaks 0 and 1 on each of its empty sides.
#[test]
fn as_with_one_edge() {
    let slanted: [&[f64]; 2] = [&[0.0, 0.25, 1.0], &[0.0, 0.5, 1.0]];
    let strip = region([&[], &[0, 1], &[], &[2, 3]], &[1, 2, 2, 1], [NONE, slanted[0], NONE, slanted[1]]);
    let marked = region([&[4], &[0, 1], &[5], &[2, 3]], &[1, 2, 2, 1, 1, 1], [WHOLE, slanted[0], WHOLE, slanted[1]]);
    assert_eq!(laid(strip.clone()).0, Ok(3));
    assert_eq!(laid(strip), laid(marked));
}

// ------------------------------------------------------------------------------------------------------------------------------------
// "and its breaks are not read, so 27 is not tested there"
// ------------------------------------------------------------------------------------------------------------------------------------

#[test]
fn breaks_are_not_read() {
    let any: Vec<Vec<f64>> = [0, 1, 2, 3, 32, 33, 34, 1024, 1025, 1026, 100_000].map(odd_breaks).to_vec();
    let zeros = |length: usize| vec![0.0; length];
    let lists: Vec<Vec<f64>> = any.into_iter().chain([1, 2, 1026].map(zeros)).chain([vec![1.0, 0.0], vec![f64::NAN]]).collect();
    let kinds: [[&[u16]; 4]; 3] = [[&[], &[0, 1], &[], &[2]], [&[0, 1], &[], &[2], &[]], [&[]; 4]];
    for sides in kinds {
        let breaks = sides.map(|side| even(side.len()));
        let plain = Region { breaks, ..region(sides, &[1, 2, 3], [NONE; 4]) };
        let expected = laid(plain.clone());
        assert_eq!(expected.0, Ok(if sides.concat().is_empty() { 1 } else { 3 }));
        for first in 0..lists.len() {
            let mut other = plain.clone();
            for side in (0..4).filter(|&side| lay::unread(&plain.record)[side]) {
                // Another list on each side.
                other.breaks[side].clone_from(&lists[(first + side) % lists.len()]);
            }
            assert_eq!(laid(other), expected, "{sides:?} {first}");
        }
    }
}

/// Breaks for so many edges; of none, no breaks.
fn even(edges: usize) -> Vec<f64> {
    (0..=edges).filter(|_| edges > 0).map(|k| k as f64 / edges as f64).collect()
}

/// Each side empty or with one edge of count 1, and with 0 to 3 breaks: 27, 18 or a quad, as the text says it side by side.
#[test]
fn every_short_tile() {
    let mut answers = [0; 3];
    for (empty, lengths) in (0..16).flat_map(|empty| (0..256).map(move |lengths| (empty, lengths))) {
        let is_empty = |side: u32| empty >> side & 1 == 1;
        let length = |side: u32| lengths >> (2 * side) & 3;
        let strip = |side: u32| is_empty(side) && is_empty((side + 2) % 4);
        let wrong = |side: &u32| !strip(*side) && length(*side) != if is_empty(*side) { 1 } else { 2 };
        let short = |side: &u32| !strip(*side) && is_empty(*side);
        let (kind, expected) = match ([0, 1, 2, 3].into_iter().find(wrong), [0, 2, 3, 1].into_iter().find(short)) {
            (Some(side), _) => (0, refused(27, side, 0)),
            (None, Some(side)) => (1, refused(18, side, 0)),
            (None, None) => (2, Ok(1)),
        };
        answers[kind] += 1;
        let sides = [0, 1, 2, 3].map(|side| if is_empty(side) { &[][..] } else { &[0][..] });
        let breaks = [0, 1, 2, 3].map(|side| &[0.0, 1.0, 0.0][..length(side) as usize]);
        assert_eq!(answer(region(sides, &[1], breaks)), expected, "{sides:?} {breaks:?}");
    }
    // A quad: all sides marked and 2 breaks each; one pair empty, 16 ways each; both, 256.
    assert_eq!(answers[2], 1 + 2 * 16 + 256);
    // 18: one side of a pair empty, the other pair marked (1), empty (16), or with one empty side too.
    assert_eq!(answers[1], 4 + 4 * 16 + 4);
}

/// "27 (each over sides 0 to 3)": among the sides whose breaks are read, the first.
#[test]
fn order_of_27() {
    let wrong: &[f64] = &[0.5; 4];
    let level = |right, left| answer(region([&[], &[0], &[], &[0]], &[1], [wrong, right, wrong, left]));
    assert_eq!(level(wrong, wrong), refused(27, 1, 0));
    assert_eq!(level(WHOLE, wrong), refused(27, 3, 0));
    assert_eq!(level(WHOLE, WHOLE), Ok(1));
    let upright = |bottom, top| answer(region([&[0], &[], &[0], &[]], &[1], [bottom, wrong, top, NONE]));
    assert_eq!(upright(NONE, NONE), refused(27, 0, 0));
    assert_eq!(upright(WHOLE, NONE), refused(27, 2, 0));
    assert_eq!(upright(WHOLE, WHOLE), Ok(1));
}

// ------------------------------------------------------------------------------------------------------------------------------------
// "One empty side opposite a side with edges is treated as before"
// ------------------------------------------------------------------------------------------------------------------------------------

#[test]
fn one_empty_side() {
    for side in 0..4 {
        let tile = |breaks: &[f64]| {
            let (mut sides, mut lists): ([&[u16]; 4], [&[f64]; 4]) = ([&[0]; 4], [WHOLE; 4]);
            (sides[side], lists[side]) = (&[], breaks);
            answer(region(sides, &[1], lists))
        };
        for wrong in [NONE, WHOLE, &[0.0, 0.5, 1.0]] {
            assert_eq!(tile(wrong), refused(27, side as u32, 0));
        }
        for right in [0.0, 1.0, f64::NAN] {
            assert_eq!(tile(&[right]), refused(18, side as u32, 0));
        }
    }
}

/// An edge of count 0 makes no side empty: the breaks are read, and the seam has one value.
#[test]
fn counts_of_zero() {
    let sides: [&[u16]; 4] = [&[0], &[1], &[0], &[1]];
    assert_eq!(answer(region(sides, &[0, 1], [WHOLE; 4])), refused(18, 0, 0));
    assert_eq!(answer(region(sides, &[1, 0], [WHOLE; 4])), refused(18, 3, 0));
    assert_eq!(answer(region(sides, &[0, 1], [NONE, WHOLE, NONE, WHOLE])), refused(27, 0, 0));
    assert_eq!(answer(region(sides, &[1, 0], [WHOLE, NONE, WHOLE, NONE])), refused(27, 1, 0));
    let opposite: [&[u16]; 4] = [&[], &[1], &[0], &[1]];
    assert_eq!(answer(region(opposite, &[0, 1], [&[0.0], WHOLE, WHOLE, WHOLE])), refused(18, 0, 0));
    assert_eq!(answer(region(opposite, &[0, 1], [NONE, WHOLE, WHOLE, WHOLE])), refused(27, 0, 0));
    // The long sides of a strip have no cell.
    assert_eq!(answer(region([&[], &[0], &[], &[0]], &[0], [NONE, WHOLE, NONE, WHOLE])), refused(18, 3, 0));
}

// ------------------------------------------------------------------------------------------------------------------------------------
// The other tests, as before
// ------------------------------------------------------------------------------------------------------------------------------------

#[test]
fn order_of_tests() {
    let strip = |edge: u16, count: u32, right: &[f64]| region([&[], &[edge], &[], &[0]], &[count, 1], [NONE, right, NONE, WHOLE]);
    assert_eq!(answer(strip(0, 1, WHOLE)), Ok(1));
    // 3 before 27, 27 before 1 for a seam too long, that before the curves.
    assert_eq!(answer(strip(2, 1, NONE)), refused(3, 0, 1));
    assert_eq!(answer(strip(0, 1025, NONE)), refused(27, 1, 0));
    let mut long = strip(0, 1025, WHOLE);
    long.curves[0].truncate(2);
    assert_eq!(answer(long.clone()), refused(1, 0, 0));
    long.counts[0] = 1024;
    assert_eq!(answer(long.clone()), refused(13, 0, 0));
    long.curves = square();
    assert_eq!(answer(long), refused(11, 0, 0));
    // 22 is of the long sides alone.
    assert_eq!(answer(strip(1, 3, WHOLE)), refused(22, 1, 0));
    let mut odd = strip(2, 1, NONE);
    odd.curves[2].push(1.0);
    assert_eq!(answer(odd), refused(1, 0, 0));
    let mut counts = region([&[]; 4], &[], [NONE; 4]);
    counts.counts = vec![1; 257];
    assert_eq!(answer(counts), refused(1, 0, 0));
}

#[test]
fn unread_sides() {
    let both = record([&[]; 4]);
    assert_eq!(lay::unread(&both), [true; 4]);
    assert_eq!(lay::unread(&record([&[], &[7], &[], &[]])), [true, false, true, false]);
    assert_eq!(lay::unread(&record([&[0], &[], &[], &[]])), [false, true, false, true]);
    assert_eq!(lay::unread(&record([&[0]; 4])), [false; 4]);
    // No record that lay accepts.
    assert_eq!(lay::unread(&both[1..]), [false; 4]);
    assert_eq!(lay::unread(&both.repeat(2)), [false; 4]);
    let mut too_many = both;
    too_many[3 * SIDE] = 33;
    assert_eq!(lay::unread(&too_many), [false; 4]);
}

/// The stored cases of strips have each of these answers.
#[test]
fn generated() {
    let cases = generate_strips::all().expect("the oracle and the model answer");
    let numbers: Vec<u32> = cases.iter().map(|case| case.refusal().map_or(0, |refusal| refusal.number)).collect();
    for number in [0, 1, 3, 11, 15, 16, 17, 18, 19, 20, 21, 22, 25, 27] {
        assert!(numbers.contains(&number), "{number}");
    }
}

// ------------------------------------------------------------------------------------------------------------------------------------
// "The solver is untouched, and the equal-seams promise covers such strips too"
// ------------------------------------------------------------------------------------------------------------------------------------

/// Farms of rows of which every second pair of sides is emptied, solved by the Rust; each tile is laid from these counts, and none is 22.
/// With one piece more on an edge some are.
#[test]
fn tiles_of_solved_farms() {
    let mut dice = Dice(0x5EED_0502);
    let (mut tiles, mut strips, mut accepted, mut unequal) = (0, 0, 0, 0);
    for _ in 0..300 {
        let Farm { regions, edges } = cut_rows(1 + dice.below(3) as usize, 1 + dice.below(3), || dice.below(2) == 0);
        let regions = without_pairs(&regions, || dice.below(2) == 0);
        let ideals = dice.ideals(edges);
        let solved = solver::solve(&regions, &ideals, Some(1000)).unwrap_or_else(|stop| panic!("{stop}"));
        for record in regions.chunks_exact(RECORD) {
            let unread = lay::unread(record);
            let breaks = std::array::from_fn(|side| even(record[side * SIDE].into()));
            let tile = Region { record: record.to_vec(), counts: solved.counts.clone(), breaks, curves: square() };
            let mut more = tile.clone();
            more.counts[dice.below(edges as u32) as usize] += 1;
            unequal += usize::from(matches!(answer(more), Err(Refusal { number: 22, .. })));
            let answer = answer(tile);
            assert!(!matches!(answer, Err(Refusal { number: 22 | 27, .. })), "{answer:?}");
            tiles += 1;
            strips += usize::from(unread.contains(&true));
            accepted += usize::from(answer.is_ok());
        }
    }
    assert!(strips > tiles / 2 && accepted > tiles / 4 && unequal > 10, "{tiles} {strips} {accepted} {unequal}");
}

/// Emptied pairs take no list out of those that are accepted.
#[test]
fn emptied_farms_are_accepted() {
    let mut dice = Dice(0x5EED_0503);
    for _ in 0..100 {
        let farm = cut_rows(2, 3, || dice.below(2) == 0);
        let regions = without_pairs(&farm.regions, || dice.below(2) == 0);
        let case = stored::round(regions, Spacing::Ideals(vec![1.0; farm.edges]), vec![1; farm.edges], 10).expect("the oracle answers");
        assert_eq!(case.refusal(), None);
    }
}

// ------------------------------------------------------------------------------------------------------------------------------------
// The vectors
// ------------------------------------------------------------------------------------------------------------------------------------

const VECTORS: &str = concat!(env!("CARGO_MANIFEST_DIR"), "/../../shared/oracle");

/// The text of a file of the vectors; none if it is not there, since the vectors are no part of this repository.
fn text(name: &str) -> Option<String> {
    let path = format!("{VECTORS}/{name}");
    let read = std::fs::read_to_string(&path);
    read.inspect_err(|problem| println!("passed over, {path}: {problem}")).ok()
}

/// Whether the model answers a vector of lay as it says; none if it is of another function.
fn agrees(line: &str) -> Option<bool> {
    let case = vector::case(line).expect(line)?;
    if !matches!(&case, Case::Grid(grid) if matches!(grid.source, Source::Lay(_))) {
        return None;
    }
    let again = stored::asked_again(&case).expect(line);
    Some(pack::one(&case).expect(line) == pack::one(&again).expect(line))
}

/// All vectors of lay that apply, by file: how many, and how many do not.
#[test]
fn lays_of_the_vectors() {
    for (name, expected) in [("item02-strips", [60, 1]), ("item09-places", [8, 0]), ("item12-stones", [9, 0]), ("item12-from01", [4, 0])] {
        let Some(text) = text(&format!("vectors02/{name}.jsonl")) else { continue };
        let mut run = [0; 2];
        for line in text.lines() {
            let Some(agrees) = agrees(line) else { continue };
            let applies = applies(&json::parse(line).expect(line)) == Ok(true);
            assert!(agrees || !applies, "{line}");
            run[usize::from(!applies)] += 1;
        }
        assert_eq!(run, expected, "{name}");
    }
}

/// 01's vectors of lay hold just if they are not listed as changed: two are, which were 18.
#[test]
fn lays_of_01() {
    let (Some(vectors), Some(list)) = (text("vectors32/lay_rules.jsonl"), text("vectors02/changed01.json")) else { return };
    let (mut changed, mut passed_over) = (Changed::default(), PassedOver::default());
    changed.add(&list).expect("a list");
    let mut run = 0;
    for line in vectors.lines() {
        let Some(agrees) = agrees(line) else { continue };
        assert_eq!(agrees, changed.holds(line, &mut passed_over).expect(line), "{line}");
        run += 1;
    }
    assert_eq!((run, passed_over.changed, passed_over.not_applying), (39, 2, 0));
}

/// A broken record has no seams.
#[test]
fn no_seams() {
    let mut broken = region([&[]; 4], &[], [NONE; 4]);
    broken.record.pop();
    assert!(matches!(lay::seams(&broken), Err(Stop::Undecided(1))));
}
