//! The search limit of rounds and solves, stated or not (02, item 5): the farms on its edge, and how a stored case has it.

use compare::farm::Farm;
use compare::generate_limits::{LastWay, LAST_WAYS};
use compare::limits::{expansions, SEARCH, SEARCH_UNSTATED};
use compare::stored::{self, Case, Spacing};
use compare::{pack, ranges, reach, solver};

#[test]
fn stated_or_not() {
    assert_eq!((SEARCH, SEARCH_UNSTATED), (100_000, 10_000));
    assert_eq!([None, Some(0), Some(7), Some(u32::MAX)].map(expansions), [10_000, 0, 7, u32::MAX]);
}

// ------------------------------------------------------------------------------------------------------------------------------------
// Farms of which only the last way pays
// ------------------------------------------------------------------------------------------------------------------------------------

/// The entries of the search from an edge upward on zeros, counted by the Rust.
fn entries(way: &LastWay, edge: usize) -> usize {
    let Farm { regions, edges } = way.farm();
    let regions = solver::regions(&regions).expect("records");
    reach::entries(&regions, &vec![0; edges], &way.ideals(), (edge, 1), SEARCH as usize).expect("regions")
}

/// For each line, the first of which is one edge, the ways up to it.
fn added_up(lines: impl Iterator<Item = usize>) -> usize {
    let ways = lines.scan(1, |ways, line| {
        *ways *= line;
        Some(*ways)
    });
    ways.sum()
}

#[test]
fn entries_of_last_ways() {
    for way in LAST_WAYS {
        let last = way.farm().edges - 1;
        assert_eq!([entries(&way, 0), entries(&way, last)], way.entries, "{:?}", way.lines);
        assert_eq!([added_up(way.lines.iter().copied()), added_up(way.lines.iter().rev().copied())], way.entries, "{:?}", way.lines);
    }
}

/// The counts of a solve: by the Rust, by the model with that ideal as both ends, and within ranges.
fn solved(way: &LastWay, limit: Option<u32>) -> Vec<u32> {
    let Farm { regions, edges } = way.farm();
    let counts = solver::solve(&regions, &way.ideals(), limit).expect("accepted").counts;
    for spacing in [Spacing::Ideals(way.ideals()), way.ranges()] {
        let mut of_model = vec![9; edges];
        ranges::solve(&regions, spacing.ends(), &mut of_model, limit).expect("accepted");
        assert_eq!(of_model, counts, "{spacing:?} {limit:?}");
    }
    counts
}

/// The last way is found from an end just if its search may make all its entries.
#[test]
fn solves_of_last_ways() {
    for way in LAST_WAYS {
        let nothing = vec![0; way.farm().edges];
        let least = way.entries[0].min(way.entries[1]) as u32;
        let expected = |limit| if expansions(limit) < least { nothing.clone() } else { way.moved() };
        for limit in [None, Some(9_999), Some(10_000), Some(10_001), Some(least - 1), Some(least), Some(SEARCH)] {
            assert_eq!(solved(&way, limit), expected(limit), "{:?} {limit:?}", way.lines);
        }
    }
    // In words: the first farm's is found where no limit is stated, the others' not.
    let found = LAST_WAYS.map(|way| solved(&way, None) == way.moved());
    assert_eq!(found, [true, false, false]);
}

/// Round after round by 100,000 no search is cut.
#[test]
fn uncut_by_the_largest_limit() {
    for way in LAST_WAYS {
        let Farm { regions, edges } = way.farm();
        let mut counts = vec![0; edges];
        loop {
            let round = solver::round(&regions, &way.ideals(), &counts, Some(SEARCH)).expect("accepted");
            assert!(!round.cut, "{:?}", way.lines);
            if round.made.is_none() {
                break;
            }
            counts = round.counts;
        }
        assert_eq!(counts, way.moved());
    }
}

/// A round without a limit is marked cut in all three: in the first one by the search from the last line.
#[test]
fn cut_marks_of_last_ways() {
    for way in LAST_WAYS {
        let Farm { regions, edges } = way.farm();
        let cut = |limit| solver::round(&regions, &way.ideals(), &vec![0; edges], limit).expect("accepted").cut;
        let most = way.entries[0].max(way.entries[1]) as u32;
        assert_eq!([None, Some(most - 1), Some(most)].map(cut), [true, true, false], "{:?}", way.lines);
    }
}

// ------------------------------------------------------------------------------------------------------------------------------------
// As bytes
// ------------------------------------------------------------------------------------------------------------------------------------

/// All numbers of 32 bits of a stored case.
fn numbers(case: Result<Case, String>) -> Vec<u32> {
    let bytes = pack::one(&case.expect("a case")).expect("bytes");
    bytes.chunks_exact(4).map(|four| u32::from_le_bytes(four.try_into().expect("four bytes"))).collect()
}

/// The words of an f64, the lower one first.
const ONE: [u32; 2] = [0, 0x3ff0_0000];
const MINUS_ONE: [u32; 2] = [0, 0xbff0_0000];

#[test]
fn stored_solves() {
    let free = |limit: Option<u32>| numbers(stored::solve(vec![], vec![1.0], vec![9], limit));
    // Operation, no records, one ideal, one count; limit; verdict, moves, one count after.
    let case = |limit: [u32; 2], rest: [u32; 6]| [&[1, 0, 1][..], &ONE, &[1, 9], &limit, &rest].concat();
    assert_eq!(free(None), case([0, 0], [0, 0, 0, 1, 1, 1]));
    assert_eq!(free(Some(0)), case([1, 0], [0, 0, 0, 0, 1, 0]));
    assert_eq!(free(Some(100_001)), case([1, 100_001], [10, 0, 0, 0, 1, 9]));
    let within = Spacing::Within { least: vec![1.0], most: vec![1.0] };
    let within = numbers(stored::solve(vec![], within, vec![9], None));
    assert_eq!(within, [&[13, 0, 1][..], &ONE, &[1], &ONE, &[1, 9], &[0, 0], &[0, 0, 0, 1, 1, 1]].concat());
}

#[test]
fn stored_rounds() {
    let free = |limit: Option<u32>| numbers(stored::round(vec![], vec![1.0], vec![0], limit));
    // Operation, no records, one count, one round: one ideal; limit; verdict, move made, cost, cut, one count after.
    let case = |limit: [u32; 2], made: u32, cost: [u32; 2], rest: [u32; 3]| {
        [&[2, 0, 1, 0, 1, 1][..], &ONE, &limit, &[0, 0, 0, made], &cost, &rest].concat()
    };
    assert_eq!(free(None), case([0, 0], 1, MINUS_ONE, [0, 1, 1]));
    assert_eq!(free(Some(0)), case([1, 0], 0, [0, 0], [1, 1, 0]));
}

#[test]
fn mark() {
    assert_eq!(pack::file(&[]), Ok(b"replay 2\0\0\0\0".to_vec()));
}
