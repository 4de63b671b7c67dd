//! Sheets turned round (02, item 13): the exchange itself, the generated cases, and that a wrong exchange is noticed.

use compare::dice::Dice;
use compare::farm::{brick_wall, record};
use compare::generate::field;
use compare::generate_turned::{self, not_accepted, turned_case, EDGES};
use compare::limits::{RECORD, SIDE};
use compare::refusal::Stop;
use compare::turned::{exchanged, numbered, scribbled, turned};
use compare::{solver, stored};

/// A list with a rest behind its records, which stays.
fn sheets() -> Vec<Vec<u16>> {
    let mut dice = Dice(0x5EED_0411);
    let mut sheets = vec![vec![], vec![7; SIDE], record([&[0], &[1, 2], &[3, 4, 5], &[]]), brick_wall(2, 2).regions];
    sheets.extend((1..4).map(|rows| field(&mut dice, rows, 3).regions));
    sheets.push([&sheets[2][..], &[1, 2, 3]].concat());
    sheets
}

#[test]
fn twice_is_not_at_all() {
    for records in sheets() {
        for choice in 0..64 {
            let once = turned(&records, numbered(choice));
            assert_eq!(turned(&once, numbered(choice)), records);
            assert_eq!(once == records, exchanged(&records, &once) == Some(0));
        }
    }
}

#[test]
fn sides_of_a_region() {
    let sheet = [record([&[0], &[1, 2], &[3, 4, 5], &[]]), record([&[5], &[6], &[7], &[8]])].concat();
    let second = record([&[5], &[8], &[7], &[6]]);
    let choices = [
        (0b0001, [record([&[3, 4, 5], &[1, 2], &[0], &[]]), sheet[RECORD..].to_vec()], 1),
        (0b1010, [record([&[0], &[], &[3, 4, 5], &[1, 2]]), second.clone()], 2),
        (0b1011, [record([&[3, 4, 5], &[], &[0], &[1, 2]]), second], 3),
    ];
    for (choice, expected, pairs) in choices {
        let turned = turned(&sheet, numbered(choice));
        assert_eq!(turned, expected.concat());
        assert_eq!(exchanged(&sheet, &turned), Some(pairs));
        // What is not read makes no difference.
        assert_eq!(exchanged(&sheet, &scribbled(&turned, || 3)), Some(pairs));
    }
}

#[test]
fn not_turned() {
    let sheet = record([&[0], &[1], &[2, 3], &[4]]);
    let others = [
        record([&[0], &[1], &[3, 2], &[4]]),
        record([&[1], &[0], &[2, 3], &[4]]),
        record([&[0], &[1], &[0], &[4]]),
        record([&[2, 3], &[1], &[0, 2], &[4]]),
        [&sheet[..], &sheet].concat(),
        [&sheet[..], &[0]].concat(),
    ];
    for other in others {
        assert_eq!(exchanged(&sheet, &other), None);
    }
}

#[test]
fn places_past_the_number() {
    let scribbled = scribbled(&record([&[0], &[], &[2, 3], &[4; 32]]), || 9);
    assert_eq!(scribbled[..3], [1, 0, 9]);
    assert_eq!(scribbled[SIDE..SIDE + 2], [0, 9]);
    assert_eq!(scribbled[2 * SIDE..2 * SIDE + 4], [2, 2, 3, 9]);
    assert_eq!(scribbled[3 * SIDE..], [&[32][..], &[4; 32]].concat());
    // A number that is too large, and a list that is not whole.
    assert_eq!(compare::turned::scribbled(&[33; RECORD], || 9), [33; RECORD]);
    assert_eq!(compare::turned::scribbled(&[0; SIDE], || 9), [0; SIDE]);
}

/// Every generated case is answered as on the sheet as it was: an error if not. In most pairs what is read did change places.
#[test]
fn generated() {
    assert!(generate_turned::all().is_ok());
    let mut cases = generate_turned::fields().expect("the same answers");
    let records: Vec<Vec<u16>> = cases.iter_mut().filter_map(|case| case.records().cloned()).collect();
    let pairs: Vec<usize> = records.chunks(2).map(|pair| exchanged(&pair[0], &pair[1]).expect("turned")).collect();
    assert!(5 * pairs.iter().filter(|&&pairs| pairs > 0).count() > 4 * pairs.len());
}

/// Of a list that is not accepted the refusal may be another one; by the Rust.
#[test]
fn refusals() {
    let smallest = record([&[1], &[], &[0, 0], &[]]);
    let refused = |records: &[u16], edges: usize| match solver::round(records, &vec![1.0; edges], &vec![0; edges], None) {
        Err(Stop::Refused(refusal)) => (refusal.number, refusal.first, refusal.second),
        Err(Stop::Undecided(number)) => (number, 0, 0),
        other => panic!("{other:?}"),
    };
    assert_eq!(refused(&smallest, 1), (3, 0, 0));
    assert_eq!(refused(&turned(&smallest, |_| [true, false]), 1), (4, 0, 0));
    for (records, [before, after]) in not_accepted() {
        assert_eq!(refused(&records, EDGES), (before.number, before.first, before.second));
        assert_eq!(refused(&turned(&records, |_| [true; 2]), EDGES), (after.number, after.first, after.second));
    }
}

/// Only the numbers of edges change places, or only the places, or the edges of a side are listed the other way round: the answer is
/// another one, and that is an error.
#[test]
fn wrong_exchanges() {
    let sheet = scribbled(&record([&[0], &[], &[1, 2], &[]]), || 3);
    let numbers = |records: &[u16]| {
        let mut wrong = records.to_vec();
        wrong.swap(0, 2 * SIDE);
        wrong
    };
    let places = |records: &[u16]| numbers(&turned(records, |_| [true, false]));
    let backwards = |records: &[u16]| {
        let mut wrong = turned(records, |_| [true, false]);
        wrong[1..3].reverse();
        wrong
    };
    // By two entries a search comes to one of the two edges of the top.
    let solve = stored::solve(sheet.clone(), vec![1.0; 4], vec![9; 4], 2).expect("accepted");
    assert!(turned_case(&solve, |records| turned(records, |_| [true, true])).is_ok());
    for wrong in [numbers(&sheet), places(&sheet), backwards(&sheet)] {
        assert_eq!(exchanged(&sheet, &wrong), None);
        let problem = turned_case(&solve, |_| wrong).expect_err("another answer");
        assert!(problem.contains("the answer is another"), "{problem}");
    }
}
