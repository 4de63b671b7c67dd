//! The plain model of rounds and solves within ranges (src/ranges.rs), held against the vectors of 02's items 5 and 7, and on equal ends
//! against the published Rust.

use compare::dice::Dice;
use compare::farm::{self, record, Farm};
use compare::generate::{self, LISTED};
use compare::generate_wide::{wide_fields, Wide};
use compare::json::{self, Json};
use compare::limits::SEARCH;
use compare::ranges::{self, Ends};
use compare::refusal::Refusal;
use compare::{solver, stored, vector, words};

// ------------------------------------------------------------------------------------------------------------------------------------
// The vectors
// ------------------------------------------------------------------------------------------------------------------------------------

const VECTORS: &str = concat!(env!("CARGO_MANIFEST_DIR"), "/../../shared/oracle/vectors02");

/// The vectors of a file; none if it is not there, since the vectors are no part of this repository.
fn vectors(name: &str) -> Vec<Json> {
    let path = format!("{VECTORS}/{name}");
    match std::fs::read_to_string(&path) {
        Ok(text) => text.lines().map(|line| json::parse(line).expect(line)).collect(),
        Err(problem) => {
            println!("passed over, {path}: {problem}");
            Vec::new()
        }
    }
}

fn field<'a>(object: &'a Json, name: &str) -> &'a Json {
    object.field(name).expect("the format of the vectors")
}

fn numbers(object: &Json, name: &str) -> Vec<u32> {
    field(object, name).list().expect(name).iter().map(|number| vector::whole(number).expect(name)).collect()
}

fn floats(object: &Json, name: &str) -> Vec<f64> {
    field(object, name).list().expect(name).iter().map(|digits| vector::float(digits).expect(name)).collect()
}

fn records(object: &Json) -> Vec<u16> {
    numbers(object, "regions").into_iter().map(|place| place as u16).collect()
}

fn limit(object: &Json) -> Option<u32> {
    vector::limit(object).expect("limit")
}

/// The ends of a call; an ideal is a range with equal ends.
fn ends(object: &Json) -> (Vec<f64>, Vec<f64>) {
    match object.field("ideals") {
        Ok(_) => (floats(object, "ideals"), floats(object, "ideals")),
        Err(_) => (floats(object, "least"), floats(object, "most")),
    }
}

fn refusal(out: &Json) -> Option<Refusal> {
    let number = vector::whole(field(out, "refusal")).expect("refusal");
    let place = |index: usize| numbers(out, "places")[index];
    (number != 0).then(|| Refusal { number, first: place(0), second: place(1) })
}

/// A round on the counts, compared with its answer.
fn check_round(id: &Json, records: &[u16], given: &Json, counts: &mut [u32], out: &Json) {
    let (least, most) = ends(given);
    let answer = ranges::round(records, Ends { least: &least, most: &most }, counts, limit(given));
    assert_eq!(answer.err(), refusal(out), "{id:?}");
    assert_eq!(counts, numbers(out, "counts"), "{id:?}");
    if let Ok(round) = answer {
        let cost = round.cost.map_or(Json::Null, |cost| Json::Text(words::hex(cost)));
        assert_eq!(cost, *field(out, "cost"), "{id:?}");
        assert_eq!(i64::from(round.cut), field(out, "cut").number().expect("cut"), "{id:?}");
    }
}

#[test]
fn rounds_of_the_vectors() {
    for vector in vectors("item05-round.jsonl").into_iter().chain(vectors("item07-round.jsonl")) {
        let given = field(&vector, "in");
        check_round(field(&vector, "id"), &records(given), given, &mut numbers(given, "counts"), field(&vector, "out"));
    }
}

#[test]
fn lists_of_rounds_of_the_vectors() {
    for vector in vectors("item07-rounds.jsonl") {
        let (given, out) = (field(&vector, "in"), field(&vector, "out"));
        let (steps, answers) = (field(given, "steps").list().expect("steps"), field(out, "steps").list().expect("steps"));
        assert_eq!(steps.len(), answers.len());
        let mut counts = numbers(given, "counts");
        for (step, answer) in steps.iter().zip(answers) {
            check_round(field(&vector, "id"), &records(given), step, &mut counts, answer);
        }
    }
}

#[test]
fn solves_of_the_vectors() {
    for vector in vectors("item05-solve.jsonl").into_iter().chain(vectors("item07-solve.jsonl")) {
        let (given, out) = (field(&vector, "in"), field(&vector, "out"));
        let (least, most) = ends(given);
        let mut counts = numbers(given, "counts");
        let answer = ranges::solve(&records(given), Ends { least: &least, most: &most }, &mut counts, limit(given));
        assert_eq!(answer.err(), refusal(out), "{vector:?}");
        assert_eq!(counts, numbers(out, "counts"), "{vector:?}");
        if let Ok(moves) = answer {
            assert_eq!(i64::from(moves), field(out, "moves").number().expect("moves"), "{vector:?}");
        }
    }
}

// ------------------------------------------------------------------------------------------------------------------------------------
// Equal ends, beside the Rust
// ------------------------------------------------------------------------------------------------------------------------------------

/// A round by ideals through the Rust, and within equal ends through the model.
fn same_round(records: &[u16], ideals: &[f64], counts: &[u32], limit: impl Into<Option<u32>>) {
    let limit = limit.into();
    let rust = stored::settled(solver::round(records, ideals, counts, limit), counts).expect("the oracle");
    let mut after = counts.to_vec();
    let model = ranges::round(records, Ends { least: ideals, most: ideals }, &mut after, limit);
    let call = || format!("{records:?} {ideals:?} {counts:?} {limit:?}");
    match (rust, model) {
        (Ok(rust), Ok(model)) => {
            assert_eq!(rust.made.map(|(cost, _)| cost.to_bits()), model.cost.map(f64::to_bits), "{}", call());
            assert_eq!((rust.cut, rust.expansions, rust.counts), (model.cut, model.entries, after), "{}", call());
        }
        (rust, model) => {
            assert_eq!(rust.err(), model.err(), "{}", call());
            assert_eq!(after, counts, "{}", call());
        }
    }
}

/// A solve likewise, with more counts lent than there are edges.
fn same_solve(records: &[u16], ideals: &[f64], limit: impl Into<Option<u32>>) {
    let limit = limit.into();
    let rust = stored::settled(solver::solve(records, ideals, limit), &[]).expect("the oracle");
    let mut after = vec![77; ideals.len() + 2];
    let model = ranges::solve(records, Ends { least: ideals, most: ideals }, &mut after, limit);
    let left = match (&rust, rust.as_ref().err().map(|refusal| refusal.number)) {
        (Ok(solved), _) => solved.counts.clone(),
        (_, Some(7)) => vec![0; ideals.len()],
        _ => vec![77; ideals.len()],
    };
    assert_eq!(rust.map(|solved| solved.moves), model, "{records:?} {ideals:?} {limit:?}");
    assert_eq!(after, [left, vec![77; 2]].concat(), "{records:?} {ideals:?} {limit:?}");
}

fn chosen(dice: &mut Dice, edges: usize) -> Vec<f64> {
    let from: &[f64] = match dice.below(6) {
        0 => &[5e-324, 2.2250738585072014e-308, 1e-200, 1e-154, 0.5, 1.0, 3.0],
        1 => &[0.5, 0.500000000001, 0.499999999999, 0.5000000000005],
        2 => &[0.75, 1.0, 1.5, 2.0, 2.25, f64::NAN, 0.0, -1.0, f64::INFINITY],
        _ => return dice.ideals(edges),
    };
    (0..edges).map(|_| dice.pick(from)).collect()
}

fn any_farm(dice: &mut Dice) -> Farm {
    if dice.below(2) == 0 {
        return generate::careless(dice);
    }
    let (rows, columns) = (1 + dice.below(3) as usize, 1 + dice.below(4));
    let mut farm = farm::cut_rows(rows, columns, || dice.below(2) == 0);
    farm.edges += dice.below(2) as usize;
    farm
}

#[test]
fn rounds_with_equal_ends() {
    let mut dice = Dice(0x5EED_0101);
    for _ in 0..6000 {
        let farm = any_farm(&mut dice);
        let one_more = usize::from(dice.below(30) == 0);
        let ideals = chosen(&mut dice, farm.edges + one_more);
        let mut counts = dice.counts(farm.edges, 5);
        if dice.below(30) == 0 {
            counts[0] = dice.pick(&[999_999, 1_000_000, 1_000_001]);
        }
        same_round(&farm.regions, &ideals, &counts, dice.pick(&LIMITS));
    }
}

/// None, and limits that cut most searches, some, and hardly any.
const LIMITS: [Option<u32>; 13] = [
    None,
    Some(0),
    Some(1),
    Some(2),
    Some(3),
    Some(5),
    Some(8),
    Some(13),
    Some(40),
    Some(1000),
    Some(10_000),
    Some(100_000),
    Some(100_001),
];

#[test]
fn solves_with_equal_ends() {
    let mut dice = Dice(0x5EED_0102);
    for _ in 0..1500 {
        let farm = any_farm(&mut dice);
        let ideals = chosen(&mut dice, farm.edges);
        same_solve(&farm.regions, &ideals, SEARCH);
        same_solve(&farm.regions, &ideals, dice.pick(&LIMITS));
    }
    for limit in [None, Some(1), Some(SEARCH)] {
        same_solve(&[], &[200_000.0], limit);
        same_solve(&[], &[200_001.0], limit);
    }
}

/// Solves by every limit up to what their searches need.
#[test]
fn solves_by_limits_with_equal_ends() {
    let mut dice = Dice(0x5EED_0104);
    for (rows, columns) in [(1, 3), (2, 2), (2, 3), (3, 2), (3, 3)] {
        let farm = farm::cut_rows(rows, columns, || dice.below(2) == 0);
        let ideals = dice.ideals(farm.edges);
        (0..60).for_each(|limit| same_solve(&farm.regions, &ideals, limit));
        same_solve(&farm.regions, &ideals, None);
    }
}

#[test]
fn sizes_with_equal_ends() {
    for regions in [127, 128, 129] {
        let row: Vec<u16> = (0..regions).flat_map(|edge| record([&[], &[edge + 1], &[], &[edge]])).collect();
        let ideals = vec![1.5; usize::from(regions) + 1];
        same_solve(&row, &ideals, SEARCH);
        same_round(&row, &ideals, &vec![2; ideals.len()], 100);
        same_round(&row[1..], &ideals, &vec![2; ideals.len()], 100);
    }
    for edges in [0, 1, 255, 256, 257] {
        same_solve(&[], &vec![1.5; edges], None);
        same_round(&[], &vec![1.5; edges], &vec![3; edges], 1);
        same_round(&[], &[1.5], &vec![3; edges], 1);
    }
}

#[test]
fn wide_sides_with_equal_ends() {
    let mut dice = Dice(0x5EED_0103);
    for Wide { farm, limits, ideals } in wide_fields() {
        for limit in limits {
            same_round(&farm.regions, &dice.ideals(farm.edges), &dice.counts(farm.edges, 4), limit);
        }
        for limit in [None, Some(40), Some(SEARCH)] {
            ideals.iter().for_each(|ideals| same_solve(&farm.regions, ideals, limit));
        }
    }
    for records in generate::list_lengths() {
        same_solve(&records, &[0.75; LISTED], SEARCH);
        same_round(&records, &[0.75; LISTED], &[2; LISTED], 100);
    }
}

// ------------------------------------------------------------------------------------------------------------------------------------
// Ranges that are no ideal
// ------------------------------------------------------------------------------------------------------------------------------------

/// Cases whose answer 02 and the reading of it give in words.
#[test]
fn in_words() {
    let made = |least: f64, most: f64, count: u32| {
        let mut counts = [count];
        let round = ranges::round(&[], Ends { least: &[least], most: &[most] }, &mut counts, None).expect("accepted");
        (counts[0], round.cost)
    };
    // Within its range an edge costs nothing, so nothing is gained there.
    for count in 2..=5 {
        assert_eq!(made(2.0, 5.0, count), (count, None));
    }
    assert_eq!(made(2.0, 5.0, 1), (2, Some(-0.25)));
    assert_eq!(made(2.0, 5.0, 6).0, 5);
    // No whole number lies in the range: old and new count deviate from one end each.
    let (below, above): (f64, f64) = (2.0 / 2.2 - 1.0, 3.0 / 2.8 - 1.0);
    assert_eq!(made(2.2, 2.8, 2), (3, Some(above * above - below * below)));
    // A free edge stops at the first count that costs nothing.
    let mut counts = [9];
    assert_eq!(ranges::solve(&[], Ends { least: &[2.0], most: &[5.0] }, &mut counts, None), Ok(2));
    assert_eq!(counts, [2]);
}

/// The counts that a round leaves.
fn left(records: &[u16], least: &[f64], most: &[f64], counts: &[u32], limit: u32) -> Vec<u32> {
    let mut counts = counts.to_vec();
    ranges::round(records, Ends { least, most }, &mut counts, Some(limit)).expect("accepted");
    counts
}

/// Of two readings from one start the second costs half of E less: the first stays.
#[test]
fn nearly_equal_readings() {
    let wanted = [2.0, 2.0, 2.0 - 2e-12];
    assert_eq!(left(&record([&[0], &[], &[1, 2], &[]]), &wanted, &wanted, &[0; 3], 100), [1, 1, 0]);
    let wanted = [2.0, 2.0, 2.0 - 8e-12];
    assert_eq!(left(&record([&[0], &[], &[1, 2], &[]]), &wanted, &wanted, &[0; 3], 100), [1, 0, 1]);
    // A kept reading of -0.6e-12, which is then dropped, hides one of -1.5e-12.
    let wanted = [0x3fe0_0000_0000_034f, 0x3fdf_ffff_ffff_feaa].map(f64::from_bits).repeat(2);
    let records = record([&[3, 0], &[], &[1, 2], &[]]);
    assert_eq!(left(&records, &wanted, &wanted, &[0; 4], 100), [0; 4]);
    same_round(&records, &wanted, &[0; 4], 100);
}

/// Edge 0 may go up with edge 2 or down with edge 3, at the same cost; the search is cut before it sees both at once: +1 comes first.
#[test]
fn plus_before_minus() {
    let records = record([&[0, 1], &[], &[2, 3], &[]]);
    let (least, most) = ([1.0, 1.0, 2.0, 1.0], [5.0, 5.0, 9.0, 2.0]);
    assert_eq!(left(&records, &least, &most, &[3, 3, 1, 3], 3), [4, 3, 2, 3]);
    assert_eq!(left(&records, &least, &most, &[3, 3, 1, 3], 4), [3, 3, 2, 2]);
}
