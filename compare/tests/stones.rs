//! Curves that end on their stones (02, item 12): the Rust with the two returns in `at` beside the unchanged one, on random and hand-made
//! curves; and against the vectors.

use compare::dice::Dice;
use compare::generate_stones::{self, End, ENDS, ZEROS};
use compare::json::{self, Json};
use compare::landed::{applies, Changed, PassedOver};
use compare::{blended, geometry, stones, vector};

type Curve = Vec<[f64; 2]>;

fn bits(point: Result<[f64; 2], String>) -> [u64; 2] {
    point.expect("an accepted curve and a finite parameter").map(f64::to_bits)
}

// ------------------------------------------------------------------------------------------------------------------------------------
// Both Rusts
// ------------------------------------------------------------------------------------------------------------------------------------

/// Two points, of which the blend at 1 comes to another y.
const MISSED: [[f64; 2]; 2] = [[0.1, 0.7], [0.3, -0.2]];

const TINY: f64 = f64::from_bits(1);

/// 2^-600: a segment of this length has a square below all numbers, and so length 0.
fn no_length() -> f64 {
    2f64.powi(-600)
}

fn hand_made() -> Vec<Curve> {
    let far = f64::from(1 << 25);
    vec![
        MISSED.to_vec(),
        vec![[0.0, 0.0], [1.0, 2.0], [1.0, 2.0]],
        vec![[0.5, -0.25], [0.5, -0.25], [2.0, 1.0]],
        vec![[3.0, 0.0], [1.0, 0.0], [1.0, no_length()]],
        vec![[no_length(), -no_length()], [0.0, 0.0], [0.0, 5.0]],
        vec![[0.0, 1.0], [0.0, 1.0], [0.0, 1.0], [-0.0, 3.0], [-0.0, 3.0]],
        vec![[-0.0, -0.0], [1.0, 0.0]],
        vec![[-0.0, -0.0], [-1.0, 1.0], [-0.0, -0.0]],
        vec![[1.0, -0.0], [0.0, -0.0], [-0.0, 0.0], [-0.0, -0.0]],
        vec![[0.0, 0.0], [far, 0.0], [1.0, 0.0], [1.0 + 2e-9, 0.0]],
        vec![[0.1, 0.0], [far, 0.5], [0.1, 1.0]],
        vec![[1e17, 1.0], [1.0, 3.0]],
        vec![[1.7e308, 0.0], [1.7e308, 1.0]],
        vec![[1e-150, 0.0], [0.0, 1e-150]],
    ]
}

/// Curves of 2 to 9 points, some of which stand twice, at 0 or -0, or far away.
fn random(dice: &mut Dice) -> Curve {
    let size = dice.pick(&[1.0, 1e-3, 1e6]);
    let mut curve = vec![[size, -size]];
    for _ in 0..=dice.below(8) {
        let mut value = || match dice.below(12) {
            0 => dice.pick(&[0.0, -0.0, no_length()]),
            1 => dice.pick(&[1e9, -3e16]),
            _ => size * (f64::from(dice.below(2001)) - 1000.0) / 999.0,
        };
        let point = [value(), value()];
        curve.extend(vec![point; 1 + usize::from(dice.below(6) == 0)]);
    }
    if dice.below(2) == 0 {
        curve.reverse();
    }
    curve
}

fn curves() -> Vec<Curve> {
    let mut dice = Dice(0x5EED_0401);
    hand_made().into_iter().chain((0..400).map(|_| random(&mut dice))).collect()
}

/// Parameters between 0 and 1: beside both ends, about the parts of the length that the points stand at, and random ones.
fn between(dice: &mut Dice, curve: &Curve) -> Vec<f64> {
    let near_one = 1f64.next_down();
    let mut inner = vec![TINY, f64::MIN_POSITIVE, 1e-300, 1e-17, 1e-9, 0.25, 0.5, 1.0 - 1e-9, near_one.next_down(), near_one];
    let steps: Vec<f64> = curve.windows(2).map(|pair| (pair[1][0] - pair[0][0]).hypot(pair[1][1] - pair[0][1])).collect();
    let total: f64 = steps.iter().sum();
    let mut along = 0.0;
    for step in steps {
        along += step;
        let part = along / total;
        inner.extend([part.next_down(), part, part.next_up()]);
    }
    inner.extend((0..20).map(|_| f64::from(1 + dice.below(1 << 30)) / f64::from(1 << 30)));
    inner.retain(|t| 0.0 < *t && *t < 1.0);
    inner
}

#[test]
fn between_the_ends_both_are_the_same() {
    let mut dice = Dice(0x5EED_0402);
    for curve in curves() {
        for t in between(&mut dice, &curve) {
            assert_eq!(bits(stones::at(&curve, t)), bits(blended::at(&curve, t)), "{curve:?} {t:e}");
        }
    }
}

#[test]
fn ends_are_the_stones() {
    for curve in curves() {
        for t in [0.0, -0.0, -1.0, -TINY, f64::MIN] {
            assert_eq!(bits(stones::at(&curve, t)), curve[0].map(f64::to_bits), "{curve:?} {t:e}");
        }
        for t in [1.0, 1f64.next_up(), 2.0, 1e300] {
            assert_eq!(bits(stones::at(&curve, t)), curve[curve.len() - 1].map(f64::to_bits), "{curve:?} {t:e}");
        }
    }
}

/// Whether the unchanged Rust misses the first point of a curve, and the last.
fn missed(curve: &[[f64; 2]]) -> [bool; 2] {
    let ends = [(0.0, curve[0]), (1.0, curve[curve.len() - 1])];
    ends.map(|(t, stone)| bits(blended::at(curve, t)) != stone.map(f64::to_bits))
}

/// It misses ends: that of two points by their blend, one of length 0, the sign of a zero; of 400 random curves many.
#[test]
fn blends_miss_the_stones() {
    let hand_made: Vec<[bool; 2]> = hand_made().iter().map(|curve| missed(curve)).collect();
    assert_eq!(bits(blended::at(&MISSED, 1.0)), [0.3, (-0.2f64).next_up().next_up()].map(f64::to_bits));
    for (index, expected) in
        [(0, [false, true]), (1, [false, false]), (3, [false, true]), (4, [true, false]), (6, [true, false]), (9, [false, true])]
    {
        assert_eq!(hand_made[index], expected, "{index}");
    }
    let mut dice = Dice(0x5EED_0403);
    let random = (0..400).filter(|_| missed(&random(&mut dice))[1]).count();
    assert!(random > 100, "{random}");
}

type Grid = Result<Vec<u64>, String>;

/// The bits of a grid's coordinates, or the message of its refusal.
fn values(quads: Result<Vec<[[f64; 2]; 4]>, String>) -> Grid {
    quads.map(|quads| quads.into_iter().flatten().flatten().map(f64::to_bits).collect())
}

/// A grid of 3 by 2 cells by the unchanged Rust, and by the other one.
fn both(curves: [Curve; 4]) -> [Grid; 2] {
    let [bottom, right, top, left] = curves.clone();
    let unchanged = blended::coons_curves(&blended::BoundaryCurves { bottom, right, top, left }, 3, 2);
    let [bottom, right, top, left] = curves;
    let returning = stones::coons_curves(&stones::BoundaryCurves { bottom, right, top, left }, 3, 2);
    [values(unchanged), values(returning)]
}

/// Of 1,000 tiles of about 100 m by 60 m, their points moved by up to 5 m each way, in whole millimetres, 991 get other bits.
#[test]
fn grids_change() {
    let mut dice = Dice(0x5EED_0405);
    let mut tile = || {
        let mut moved = |plan: [f64; 2]| plan.map(|x| (1000.0 * x + f64::from(dice.below(10_001)) - 5000.0) / 1000.0);
        let corners = [[0.0, 0.0], [100.0, 0.0], [100.0, 60.0], [0.0, 60.0]].map(&mut moved);
        let middles = [[50.0, 0.0], [100.0, 30.0], [50.0, 60.0], [0.0, 30.0]].map(&mut moved);
        std::array::from_fn(|side| vec![corners[side], middles[side], corners[(side + 1) % 4]])
    };
    let grids: Vec<[Grid; 2]> = (0..1000).map(|_| both(tile())).collect();
    assert!(grids.iter().flatten().all(Result::is_ok));
    assert_eq!(grids.iter().filter(|[unchanged, returning]| unchanged != returning).count(), 991);
}

/// Joins that only one of the two finds apart: right from far away, and bottom past its corner after a long way.
#[test]
fn joins_change() {
    let far = f64::from(1 << 25);
    let tile = |width: f64, bottom: Curve, right: Curve| [bottom, right, vec![[width, 1.0], [0.0, 1.0]], vec![[0.0, 1.0], [0.0, 0.0]]];
    let back = tile(0.1, vec![[0.0, 0.0], [0.1, 0.0]], vec![[0.1, 0.0], [far, 0.5], [0.1, 1.0]]);
    let past = tile(1.0, vec![[0.0, 0.0], [far, 0.0], [1.0, 0.0], [1.0 + 2e-9, 0.0]], vec![[1.0, 0.0], [1.0, 1.0]]);
    let apart = |grid: &Grid| grid.as_ref().is_err_and(|message| message.contains("not connected"));
    assert_eq!(both(back).each_ref().map(apart), [true, false]);
    assert_eq!(both(past).each_ref().map(apart), [false, true]);
}

/// The stored cases and `scale` have ends that the unchanged Rust misses.
#[test]
fn generated_ends() {
    let last_missed = |corners, ends| {
        let curves = generate_stones::curves(corners, ends);
        curves.map(|curve| missed(&curve.chunks_exact(2).map(|pair| [pair[0], pair[1]]).collect::<Curve>())[1])
    };
    assert_eq!(last_missed(generate_stones::MISSED, [[End::Plain; 2]; 4]), [true; 4]);
    for end in ENDS.into_iter().filter(|&end| end != End::Apart) {
        let exact = [End::Plain, End::Twice].contains(&end);
        assert_eq!(last_missed(ZEROS, [[end, End::Plain]; 4]), [!exact; 4], "{end:?}");
    }
}

/// A curve that is refused is so by both, in the same words.
#[test]
fn refused_curves() {
    let refused: [Curve; 4] = [vec![], vec![[1.0, 2.0]], vec![[0.0, 0.0], [f64::NAN, 1.0]], vec![[1.0, 1.0], [1.0, 1.0]]];
    for curve in &refused {
        for t in [0.0, 0.5, 1.0] {
            let answer = stones::at(curve, t);
            assert!(answer.is_err(), "{curve:?}");
            assert_eq!(answer, blended::at(curve, t));
        }
    }
    let curve = MISSED;
    for t in [f64::NAN, f64::INFINITY, f64::NEG_INFINITY] {
        assert!(stones::at(&curve, t).is_err());
        assert_eq!(stones::at(&curve, t), blended::at(&curve, t));
    }
}

// ------------------------------------------------------------------------------------------------------------------------------------
// The vectors
// ------------------------------------------------------------------------------------------------------------------------------------

const VECTORS: &str = concat!(env!("CARGO_MANIFEST_DIR"), "/../../shared/oracle");

/// The text of a file of the vectors; none if it is not there, since the vectors are no part of this repository.
fn text(name: &str) -> Option<String> {
    let path = format!("{VECTORS}/{name}");
    let read = std::fs::read_to_string(&path);
    read.inspect_err(|problem| println!("passed over, {path}: {problem}")).ok()
}

fn field<'a>(object: &'a Json, name: &str) -> &'a Json {
    object.field(name).expect("the format of the vectors")
}

/// Curve, parameter and point of a vector of `at`.
fn of_at(line: &str) -> Option<(Vec<f64>, f64, [u64; 2])> {
    let vector = json::parse(line).expect(line);
    if field(&vector, "fn").text() != Ok("at") {
        return None;
    }
    let float = |value: &Json| vector::float(value).expect(line);
    let (given, out) = (field(&vector, "in"), field(&vector, "out"));
    let curve = field(given, "curve").list().expect(line).iter().map(float).collect();
    Some((curve, float(field(given, "t")), ["x", "y"].map(|name| float(field(out, name)).to_bits())))
}

fn asked(curve: &Vec<f64>, t: f64) -> [u64; 2] {
    geometry::at(curve, t).unwrap_or_else(|stop| panic!("{stop}")).map(f64::to_bits)
}

/// The vectors of item 12: of each file, how many of `at` it has, and all of them apply.
#[test]
fn points_of_the_vectors() {
    for (name, expected) in [("vectors02/item12-stones.jsonl", 52), ("vectors02/item12-from01.jsonl", 22)] {
        let Some(text) = text(name) else { continue };
        let mut run = 0;
        for line in text.lines() {
            let Some((curve, t, point)) = of_at(line) else { continue };
            assert_eq!(applies(&json::parse(line).expect(line)), Ok(true), "{line}");
            assert_eq!(asked(&curve, t), point, "{line}");
            run += 1;
        }
        assert_eq!(run, expected, "{name}");
    }
}

/// 01's vectors of `at` hold of the unchanged Rust; of the other one just if they are not listed as changed.
#[test]
fn points_of_01() {
    let (Some(vectors), Some(list)) = (text("vectors32/inner.jsonl"), text("vectors02/changed01.json")) else { return };
    let (mut changed, mut passed_over) = (Changed::default(), PassedOver::default());
    changed.add(&list).expect("a list");
    let mut run = 0;
    for line in vectors.lines() {
        let Some((curve, t, point)) = of_at(line) else { continue };
        let pairs: Curve = curve.chunks_exact(2).map(|pair| [pair[0], pair[1]]).collect();
        assert_eq!(bits(blended::at(&pairs, t)), point, "{line}");
        let holds = changed.holds(line, &mut passed_over).expect(line);
        assert_eq!(asked(&curve, t) == point, holds, "{line}");
        run += 1;
    }
    assert_eq!((run, passed_over.changed, passed_over.not_applying), (690, 22, 0));
}
