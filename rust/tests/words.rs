//! Refusals in words: number, places and what to do, also where an `unwrap` shows them; and which limit number 1 is about.

use juplatsk::*;

fn tile() -> Region {
    Region::new([vec![0], vec![1], vec![2], vec![3]])
}

fn square() -> BoundaryCurves {
    BoundaryCurves::from_corners([[0.0, 0.0], [1.0, 0.0], [1.0, 1.0], [0.0, 1.0]])
}

fn words<T: std::fmt::Debug>(answer: Result<T, Refusal>) -> String {
    let refusal = answer.expect_err("the call is refused");
    assert_eq!(format!("{refusal:?}"), refusal.to_string());
    refusal.to_string()
}

fn limit<T: std::fmt::Debug>(answer: Result<T, Refusal>) -> (Limited, u64, u64) {
    let refusal = answer.expect_err("the call is refused");
    assert_eq!((refusal.number, refusal.first, refusal.second), (1, 0, 0));
    let limit = refusal.limit.expect("the limit is named");
    assert!(refusal.to_string().contains(&limit.to_string()));
    (limit.of, limit.given, limit.most)
}

#[test]
fn sentences() {
    let twice = Region::new([vec![], vec![0], vec![], vec![0]]);
    assert_eq!(
        words(solve_counts(&[tile(), twice], &[1.0; 4])),
        "refusal 5 at region 1, sides 1 and 3 (right and left): an edge lies on both of these opposite sides; give each side edges of its own"
    );
    assert_eq!(
        words(coons_from_parameters(&square(), &[0.0, 0.5, 0.25, 1.0], &[0.0, 1.0], &[0.0, 1.0], &[0.0, 1.0])),
        "refusal 20 at seam 0 (bottom), value 2: the value is below the one before it; mend the seam, or in lay_region the side's breaks"
    );
    assert_eq!(
        words(solve(&[], &[1.0], SearchLimit::Expansions(100_001))),
        "refusal 10: the search limit is above 100,000; state 0 to 100,000"
    );
    assert_eq!(words(root(-1.0)), "refusal 28: a NaN or a number below 0 has no root; give a number from 0 up");
    assert_eq!(
        words(solve_counts(&vec![Region::default(); 129], &[])),
        "refusal 1: there are 129 regions, and 128 is the most; join tiles, or leave out a part of the farm that shares no edge with the rest"
    );
}

#[test]
fn limits_of_the_solver() {
    let long = Region::new([vec![], vec![], (0..33).collect(), vec![]]);
    assert_eq!(limit(solve_counts(&vec![Region::default(); 129], &[])), (Limited::Regions, 129, 128));
    assert_eq!(limit(solve(&[], &[1.0; 257], SearchLimit::Default)), (Limited::Edges, 257, 256));
    assert_eq!(limit(solve_within(&[], &vec![1.0..=2.0; 257], SearchLimit::Default)), (Limited::Edges, 257, 256));
    assert_eq!(limit(solve_counts(&[tile(), long.clone()], &[1.0; 33])), (Limited::EdgesOnSide { region: 1, side: 2 }, 33, 32));
    assert_eq!(limit(round(&[], &[1.0], &mut [0; 300], SearchLimit::Expansions(1))), (Limited::Edges, 300, 256));
    assert_eq!(
        limit(round_within(&[long], &[1.0..=2.0], &mut [0], SearchLimit::Expansions(1))),
        (Limited::EdgesOnSide { region: 0, side: 2 }, 33, 32)
    );
    assert_eq!(limit(energy(&[0; 258], &[1.0])), (Limited::Edges, 258, 256));
    assert_eq!(limit(constraints_hold(&[], &[0; 257])), (Limited::Edges, 257, 256));
    assert_eq!(limit(constraints_hold(&[], &[0, 1 << 32])), (Limited::Count { edge: 1 }, 1 << 32, (1 << 32) - 1));
}

#[test]
fn limits_of_the_geometry() {
    let long = BoundaryCurves { left: vec![[0.0; 2]; 1025], ..square() };
    let unit: [&[f64]; 4] = [&[0.0, 1.0]; 4];
    assert_eq!(limit(coons_curves(&long, 1, 1)), (Limited::CurvePoints { curve: 3 }, 1025, 1024));
    assert_eq!(limit(coons_curves(&square(), 1, 1025)), (Limited::Cells, 1025, 1024));
    assert_eq!(limit(mesh_tile_curves(&square(), 1 << 40, 1)), (Limited::Cells, 1 << 40, 1024));
    assert_eq!(
        limit(coons_from_parameters(&square(), unit[0], &[0.0; 1026], unit[0], unit[0])),
        (Limited::SeamValues { seam: 2 }, 1026, 1025)
    );
    assert_eq!(limit(coons_checked(&vec![[0.0; 2]; 4097], 1, 1)), (Limited::LoopPoints, 4097, 4096));
    assert_eq!(limit(mesh_tile(&[], 1025, 1)), (Limited::Cells, 1025, 1024));
    assert_eq!(limit(BoundaryCurves::from_loop(&vec![[0.0; 2]; 5000])), (Limited::LoopPoints, 5000, 4096));
    assert_eq!(limit(lay_region(&tile(), &[1, 1025, 1, 1025], unit, &square())), (Limited::Pieces { side: 1 }, 1025, 1024));
    assert_eq!(limit(lay_region(&tile(), &[1 << 40, 1, 1 << 40, 1], unit, &square())), (Limited::Pieces { side: 0 }, 1 << 40, 1024));
    assert_eq!(limit(lay_region(&tile(), &[0; 257], unit, &square())), (Limited::Edges, 257, 256));
    assert_eq!(limit(lay_region(&tile(), &[1; 4], unit, &long)), (Limited::CurvePoints { curve: 3 }, 1025, 1024));
}
