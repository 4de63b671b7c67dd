//! The bench table through the package; every refusal that a caller in Rust can meet, with its places; search limits, stated and not; and
//! numbers that the library's own do not hold.

use juplatsk::*;
use std::ops::RangeInclusive;

fn region(sides: [&[usize]; 4]) -> Region {
    Region::new(sides.map(<[usize]>::to_vec))
}

fn tile() -> Region {
    region([&[0], &[1], &[2], &[3]])
}

fn square() -> BoundaryCurves {
    BoundaryCurves::from_corners([[0.0, 0.0], [1.0, 0.0], [1.0, 1.0], [0.0, 1.0]])
}

/// A stated limit.
fn at(limit: usize) -> SearchLimit {
    SearchLimit::Expansions(limit)
}

const UNSTATED: SearchLimit = SearchLimit::Default;

fn refusal<T: std::fmt::Debug>(answer: Result<T, Refusal>) -> (u32, u32, u32) {
    let refusal = answer.expect_err("the call is refused");
    assert_eq!(refusal.limit.is_some(), refusal.number == 1, "{refusal}");
    (refusal.number, refusal.first, refusal.second)
}

/// It states the limit of the Rust that it is held against.
#[test]
fn bench_table() {
    let counts = |regions: &[Region], ideals: &[f64]| solve(regions, ideals, at(100_000)).map(|solved| solved.counts);
    let two = [tile(), region([&[4], &[5], &[6], &[1]])];
    assert_eq!(counts(&two, &[4.0, 2.0, 4.0, 2.0, 2.0, 2.0, 2.0]), Ok(vec![4, 2, 4, 2, 2, 2, 2]));
    assert_eq!(counts(&[tile()], &[5.0, 3.0, 1.0, 3.0]), Ok(vec![1, 3, 1, 3]));
    let split = [region([&[0], &[1], &[2, 3], &[4]])];
    assert_eq!(solve(&split, &[4.0, 1.0, 2.0, 2.0, 1.0], at(100_000)), Ok(Solved { counts: vec![4, 1, 2, 2, 1], moves: 5 }));
    assert_eq!(counts(&[], &[]), Ok(vec![]));
    assert_eq!(counts(&[region([&[0], &[], &[], &[]])], &[3.0]), Ok(vec![0]));
    let twice = region([&[0], &[], &[1], &[]]);
    assert_eq!(counts(&[twice.clone(), twice], &[1.0, 1.0]), Ok(vec![1, 1]));
    assert_eq!(refusal(counts(&[region([&[0], &[1], &[0], &[2]])], &[1.0; 3])), (5, 0, 0));

    let quads = coons_curves(&square(), 2, 2).unwrap();
    assert_eq!(quads.iter().map(signed_area).collect::<Vec<_>>(), [0.25; 4]);
    assert_eq!(refusal(coons_checked(&[[0.0, 0.0], [0.0, 1.0], [1.0, 1.0], [1.0, 0.0]], 2, 2)), (17, 0, 0));
    let (early, late) = ([0.0, 0.0, 1.0], [0.0, 1.0, 1.0]);
    assert_eq!(refusal(coons_from_parameters(&square(), &early, &late, &early, &late)), (23, 1, 1));

    let mut count = [0];
    assert_eq!(round(&[], &[1.0], &mut count, at(0)), Ok(Round { cost: None, cut: true }));
    assert_eq!(count, [0]);
    assert_eq!(round(&[], &[1.0], &mut count, at(1)), Ok(Round { cost: Some(-1.0), cut: false }));
    assert_eq!(count, [1]);
    assert_eq!(root(f64::from_bits(1)), Ok(2.0_f64.powi(-537)));
}

#[test]
fn solver_refuses() {
    assert_eq!(refusal(solve_counts(&[], &[1.0; 257])), (1, 0, 0));
    assert_eq!(refusal(solve_counts(&vec![Region::default(); 129], &[])), (1, 0, 0));
    assert_eq!(refusal(solve_counts(&[region([&[0; 33], &[], &[], &[]])], &[1.0])), (1, 0, 0));
    assert_eq!(refusal(solve_counts(&[tile()], &[1.0, 1.0, f64::NAN, 1.0])), (2, 2, 0));
    assert_eq!(refusal(solve_counts(&[tile()], &[1.0; 3])), (3, 0, 3));
    assert_eq!(refusal(solve_counts(&[tile(), region([&[], &[1, 1], &[], &[]])], &[1.0; 4])), (4, 1, 1));
    assert_eq!(refusal(solve_counts(&vec![region([&[], &[], &[0], &[1]]); 3], &[1.0; 2])), (6, 0, 0));
    assert_eq!(refusal(solve_counts(&[], &[200_001.0])), (7, 0, 0));
    assert_eq!(solve_counts(&[], &[200_000.0]), Ok(vec![200_000]));
    let mut counts = [7, 8];
    assert_eq!(refusal(round(&[], &[1.0], &mut counts, UNSTATED)), (8, 0, 0));
    assert_eq!(counts, [7, 8]);
    assert_eq!(refusal(energy(&[0, 1_000_001], &[1.0; 2])), (9, 1, 0));
}

/// In the order of the tests: 1, 10, 8, 2, 35, 9, 3 to 5, 6, 7.
#[test]
fn ranges_refuse() {
    let (one, broken) = (|| 1.0..=1.0, || f64::NAN..=1.0);
    let ones = |n| vec![one(); n];
    assert_eq!(refusal(solve_counts_within(&[], &ones(257))), (1, 0, 0));
    assert_eq!(refusal(solve_counts_within(&vec![Region::default(); 129], &[])), (1, 0, 0));
    assert_eq!(refusal(solve_counts_within(&[region([&[0; 33], &[], &[], &[]])], &ones(1))), (1, 0, 0));
    for bad in [broken(), 1.0..=f64::INFINITY, 0.0..=1.0, -1.0..=1.0, 1.0..=-1.0, 1.0..=-0.0] {
        assert_eq!(refusal(solve_counts_within(&[], &[one(), bad.clone(), broken()])), (2, 1, 0), "{bad:?}");
    }
    assert_eq!(refusal(solve_counts_within(&[], &[3.0..=2.0, one(), broken()])), (2, 2, 0));
    assert_eq!(refusal(solve_counts_within(&[], &[one(), 3.0..=2.0, 5.0..=1.0])), (35, 1, 0));
    assert_eq!(refusal(solve_counts_within(&[tile()], &[one(), 3.0..=2.0])), (35, 1, 0));
    assert_eq!(refusal(solve_counts_within(&[tile()], &ones(3))), (3, 0, 3));
    assert_eq!(refusal(solve_counts_within(&[tile(), region([&[], &[1, 1], &[], &[]])], &ones(4))), (4, 1, 1));
    assert_eq!(refusal(solve_counts_within(&[region([&[0], &[1], &[0], &[2]])], &ones(3))), (5, 0, 0));
    assert_eq!(refusal(solve_within(&vec![region([&[], &[], &[0], &[1]]); 3], &ones(2), UNSTATED)), (6, 0, 0));
    assert_eq!(refusal(solve_within(&[], &[200_001.0..=300_000.0], UNSTATED)), (7, 0, 0));
    assert_eq!(solve_counts_within(&[], &[200_000.0..=300_000.0]), Ok(vec![200_000]));

    let mut counts = [7, 1_000_001];
    let on = |ranges: &[RangeInclusive<f64>], counts: &mut [usize], limit| refusal(round_within(&[tile()], ranges, counts, at(limit)));
    assert_eq!(on(&ones(257), &mut counts, 100_001), (1, 0, 0));
    assert_eq!(refusal(round_within(&[], &ones(2), &mut [0; 257], UNSTATED)), (1, 0, 0));
    assert_eq!(on(&[broken()], &mut counts, 100_001), (10, 0, 0));
    assert_eq!(on(&[broken()], &mut counts, 1), (8, 0, 0));
    assert_eq!(on(&[3.0..=2.0, broken()], &mut counts, 1), (2, 1, 0));
    assert_eq!(on(&[one(), 3.0..=2.0], &mut counts, 1), (35, 1, 0));
    assert_eq!(on(&ones(2), &mut counts, 1), (9, 1, 0));
    counts[1] = 1_000_000;
    assert_eq!(on(&ones(2), &mut counts, 1), (3, 0, 2));
    let on = |regions: &[Region], counts: &mut [usize]| refusal(round_within(regions, &ones(2), counts, UNSTATED));
    assert_eq!(on(&[region([&[0, 0], &[], &[], &[]])], &mut counts), (4, 0, 0));
    assert_eq!(on(&[region([&[], &[1], &[], &[1]])], &mut counts), (5, 0, 1));
    assert_eq!(on(&vec![region([&[1], &[], &[], &[]]); 3], &mut counts), (6, 1, 0));
    assert_eq!(counts, [7, 1_000_000]);
}

fn equal_ends(ideals: &[f64]) -> Vec<RangeInclusive<f64>> {
    ideals.iter().map(|&x| x..=x).collect()
}

/// The solve and the round of one kind of ideal, and those of the other, with this limit. They must agree: ranges with equal ends are ideals.
fn both_kinds(
    regions: &[Region],
    ideals: &[f64],
    counts: &mut [usize],
    limit: SearchLimit,
) -> (Result<Solved, Refusal>, Result<Round, Refusal>) {
    let ranges = equal_ends(ideals);
    let solved = solve(regions, ideals, limit);
    assert_eq!(solve_within(regions, &ranges, limit), solved);
    let mut within = counts.to_vec();
    let made = round(regions, ideals, counts, limit);
    assert_eq!(round_within(regions, &ranges, &mut within, limit), made);
    assert_eq!(within, counts);
    (solved, made)
}

/// A limit is stated or not. 0 is one, at which nothing is found; 100,000 is the highest; what is above, to the largest number, is refused
/// by 10, and the counts are left.
#[test]
fn search_limits() {
    let ideals = [2.0, 3.0];
    for limit in [UNSTATED, SearchLimit::default(), at(1), at(10_000), at(99_999), at(100_000)] {
        let mut counts = [0, 0];
        let (solved, made) = both_kinds(&[], &ideals, &mut counts, limit);
        assert_eq!(solved, Ok(Solved { counts: vec![2, 3], moves: 5 }), "{limit:?}");
        assert_eq!(made, Ok(Round { cost: Some(-0.75), cut: false }), "{limit:?}");
        assert_eq!(counts, [1, 0], "{limit:?}");
    }
    let mut counts = [7, 8];
    let (solved, made) = both_kinds(&[], &ideals, &mut counts, at(0));
    assert_eq!(solved, Ok(Solved { counts: vec![0, 0], moves: 0 }));
    assert_eq!(made, Ok(Round { cost: None, cut: true }));
    for limit in [100_001, u32::MAX as usize, 1 << 32, (1 << 32) + 1, usize::MAX] {
        let (solved, made) = both_kinds(&[], &ideals, &mut counts, at(limit));
        assert_eq!((refusal(solved), refusal(made)), ((10, 0, 0), (10, 0, 0)), "{limit}");
    }
    assert_eq!(counts, [7, 8]);
    for limit in [UNSTATED, at(0), at(100_000)] {
        let (solved, made) = both_kinds(&[], &[], &mut [], limit);
        assert_eq!((solved.unwrap().moves, made), (0, Ok(Round { cost: None, cut: false })), "{limit:?}");
    }
}

/// Groups of so many edges, each group opposite the next. One move pays, by one piece for the last edge of each group; a search from edge 0 comes to
/// it behind all others. Regions, ideals, and the counts behind that move.
fn groups(sizes: &[usize]) -> (Vec<Region>, Vec<f64>, Vec<usize>) {
    let (mut lists, mut ideals, mut counts) = (Vec::new(), Vec::new(), Vec::new());
    for &size in sizes {
        lists.push((ideals.len()..ideals.len() + size).collect::<Vec<_>>());
        ideals.extend((1..=size).map(|edge| if edge == size { 1.0 } else { 0.2 }));
        counts.extend((1..=size).map(|edge| usize::from(edge == size)));
    }
    let regions = lists.windows(2).map(|pair| region([&pair[0], &[], &pair[1], &[]])).collect();
    (regions, ideals, counts)
}

/// Without a stated limit it is 10,000: as many as the search of the first farm needs, and one too few for that of the second.
#[test]
fn limit_without_one() {
    for (sizes, needed) in [([1, 3, 4, 13, 7, 4, 1], 10_000), ([1, 4, 7, 4, 8, 5, 1], 10_001)] {
        let (regions, ideals, after) = groups(&sizes);
        for (limit, found) in [(at(needed - 1), false), (at(needed), true), (UNSTATED, needed <= 10_000), (at(100_000), true)] {
            let expected = if found { after.clone() } else { vec![0; ideals.len()] };
            let mut counts = vec![0; ideals.len()];
            let (solved, made) = both_kinds(&regions, &ideals, &mut counts, limit);
            assert_eq!(solved, Ok(Solved { counts: expected.clone(), moves: usize::from(found) }), "{needed} {limit:?}");
            assert_eq!((made.unwrap().cost.is_some(), counts), (found, expected), "{needed} {limit:?}");
        }
        assert_eq!(solve_counts(&regions, &ideals), solve(&regions, &ideals, UNSTATED).map(|solved| solved.counts));
        let ranges = equal_ends(&ideals);
        assert_eq!(solve_counts_within(&regions, &ranges), solve_within(&regions, &ranges, UNSTATED).map(|solved| solved.counts));
    }
}

/// A limit that is too large comes behind 1 and before every other fault, in solves and rounds of both kinds.
#[test]
fn limit_among_faults() {
    let faults = [
        (1, vec![Region::default(); 129], vec![f64::NAN]),
        (1, vec![], vec![1.0; 257]),
        (1, vec![region([&[0; 33], &[], &[], &[]])], vec![1.0]),
        (2, vec![tile()], vec![1.0, f64::NAN, 1.0]),
        (3, vec![tile()], vec![1.0; 3]),
        (4, vec![region([&[0, 0], &[], &[0], &[]])], vec![1.0]),
        (5, vec![region([&[0], &[], &[0], &[]]); 2], vec![1.0]),
        (6, vec![region([&[0], &[], &[], &[]]); 3], vec![1.0]),
    ];
    let over = at(100_001);
    for (number, regions, ideals) in faults {
        let with_it = if number == 1 { 1 } else { 10 };
        for (limit, expected) in [(UNSTATED, number), (at(0), number), (at(100_000), number), (over, with_it)] {
            let (solved, made) = both_kinds(&regions, &ideals, &mut vec![0; ideals.len()], limit);
            assert_eq!((refusal(solved).0, refusal(made).0), (expected, expected), "{number} {limit:?}");
        }
    }
    // 35 of ranges, 8 and 9 of rounds, 7 of solves
    assert_eq!(refusal(solve_within(&[], &[3.0..=2.0], over)), (10, 0, 0));
    assert_eq!(refusal(round_within(&[], &[3.0..=2.0], &mut [0], over)), (10, 0, 0));
    assert_eq!(refusal(round(&[], &[1.0], &mut [], over)), (10, 0, 0));
    assert_eq!(refusal(round_within(&[], &[1.0..=2.0], &mut [], over)), (10, 0, 0));
    assert_eq!(refusal(round(&[], &[1.0], &mut [1_000_001], over)), (10, 0, 0));
    assert_eq!(refusal(round_within(&[], &[1.0..=2.0], &mut [1_000_001], over)), (10, 0, 0));
    assert_eq!(refusal(solve(&[], &[200_001.0], over)), (10, 0, 0));
    for limit in [at(1), UNSTATED, at(100_000)] {
        assert_eq!(refusal(solve(&[], &[200_001.0], limit)), (7, 0, 0));
    }
}

/// An edge costs nothing while its count lies in its range, ends included, and ends that are equal are an ideal.
#[test]
fn ranges() {
    let ranges = vec![2.0..=5.0; 4];
    let mut inside = [2, 5, 3, 4];
    assert_eq!(round_within(&[], &ranges, &mut inside, at(1)), Ok(Round { cost: None, cut: false }));
    assert_eq!(inside, [2, 5, 3, 4]);
    let mut outside = [2, 6, 1, 0];
    assert_eq!(round_within(&[], &ranges, &mut outside, at(0)), Ok(Round { cost: None, cut: true }));
    assert_eq!(round_within(&[], &ranges, &mut outside, at(1)), Ok(Round { cost: Some(-0.75), cut: false }));
    assert_eq!(outside, [2, 6, 1, 1]);
    let mut between = [2];
    assert!(round_within(&[], &[2.2..=2.8], &mut between, UNSTATED).unwrap().cost.is_some());
    assert_eq!(between, [3]);
    assert_eq!(round_within(&[], &[2.2..=2.8], &mut between, UNSTATED), Ok(Round { cost: None, cut: false }));
    assert_eq!(solve_within(&[], &[], UNSTATED), Ok(Solved { counts: vec![], moves: 0 }));

    let two = [tile(), region([&[4], &[5], &[6], &[1]])];
    for k in 0..40 {
        let ideals: Vec<f64> = (0..7).map(|e| 0.5 + f64::from((e * 7 + k * 3) % 11) / 2.0).collect();
        for limit in [UNSTATED, at(0), at(3), at(20), at(100_000)] {
            let (solved, made) = both_kinds(&two, &ideals, &mut [3; 7], limit);
            assert!(made.is_ok());
            assert_eq!(constraints_hold(&two, &solved.unwrap().counts), Ok(true));
        }
        let wide: Vec<_> = ideals.iter().map(|&x| x..=2.0 * x).collect();
        assert_eq!(constraints_hold(&two, &solve_counts_within(&two, &wide).unwrap()), Ok(true));
    }
}

/// A side is read to its last place, and one edge more is refused: in a solve, a round of either kind, `constraints_hold` and lay.
#[test]
fn full_sides() {
    for edges in [16, 17, 31, 32] {
        let tile = Region::new([(0..edges).collect(), vec![edges + 1], vec![edges], vec![edges + 2]]);
        let tiles = [tile.clone()];
        let ideals: Vec<f64> = (0..edges + 3).map(|edge| if edge == edges { edges as f64 } else { 1.0 }).collect();
        let counts: Vec<usize> = (0..edges + 3).map(|edge| if edge == edges { edges } else { 1 }).collect();
        assert_eq!(solve_counts(&tiles, &ideals), Ok(counts.clone()));
        let breaks: Vec<f64> = (0..=edges).map(|k| k as f64 / edges as f64).collect();
        let lay = |counts: &[usize]| lay_region(&tile, counts, [&breaks, &[0.0, 1.0], &[0.0, 1.0], &[0.0, 1.0]], &square());
        assert_eq!(lay(&counts).map(|quads| quads.len()), Ok(edges));
        // The last edge of the side has a piece too many.
        let mut uneven = counts.clone();
        uneven[edges - 1] += 1;
        assert_eq!(constraints_hold(&tiles, &uneven), Ok(false));
        assert_eq!(refusal(lay(&uneven)), (22, 0, 0));
        // The last edge and the one opposite have too few.
        let mut low = counts.clone();
        low[edges - 1] -= 1;
        low[edges] -= 1;
        assert_eq!(constraints_hold(&tiles, &low), Ok(true));
        let (mut by, mut within) = (low.clone(), low);
        assert!(round(&tiles, &ideals, &mut by, UNSTATED).unwrap().cost.is_some());
        assert!(round_within(&tiles, &equal_ends(&ideals), &mut within, UNSTATED).unwrap().cost.is_some());
        assert_eq!((&by, &within), (&counts, &counts));
    }
    let long = region([&[0; 33], &[], &[], &[]]);
    let mut count = [0];
    assert_eq!(refusal(round(&[long.clone()], &[1.0], &mut count, UNSTATED)), (1, 0, 0));
    assert_eq!(refusal(round_within(&[long.clone()], &[1.0..=1.0], &mut count, UNSTATED)), (1, 0, 0));
    assert_eq!(refusal(constraints_hold(&[long.clone()], &count)), (1, 0, 0));
    assert_eq!(refusal(lay_region(&long, &count, [&[0.0, 1.0]; 4], &square())), (1, 0, 0));
}

#[test]
fn geometry_refuses() {
    assert_eq!(refusal(coons_checked(&[[0.0; 2]; 4097], 1, 1)), (1, 0, 0));
    assert_eq!(refusal(coons_checked(&[[0.0; 2]; 7], 1, 1)), (12, 0, 0));
    assert_eq!(refusal(coons_curves(&square(), 0, 1)), (26, 0, 0));
    assert_eq!(refusal(coons_curves(&square(), 1025, 1)), (1, 0, 0));
    assert_eq!(coons_curves(&square(), 1024, 1).map(|quads| quads.len()), Ok(1024));
    let short = BoundaryCurves { top: vec![[1.0, 1.0]], ..square() };
    assert_eq!(refusal(coons_curves(&short, 1, 1)), (13, 2, 0));
    let open = BoundaryCurves { left: vec![[0.0, 1.0], [0.0, f64::INFINITY]], ..square() };
    assert_eq!(refusal(coons_curves(&open, 1, 1)), (14, 3, 0));
    let point = BoundaryCurves { right: vec![[1.0, 0.0], [1.0, 0.0]], ..square() };
    assert_eq!(refusal(coons_curves(&point, 1, 1)), (15, 1, 0));
    let apart = BoundaryCurves { right: vec![[1.0, 0.0], [1.0, 2.0]], ..square() };
    assert_eq!(refusal(coons_curves(&apart, 1, 1)), (16, 1, 0));
    let even = [0.0, 1.0];
    let seamed = |seam: &[f64]| coons_from_parameters(&square(), &even, seam, &even, &even);
    assert_eq!(refusal(seamed(&[0.0])), (18, 2, 0));
    assert_eq!(refusal(seamed(&[0.0, 2.0, 1.0])), (19, 2, 1));
    assert_eq!(refusal(seamed(&[0.0, 0.5, 0.25, 1.0])), (20, 2, 2));
    assert_eq!(refusal(seamed(&[0.5, 1.0])), (21, 2, 0));
    assert_eq!(refusal(seamed(&[0.0, 0.5, 1.0])), (22, 0, 0));
    assert_eq!(refusal(seamed(&[0.0; 1026])), (1, 0, 0));
    let dart = BoundaryCurves::from_corners([[0.0, 0.0], [4.0, 0.0], [1.0, 1.0], [0.0, 4.0]]);
    assert_eq!(refusal(coons_curves(&dart, 2, 2)), (25, 1, 1));
    let breaks: [&[f64]; 4] = [&[0.0, 1.0]; 4];
    assert_eq!(refusal(lay_region(&tile(), &[1, 1, 1], breaks, &square())), (3, 0, 3));
    assert_eq!(refusal(lay_region(&tile(), &[1; 4], [breaks[0], &[0.0], breaks[2], breaks[3]], &square())), (27, 1, 0));
    assert_eq!(refusal(lay_region(&tile(), &[1025, 1, 1025, 1], breaks, &square())), (1, 0, 0));
    assert_eq!(refusal(lay_region(&tile(), &[1, 1, 2, 1], breaks, &square())), (22, 0, 0));
    assert_eq!(refusal(mesh_tile_curves(&short, 1, 1)), (13, 2, 0));
    assert_eq!(refusal(mesh_tile(&[[0.0; 2]; 7], 1, 1)), (12, 0, 0));
    assert_eq!(refusal(root(f64::NAN)), (28, 0, 0));
}

/// A loop of 8 points whose last repeats its first is refused, of 9 such points it can pass.
#[test]
fn loops() {
    let eight = [[0.0, 0.0], [1.0, 0.0], [1.0, 0.0], [1.0, 1.0], [1.0, 1.0], [0.0, 1.0], [0.0, 1.0], [0.0, 0.0]];
    assert_eq!(refusal(mesh_tile(&eight, 1, 1)), (12, 0, 0));
    assert_eq!(refusal(BoundaryCurves::from_loop(&eight)), (12, 0, 0));
    let nine = [[0.0, 0.0], [1.0, 0.0], [1.0, 0.0], [1.0, 1.0], [1.0, 1.0], [0.0, 1.0], [0.0, 1.0], [0.0, 0.1], [0.0, 0.0]];
    assert_eq!(refusal(mesh_tile(&nine, 1, 1)), (16, 4, 0));
    let bent = [[0.0, 0.0], [1.0, 0.0], [1.0, 0.0], [1.0, 1.0], [1.0, 1.0], [0.0, 1.0], [0.0, 1.0], [0.0, 1e-10], [0.0, 0.0]];
    let mesh = mesh_tile(&bent, 2, 3).unwrap();
    assert_eq!((mesh.points.len(), mesh.cells.len()), (12, 6));
    let curves = BoundaryCurves::from_loop(&bent).unwrap();
    assert_eq!(mesh_tile_curves(&curves, 2, 3), Ok(mesh));
    assert_eq!(coons_checked(&bent, 2, 3), coons_curves(&curves, 2, 3));
    assert_eq!(BoundaryCurves::from_loop(&[[0.0, 0.0], [1.0, 0.0], [1.0, 1.0], [0.0, 1.0], [-0.0, 0.0]]), Ok(square()));
}

/// Edges above 16 bits, and counts, limits and cells above 32, are refused as the largest that fit.
#[test]
fn large_numbers() {
    let far = [region([&[1 << 20], &[], &[], &[]])];
    assert_eq!(refusal(solve_counts(&far, &[1.0])), (3, 0, 0));
    assert_eq!(constraints_hold(&far, &[1]), Ok(false));
    assert_eq!(refusal(energy(&[1 << 40], &[1.0])), (9, 0, 0));
    assert_eq!(refusal(round(&[], &[1.0], &mut [1 << 40], UNSTATED)), (9, 0, 0));
    assert_eq!(refusal(round(&[], &[1.0], &mut [1], at(1 << 40))), (10, 0, 0));
    assert_eq!(refusal(solve(&[], &[1.0], at(1 << 40))), (10, 0, 0));
    assert_eq!(refusal(solve_within(&far, &[1.0..=2.0], UNSTATED)), (3, 0, 0));
    assert_eq!(refusal(solve_within(&far, &[1.0..=2.0], at(1 << 40))), (10, 0, 0));
    assert_eq!(refusal(round_within(&[], &[1.0..=2.0], &mut [1 << 40], UNSTATED)), (9, 0, 0));
    assert_eq!(refusal(round_within(&[], &[1.0..=2.0], &mut [1], at(1 << 40))), (10, 0, 0));
    assert_eq!(refusal(constraints_hold(&[tile()], &[1 << 40, 0, 1 << 40, 0])), (1, 0, 0));
    assert_eq!(refusal(coons_curves(&square(), 1 << 40, 1)), (1, 0, 0));
    assert_eq!(refusal(mesh_tile_curves(&square(), 1, usize::MAX)), (1, 0, 0));
    let breaks: [&[f64]; 4] = [&[0.0, 1.0]; 4];
    assert_eq!(refusal(lay_region(&tile(), &[1 << 40; 4], breaks, &square())), (1, 0, 0));
}

/// Two opposite sides without edges have one quad across, and nothing of their breaks shows. One such side alone, and edges of count 0, are
/// turned away as ever.
#[test]
fn strips() {
    let (unit, nan): (&[f64], &[f64]) = (&[0.0, 1.0], &[f64::NAN; 3]);
    let long = vec![f64::INFINITY; 2000];
    let upright = region([&[], &[0], &[], &[1]]);
    let quads = lay_region(&upright, &[3, 3], [&[], unit, &[], unit], &square()).unwrap();
    assert_eq!(quads.len(), 3);
    assert_eq!((quads[0][1], quads[2][3]), ([1.0, 0.0], [0.0, 1.0]));
    for unread in [[&[0.5], nan], [nan, &[]], [unit, &long], [&long, &[1.0, 0.0]]] {
        assert_eq!(lay_region(&upright, &[3, 3], [unread[0], unit, unread[1], unit], &square()), Ok(quads.clone()));
    }
    let level = region([&[0], &[], &[1], &[]]);
    assert_eq!(lay_region(&level, &[1024, 1024], [unit, nan, unit, &[]], &square()).map(|quads| quads.len()), Ok(1024));
    let none = region([&[], &[], &[], &[]]);
    let whole = [[0.0, 0.0], [1.0, 0.0], [1.0, 1.0], [0.0, 1.0]];
    assert_eq!(lay_region(&none, &[], [&[], nan, unit, &long], &square()), Ok(vec![whole]));

    let lay = |sides, counts: &[usize], breaks| refusal(lay_region(&region(sides), counts, breaks, &square()));
    assert_eq!(lay([&[], &[0], &[1], &[2]], &[1; 3], [&[], unit, unit, unit]), (27, 0, 0));
    assert_eq!(lay([&[], &[0], &[1], &[2]], &[1; 3], [&[0.0], unit, unit, unit]), (18, 0, 0));
    assert_eq!(lay([&[0], &[1], &[2], &[]], &[1; 3], [unit, unit, unit, &[0.0]]), (18, 3, 0));
    assert_eq!(lay([&[0], &[1], &[2], &[3]], &[0, 1, 0, 1], [unit; 4]), (18, 0, 0));
    assert_eq!(lay([&[], &[0], &[], &[1]], &[1; 2], [nan, unit, nan, &[0.0]]), (27, 3, 0));
    assert_eq!(lay([&[], &[0], &[], &[1]], &[1, 2], [nan, unit, nan, unit]), (22, 1, 0));
    assert_eq!(lay([&[], &[0], &[], &[1]], &[1025, 1025], [nan, unit, nan, unit]), (1, 0, 0));
    assert_eq!(lay([&[], &[0], &[], &[2]], &[1, 1], [nan, unit, nan, &[]]), (3, 0, 3));
}

/// The pieces of a farm fit together: whatever the ideals, opposite sides come to the same, and each tile can be laid.
#[test]
fn tiles_fit() {
    let regions = [region([&[0], &[1], &[2, 3], &[4]]), region([&[2], &[5], &[6], &[7]]), region([&[3], &[8], &[9], &[5]])];
    let breaks: [&[f64]; 2] = [&[0.0, 1.0], &[0.0, 0.5, 1.0]];
    for k in 0..40 {
        let ideals: Vec<f64> = (0..10).map(|e| 1.5 + f64::from((e * 7 + k * 3) % 11) / 2.0).collect();
        let counts = solve_counts(&regions, &ideals).unwrap();
        assert_eq!(constraints_hold(&regions, &counts), Ok(true));
        for (tile, region) in regions.iter().enumerate() {
            let top = if tile == 0 { breaks[1] } else { breaks[0] };
            let quads = lay_region(region, &counts, [breaks[0], breaks[0], top, breaks[0]], &square()).unwrap();
            assert!(quads.iter().all(|quad| signed_area(quad) > 0.0));
        }
    }
}

/// The regions with sides exchanged: two bits of `choice` for each, the lower one for sides 0 and 2.
fn turned(regions: &[Region], choice: usize) -> Vec<Region> {
    let mut turned = regions.to_vec();
    for (index, region) in turned.iter_mut().enumerate() {
        for side in (0..2).filter(|side| choice >> (2 * index + side) & 1 == 1) {
            region.sides.swap(side, side + 2);
        }
    }
    turned
}

/// It does not matter which of two opposite sides is taken for the bottom, or for the left: counts, moves, costs and cut marks are the same
/// at every limit, for both kinds of ideal.
#[test]
fn turned_sheets() {
    let regions = [region([&[0], &[1], &[2, 3], &[4]]), region([&[2], &[5], &[6], &[7]]), region([&[3], &[8], &[9], &[5]])];
    let ideals: Vec<f64> = (0..10).map(|e| 1.5 + f64::from(e * 7 % 11) / 2.0).collect();
    let ranges: Vec<_> = ideals.iter().map(|&x| x..=1.25 * x).collect();
    for limit in [UNSTATED, at(0), at(3), at(6), at(100_000)] {
        let answers = |regions: &[Region]| {
            let (mut by, mut within) = ([2, 0, 1, 4, 3, 1, 0, 2, 5, 1], [0; 10]);
            let rounds = (round(regions, &ideals, &mut by, limit), round_within(regions, &ranges, &mut within, limit));
            (rounds, by, within, solve(regions, &ideals, limit), solve_within(regions, &ranges, limit))
        };
        let as_it_was = answers(&regions);
        assert!(as_it_was.3.is_ok());
        for choice in 0..64 {
            assert_eq!(answers(&turned(&regions, choice)), as_it_was, "{choice} {limit:?}");
        }
    }
    // What can matter is the order in which a side lists its edges.
    let top = |edges: &[usize]| solve(&[region([&[0], &[], edges, &[]])], &[1.0; 3], UNSTATED).unwrap().counts;
    assert_eq!([top(&[1, 2]), top(&[2, 1])], [vec![1, 1, 0], vec![1, 0, 1]]);
}
