//! Facts that decide whether pegs meet and that users may not expect, each with a small input that shows it.
//!
//! Corners are in metres and a peg is wanted about every 9 m, so that an edge's ideal is its length / 9. Lengths are made by `sqrt`, whose
//! result is the same on every machine; the figures of `millimetres_may_differ` hang on their last bits.

use juplatsk::*;

const SPACING: f64 = 9.0;
const UNSTATED: SearchLimit = SearchLimit::Default;
const HIGHEST: SearchLimit = SearchLimit::Expansions(100_000);

/// Tiles between straight edges. An edge goes from one corner to another, to the right or up.
struct Farm {
    corners: Vec<Point>,
    edges: Vec<(usize, usize)>,
    tiles: Vec<Region>,
}

fn region(sides: [&[usize]; 4]) -> Region {
    Region::new(sides.map(<[usize]>::to_vec))
}

fn distance(p: Point, q: Point) -> f64 {
    let [x, y] = [q[0] - p[0], q[1] - p[1]];
    (x * x + y * y).sqrt()
}

impl Farm {
    fn length(&self, edge: usize) -> f64 {
        let (from, to) = self.edges[edge];
        distance(self.corners[from], self.corners[to])
    }

    fn ideals(&self) -> Vec<f64> {
        (0..self.edges.len()).map(|edge| self.length(edge) / SPACING).collect()
    }

    fn solved(&self) -> Vec<usize> {
        solve_counts(&self.tiles, &self.ideals()).unwrap()
    }

    /// The points of a side, to the right or up, and its breaks.
    fn side(&self, edges: &[usize]) -> (Vec<Point>, Vec<f64>) {
        let mut line = vec![self.corners[self.edges[edges[0]].0]];
        let mut run = vec![0.0];
        for &edge in edges {
            line.push(self.corners[self.edges[edge].1]);
            run.push(run[run.len() - 1] + self.length(edge));
        }
        let whole = run[edges.len()];
        (line, run.iter().map(|part| part / whole).collect())
    }

    fn curves(&self, tile: usize) -> (BoundaryCurves, [Vec<f64>; 4]) {
        let sides = &self.tiles[tile].sides;
        let [(bottom, b0), (right, b1), (mut top, b2), (mut left, b3)] = [0, 1, 2, 3].map(|side| self.side(&sides[side]));
        top.reverse();
        left.reverse();
        (BoundaryCurves { bottom, right, top, left }, [b0, b1, b2, b3])
    }

    fn lay(&self, tile: usize, counts: &[usize]) -> Result<Vec<Quad>, Refusal> {
        let (curves, breaks) = self.curves(tile);
        lay_region(&self.tiles[tile], counts, breaks.each_ref().map(Vec::as_slice), &curves)
    }

    /// Number and first place of the refusal with which lay turns tile 0 away.
    fn refused(&self) -> (u32, u32) {
        let refusal = self.lay(0, &self.solved()).unwrap_err();
        (refusal.number, refusal.first)
    }

    /// The pegs that lay sets on a side of a tile, to the right or up.
    fn pegs(&self, tile: usize, side: usize, counts: &[usize]) -> Vec<Point> {
        let quads = self.lay(tile, counts).unwrap();
        let columns = self.tiles[tile].sides[0].iter().map(|&edge| counts[edge]).sum();
        side_pegs(&quads, columns, side)
    }
}

/// The grid points on a side, to the right or up. A side's quads have there their first and second corner, in the order of `ends`.
fn side_pegs(quads: &[Quad], columns: usize, side: usize) -> Vec<Point> {
    let last = quads.len() - columns;
    let (on_side, ends): (Vec<&Quad>, [usize; 2]) = match side {
        0 => (quads[..columns].iter().collect(), [0, 1]),
        1 => (quads.iter().skip(columns - 1).step_by(columns).collect(), [1, 2]),
        2 => (quads[last..].iter().collect(), [3, 2]),
        _ => (quads.iter().step_by(columns).collect(), [0, 3]),
    };
    let mut pegs: Vec<Point> = on_side.iter().map(|quad| quad[ends[0]]).collect();
    pegs.extend(on_side.last().map(|quad| quad[ends[1]]));
    pegs
}

/// A field whose top side is cut where `cuts` say, from left to right, both ends among them. Edge 0 is the bottom, 1 the right and 2 the
/// left; those of the top follow.
fn field(cuts: &[f64], height: f64) -> Farm {
    let mut corners = vec![[0.0, 0.0], [cuts[cuts.len() - 1], 0.0]];
    corners.extend(cuts.iter().map(|&x| [x, height]));
    let mut edges = vec![(0, 1), (1, corners.len() - 1), (0, 2)];
    edges.extend((2..corners.len() - 1).map(|corner| (corner, corner + 1)));
    let top: Vec<usize> = (3..edges.len()).collect();
    Farm { corners, edges, tiles: vec![region([&[0], &[1], &top, &[2]])] }
}

/// A wide tile below two others, which meet at a T-junction, corner 3.
///
/// ```text
/// 5 --8-- 6 --9-- 7
/// 5   T1  6   T2  7
/// 2 --2-- 3 --3-- 4
/// 4       T0      1
/// 0 ------0------ 1
/// ```
fn three_tiles(corners: [Point; 8]) -> Farm {
    let edges = vec![(0, 1), (1, 4), (2, 3), (3, 4), (0, 2), (2, 5), (3, 6), (4, 7), (5, 6), (6, 7)];
    let tiles = vec![region([&[0], &[1], &[2, 3], &[4]]), region([&[2], &[6], &[8], &[5]]), region([&[3], &[7], &[9], &[6]])];
    Farm { corners: corners.to_vec(), edges, tiles }
}

fn xs(pegs: &[Point]) -> Vec<f64> {
    pegs.iter().map(|peg| peg[0]).collect()
}

/// Rounds from zeros until one makes no move: the counts, how many moves were made, and whether the last round was cut.
fn rounds(tiles: &[Region], ideals: &[f64], limit: SearchLimit) -> (Solved, bool) {
    let mut solved = Solved { counts: vec![0; ideals.len()], moves: 0 };
    loop {
        let made = round(tiles, ideals, &mut solved.counts, limit).unwrap();
        // whenever a program stops here, opposite sides agree
        assert_eq!(constraints_hold(tiles, &solved.counts), Ok(true));
        if made.cost.is_none() {
            return (solved, made.cut);
        }
        solved.moves += 1;
    }
}

/// A count of 0 is an answer. A short edge may get it; lay then sets no peg of that edge where it begins, at its left or lower end, and is
/// refused if it is the first of its side and has a length (21) or if no edge of the side has a piece (18). Look for counts of 0 after a
/// solve; a range from 1 for a short edge may help.
#[test]
fn count_of_zero_leaves_out_a_peg() {
    // a fence of 9 m, then a gateway of 3 m: no peg at 9
    let gateway_last = field(&[0.0, 9.0, 12.0], 9.0);
    assert_eq!(gateway_last.solved(), [1, 1, 1, 1, 0]);
    assert_eq!(xs(&gateway_last.pegs(0, 2, &gateway_last.solved())), [0.0, 12.0]);

    let gateway_first = field(&[0.0, 3.0, 12.0], 9.0);
    assert_eq!(gateway_first.solved(), [1, 1, 1, 0, 1]);
    assert_eq!(gateway_first.refused(), (21, 2));

    // a field 3 m wide gets no quads
    let narrow = field(&[0.0, 3.0], 9.0);
    assert_eq!(narrow.solved(), [0, 1, 1, 0]);
    assert_eq!(narrow.refused(), (18, 0));

    // a gateway between two fences: a peg at its right end, 51, and none at 48
    let between = field(&[0.0, 48.0, 51.0, 100.0], 20.0);
    assert_eq!(between.solved(), [11, 2, 2, 5, 0, 6]);
    assert_eq!(xs(&between.pegs(0, 2, &between.solved()))[4..6], [38.4, 51.0]);
    let mut ranges: Vec<_> = between.ideals().iter().map(|&ideal| ideal..=ideal).collect();
    ranges[4] = 1.0..=1.0;
    let counts = solve_counts_within(&between.tiles, &ranges).unwrap();
    assert_eq!(counts, [11, 2, 2, 5, 1, 5]);
    assert_eq!(xs(&between.pegs(0, 2, &counts))[4..7], [38.4, 48.0, 51.0]);
}

/// Two opposite sides without edges have one quad across: no peg between their corners, whatever their neighbours set there. Where a strip
/// meets another tile, list the common edge, and one opposite to it.
#[test]
fn strip_has_no_peg_of_its_neighbour() {
    // a tile of 18 m by 9 m, and above it a strip of 27 m whose short sides, 18 m, have no edges
    let (unit, unread): (&[f64], &[f64]) = (&[0.0, 1.0], &[]);
    let tile = region([&[0], &[1], &[2], &[3]]);
    let strip = region([&[], &[4], &[], &[5]]);
    let above = BoundaryCurves::from_corners([[0.0, 9.0], [18.0, 9.0], [18.0, 36.0], [0.0, 36.0]]);
    let below = BoundaryCurves::from_corners([[0.0, 0.0], [18.0, 0.0], [18.0, 9.0], [0.0, 9.0]]);
    let ideals = [2.0, 1.0, 2.0, 1.0, 3.0, 3.0];
    let counts = solve_counts(&[tile.clone(), strip.clone()], &ideals).unwrap();
    let of_tile = lay_region(&tile, &counts, [unit; 4], &below).unwrap();
    let of_strip = lay_region(&strip, &counts, [unread, unit, unread, unit], &above).unwrap();
    assert_eq!(xs(&side_pegs(&of_tile, 2, 2)), [0.0, 9.0, 18.0]);
    assert_eq!(xs(&side_pegs(&of_strip, 1, 0)), [0.0, 18.0]);

    // edge 2 belongs to both, and edge 6 lies opposite
    let marked = region([&[2], &[4], &[6], &[5]]);
    let counts = solve_counts(&[tile, marked.clone()], &[ideals.as_slice(), &[2.0]].concat()).unwrap();
    let of_marked = lay_region(&marked, &counts, [unit; 4], &above).unwrap();
    assert_eq!(xs(&side_pegs(&of_marked, 2, 0)), [0.0, 9.0, 18.0]);

    // a field 3 m wide, which has no quads with its edges (18), has them without
    let narrow = BoundaryCurves::from_corners([[0.0, 0.0], [3.0, 0.0], [3.0, 18.0], [0.0, 18.0]]);
    let field = region([&[0], &[1], &[2], &[3]]);
    let counts = solve_counts(std::slice::from_ref(&field), &[3.0 / 9.0, 2.0, 3.0 / 9.0, 2.0]).unwrap();
    assert_eq!(counts, [0, 2, 0, 2]);
    assert_eq!(lay_region(&field, &counts, [unit; 4], &narrow).unwrap_err().number, 18);
    let strip = region([&[], &[1], &[], &[3]]);
    assert_eq!(lay_region(&strip, &counts, [unread, unit, unread, unit], &narrow).map(|quads| quads.len()), Ok(2));
}

/// A least of 1 is a wish and no bound: the count may still be 0, if what it asks of the opposite side costs too much or cannot be had.
/// Look for counts of 0 after a solve within ranges too; a wider range on the opposite side may help.
#[test]
fn least_of_one_is_no_promise() {
    // nothing lies opposite
    assert_eq!(solve_counts_within(&[region([&[0], &[], &[], &[]])], &[1.0..=1.0]), Ok(vec![0]));

    // a piece at the bottom wins 1, and the piece at the top that it asks for costs 3
    let narrowing = [region([&[0], &[], &[1], &[]])];
    assert_eq!(solve_counts_within(&narrowing, &[1.0..=2.0, 1.0 / 3.0..=1.0 / 3.0]), Ok(vec![0, 0]));

    // every edge has a least of 1, but a second piece at the bottom costs what the one at the top wins
    let split = [region([&[0], &[], &[1, 2], &[]])];
    assert_eq!(solve_counts_within(&split, &[1.0..=1.0, 1.0..=1.0, 1.0..=1.0]), Ok(vec![1, 1, 0]));
    assert_eq!(solve_counts_within(&split, &[1.0..=2.0, 1.0..=1.0, 1.0..=1.0]), Ok(vec![2, 1, 1]));
}

/// Meshes and `coons_curves` space the pegs of a whole side evenly and know nothing of a T-junction on it: with solved counts the pegs of
/// both tiles are equally many, but stand elsewhere. Use `lay_region` with breaks, so that they meet.
#[test]
fn even_seams_miss_a_junction() {
    let farm = three_tiles([[0.0, 0.0], [19.0, 0.0], [0.0, 9.0], [14.0, 9.0], [19.0, 9.0], [0.0, 18.0], [14.0, 18.0], [19.0, 18.0]]);
    let counts = farm.solved();
    assert_eq!(counts, [2, 1, 1, 1, 1, 1, 1, 1, 1, 1]);
    assert_eq!(farm.pegs(1, 0, &counts), [[0.0, 9.0], [14.0, 9.0]]);
    assert_eq!(farm.pegs(2, 0, &counts), [[14.0, 9.0], [19.0, 9.0]]);
    assert_eq!(farm.pegs(0, 2, &counts), [[0.0, 9.0], [14.0, 9.0], [19.0, 9.0]]);

    // 4.5 m off
    let (curves, _) = farm.curves(0);
    assert_eq!(side_pegs(&coons_curves(&curves, 2, 1).unwrap(), 2, 2), [[0.0, 9.0], [9.5, 9.0], [19.0, 9.0]]);
    assert_eq!(mesh_tile_curves(&curves, 2, 1).unwrap().points[3..], [[0.0, 9.0, 0.0], [9.5, 9.0, 0.0], [19.0, 9.0, 0.0]]);
}

fn millimetres(peg: Point) -> [f64; 2] {
    peg.map(|metres| (metres * 1000.0).round())
}

/// Two tiles work out the pegs of their common edge each for itself, and the last bits may differ. At half a millimetre one version may
/// then be rounded up and the other down: take the pegs of a common edge from one of its tiles.
#[test]
fn one_peg_two_millimetres() {
    // two fields of 31.502 m by 9 m, one above the other; the second peg stands at 31.502 / 4 = 7.8755
    let corners = vec![[0.0, 0.0], [31.502, 0.0], [0.0, 9.0], [31.502, 9.0], [0.0, 18.0], [31.502, 18.0]];
    let edges = vec![(0, 1), (1, 3), (2, 3), (0, 2), (3, 5), (4, 5), (2, 4)];
    let farm = Farm { corners, edges, tiles: vec![region([&[0], &[1], &[2], &[3]]), region([&[2], &[4], &[5], &[6]])] };
    let counts = farm.solved();
    assert_eq!(counts, [4, 1, 4, 1, 1, 4, 1]);
    let [below, above] = [farm.pegs(0, 2, &counts)[1], farm.pegs(1, 0, &counts)[1]];
    assert_eq!([below, above], [[7.875499999999998, 9.0], [7.8755, 9.0]]);
    assert_eq!([millimetres(below), millimetres(above)], [[7875.0, 9000.0], [7876.0, 9000.0]]);
}

/// It is no rare case. Of 1,000 farms of three tiles, each corner moved from a plan of 100 m by 60 m by up to 10 m each way, in whole
/// millimetres, all have a common peg whose two versions differ, and 373 one whose versions round to different millimetres.
#[test]
fn millimetres_may_differ() {
    const PLAN: [[i64; 2]; 8] = [[0, 0], [100, 0], [0, 30], [50, 30], [100, 30], [0, 60], [50, 60], [100, 60]];
    let mut state: u64 = 88_172_645_463_325_252;
    let mut moved = |metres: i64| {
        state ^= state << 13;
        state ^= state >> 7;
        state ^= state << 17;
        (metres * 1000 + (state % 20_001) as i64 - 10_000) as f64 / 1000.0
    };
    let (mut differ, mut differ_rounded, mut farthest) = (0, 0, 0.0_f64);
    for _ in 0..1000 {
        let farm = three_tiles(PLAN.map(|corner| corner.map(&mut moved)));
        let counts = farm.solved();
        // the upper tiles' bottoms, and the left one's right side, beside what their neighbours say
        let below = farm.pegs(0, 2, &counts);
        let junction = counts[2];
        let own = [farm.pegs(1, 0, &counts), farm.pegs(2, 0, &counts), farm.pegs(1, 1, &counts)].concat();
        let neighbours = [&below[..=junction], &below[junction..], &farm.pegs(2, 3, &counts)].concat();
        assert_eq!(own.len(), neighbours.len());
        let pairs = || own.iter().zip(&neighbours);
        differ += usize::from(pairs().any(|(p, q)| p != q));
        differ_rounded += usize::from(pairs().any(|(&p, &q)| millimetres(p) != millimetres(q)));
        farthest = pairs().map(|(&p, &q)| distance(p, q)).fold(farthest, f64::max);
    }
    assert_eq!((differ, differ_rounded), (1000, 373));
    assert!(farthest < 1e-13, "{farthest}");
}

/// A search that is cut may miss moves. Here the ideals fit exactly, but at limit 3 no search finds a move through edge 2, and it stays
/// at 0. The last round says that it was cut; look at `cut`, and raise the limit.
#[test]
fn cut_search_misses_moves() {
    let tiles = [region([&[0], &[], &[1, 2], &[]]), region([&[1, 2], &[], &[3], &[]])];
    let ideals = [4.0, 1.0, 3.0, 4.0];
    let [three, five] = [3, 5].map(SearchLimit::Expansions);
    assert_eq!(rounds(&tiles, &ideals, three), (Solved { counts: vec![1, 1, 0, 1], moves: 1 }, true));
    assert_eq!(rounds(&tiles, &ideals, five), (Solved { counts: vec![4, 1, 3, 4], moves: 4 }, false));
}

/// Without a stated limit a search makes 10,000 expansions at most, and a solve may come to other counts than with more, balanced all the same.
/// Smallest farm found: nine strips side by side, with 1, 2, 3, 3, 3, 3, 3, 3, 3 and 1 edges on their ten borders, 25 in all, of 9 m the last of each
/// border and of 1.8 m the others. One move pays, a piece for each edge of 9 m, and a search comes to it behind all others: from the left end
/// as its expansion 10,935, from the right end as its 12,028. So where none is stated no move is found, and the round after the solve tells that one may
/// have been missed.
#[test]
fn stated_limit_comes_to_other_counts() {
    let (mut borders, mut ideals) = (Vec::new(), Vec::new());
    for edges in [1, 2, 3, 3, 3, 3, 3, 3, 3, 1] {
        borders.push((ideals.len()..ideals.len() + edges).collect::<Vec<_>>());
        ideals.extend((1..=edges).map(|edge| if edge == edges { 9.0 / SPACING } else { 1.8 / SPACING }));
    }
    let tiles: Vec<Region> = borders.windows(2).map(|pair| region([&[], &pair[1], &[], &pair[0]])).collect();
    assert_eq!((tiles.len(), ideals.len()), (9, 25));

    let found = vec![1, 0, 1, 0, 0, 1, 0, 0, 1, 0, 0, 1, 0, 0, 1, 0, 0, 1, 0, 0, 1, 0, 0, 1, 1];
    assert_eq!(solve(&tiles, &ideals, UNSTATED), Ok(Solved { counts: vec![0; 25], moves: 0 }));
    assert_eq!(solve(&tiles, &ideals, HIGHEST), Ok(Solved { counts: found.clone(), moves: 1 }));
    assert_eq!(constraints_hold(&tiles, &[0; 25]), Ok(true));
    assert_eq!(constraints_hold(&tiles, &found), Ok(true));
    assert_eq!(energy(&[0; 25], &ideals), Ok(25.0));
    assert_eq!(energy(&found, &ideals), Ok(15.0));

    let [short, enough] = [10_934, 10_935].map(SearchLimit::Expansions);
    assert_eq!(solve(&tiles, &ideals, short).map(|solved| solved.moves), Ok(0));
    assert_eq!(solve(&tiles, &ideals, enough).map(|solved| solved.counts), Ok(found.clone()));
    let [cut, uncut] = [12_027, 12_028].map(|limit| round(&tiles, &ideals, &mut [0; 25], SearchLimit::Expansions(limit)).unwrap().cut);
    assert_eq!([cut, uncut], [true, false]);

    // the round after a solve, with the solve's limit; and one with a higher limit, which finds the move
    assert_eq!(round(&tiles, &ideals, &mut [0; 25], UNSTATED), Ok(Round { cost: None, cut: true }));
    assert_eq!(round(&tiles, &ideals, &mut found.clone(), HIGHEST), Ok(Round { cost: None, cut: false }));
    let mut counts = [0; 25];
    assert_eq!(round(&tiles, &ideals, &mut counts, HIGHEST), Ok(Round { cost: Some(-10.0), cut: false }));
    assert_eq!(counts[..], found);
}

/// So many strips side by side, 45 m long and 9 m wide. A border between two has three edges, of 9, 9 and 27 m. First come the borders'
/// edges, from left to right, then bottom and top of each strip.
fn strips(number: usize) -> (Vec<Region>, Vec<f64>) {
    let mut ideals = Vec::new();
    let mut borders = Vec::new();
    for border in 0..=number {
        let pieces: &[f64] = if border == 0 || border == number { &[5.0] } else { &[1.0, 1.0, 3.0] };
        borders.push((ideals.len()..ideals.len() + pieces.len()).collect::<Vec<_>>());
        ideals.extend(pieces);
    }
    let first = ideals.len();
    ideals.extend(vec![1.0; 2 * number]);
    let strip = |k: usize| region([&[first + 2 * k], &borders[k + 1], &[first + 2 * k + 1], &borders[k]]);
    ((0..number).map(strip).collect(), ideals)
}

/// A solve of so many strips: how many of its edges that want three pieces are left at 0, its energy, and whether the round after it, which has the
/// same limit and makes no move, was cut.
fn solved_strips(number: usize, limit: SearchLimit) -> (usize, f64, bool) {
    let (tiles, ideals) = strips(number);
    let mut counts = solve(&tiles, &ideals, limit).unwrap().counts;
    assert_eq!(constraints_hold(&tiles, &counts), Ok(true));
    let after = round(&tiles, &ideals, &mut counts, limit).unwrap();
    assert_eq!(after.cost, None);
    let left_out = counts.iter().zip(&ideals).filter(|&(&count, &ideal)| count == 0 && ideal == 3.0).count();
    (left_out, energy(&counts, &ideals).unwrap(), after.cut)
}

/// On wide farms the searches of a solve are cut too, and edges that want many pieces may be left at 0; the solve does not tell. Make a round on its
/// counts with its own limit and look at `cut`, which alone tells; then state a higher limit, or compare by `energy` with counts made by hand.
#[test]
fn cut_solve_leaves_edges_at_zero() {
    // eight strips are few enough for the limit that is not stated, ten for the highest; at nine and at eleven searches are cut
    assert_eq!(solved_strips(8, UNSTATED), (0, 0.0, false));
    assert_eq!(solved_strips(10, HIGHEST), (0, 0.0, false));
    let (left_out, sum, cut) = solved_strips(9, UNSTATED);
    assert!(left_out == 0 && sum > 0.9 && cut);
    assert_eq!(solved_strips(11, HIGHEST), (0, 0.0, true));

    // 13 strips, which is the least number that leaves any: all twelve, or none
    for number in 2..13 {
        assert_eq!(solved_strips(number, UNSTATED).0, 0);
    }
    let (left_out, sum, cut) = solved_strips(13, UNSTATED);
    assert!(left_out == 12 && sum > 12.0 && cut);
    let (left_out, sum, cut) = solved_strips(13, HIGHEST);
    assert!(left_out == 0 && sum > 1.0 && sum < 2.0 && cut);

    // 16 strips: all fifteen with either limit, though the ideals fit exactly
    for limit in [UNSTATED, HIGHEST] {
        let (left_out, sum, cut) = solved_strips(16, limit);
        assert!(left_out == 15 && sum > 15.0 && cut);
    }
    let (tiles, ideals) = strips(16);
    let by_hand: Vec<usize> = ideals.iter().map(|&ideal| ideal as usize).collect();
    assert_eq!(constraints_hold(&tiles, &by_hand), Ok(true));
    assert_eq!(energy(&by_hand, &ideals), Ok(0.0));

    // a 0 at a large ideal is no sign of a cut: a second piece at the bottom would cost more than one at the top wins
    let split = [region([&[0], &[], &[1, 2], &[]])];
    for limit in [UNSTATED, HIGHEST] {
        assert_eq!(rounds(&split, &[1.0, 1.0, 6.0], limit), (Solved { counts: vec![1, 1, 0], moves: 1 }, false));
    }
}

/// From 8 points on a loop is four curves, so each corner stands twice. If it ends just where it began, the last point is dropped as a
/// closing one, and the loop refused by 12: append the first point once more. It counts for the limit of 4,096 points.
#[test]
fn loop_with_corners_twice() {
    let [a, b, c, d] = [[0.0, 0.0], [1.0, 0.0], [1.0, 1.0], [0.0, 1.0]];
    let meshed = |points: &[Point]| mesh_tile(points, 1, 1).map_err(|refusal| refusal.number);
    assert_eq!(meshed(&[a, b, b, c, c, d, d, a]), Err(12));
    let mesh = meshed(&[a, b, b, c, c, d, d, a, a]).unwrap();
    assert_eq!(mesh.points, [[0.0, 0.0, 0.0], [1.0, 0.0, 0.0], [0.0, 1.0, 0.0], [1.0, 1.0, 0.0]]);
    // corners once, with the middles of the sides between them: the curves do not meet
    assert_eq!(meshed(&[a, [0.5, 0.0], b, [1.0, 0.5], c, [0.5, 1.0], d, [0.0, 0.5]]), Err(16));
    // a loop that ends within the tolerance of its start, and not just there, has no closing point
    assert!(meshed(&[a, b, b, c, c, d, d, [1e-12, 0.0]]).is_ok());
    // four corners stand once, closed or not
    assert_eq!(meshed(&[a, b, c, d]), Ok(mesh.clone()));
    assert_eq!(meshed(&[a, b, c, d, a]), Ok(mesh));
}

/// Curves may be apart by 1e-9 of the tile's size. The patch then meets left and right, and misses bottom and top: by the gap at a corner,
/// and in proportion along the side. Let neighbouring curves end in the same point.
#[test]
fn curves_apart_within_the_allowance() {
    let [a, b, c, d] = [[0.0, 0.0], [1.0, 0.0], [1.0, 1.0], [0.0, 1.0]];
    let curves = |end| BoundaryCurves { bottom: vec![a, b], right: vec![b, c], top: vec![c, d], left: vec![d, end] };
    let bottom_row = |end| mesh_tile_curves(&curves(end), 2, 2).map(|mesh| mesh.points[..3].to_vec()).map_err(|refusal| refusal.number);
    let pegs = |x, middle| Ok(vec![[x, 0.0, 0.0], [middle, 0.0, 0.0], [1.0, 0.0, 0.0]]);
    assert_eq!(bottom_row(a), pegs(0.0, 0.5));
    assert_eq!(bottom_row([5e-10, 0.0]), pegs(5e-10, 0.50000000025));
    assert_eq!(bottom_row([2e-9, 0.0]), Err(16));
}

/// Each curve begins at its first point and ends at its last, bit for bit. So a corner peg is the point that both curves have there, if they
/// do have one: on even seams, whatever the points between, and where a curve begins or ends with points too close to be measured.
#[test]
fn corner_pegs_are_the_stones() {
    let [a, b, c, d] = [[0.1, -0.2], [0.9, -0.3], [1.1, 0.7], [0.3, 0.6]];
    let near = |p: Point| [p[0], p[1] + f64::from_bits(1)];
    let curves = BoundaryCurves {
        bottom: vec![a, near(a), [0.5, -0.1], near(b), b],
        right: vec![b, [1.0, 0.1], c],
        top: vec![c, c, [0.7, 0.9], d, d],
        left: vec![d, a],
    };
    for (n_u, n_v) in [(1, 1), (2, 3), (7, 5), (64, 1), (100, 65)] {
        let points = mesh_tile_curves(&curves, n_u, n_v).unwrap().points;
        let corners = [0, n_u, points.len() - 1, points.len() - 1 - n_u].map(|k| [points[k][0], points[k][1]]);
        assert_eq!(corners.map(|p| p.map(f64::to_bits)), [a, b, c, d].map(|p| p.map(f64::to_bits)));
    }
}

/// Where the two curves end apart, by a bit even, a corner peg may be neither point, and a coordinate -0 may become +0.
#[test]
fn corner_pegs_beside_the_stones() {
    let lower_left = |start: Point, end: Point| {
        let [b, c, d] = [[2.0, 0.0], [2.0, 1.0], [1.0, 1.0]];
        let curves = BoundaryCurves { bottom: vec![start, b], right: vec![b, c], top: vec![c, d], left: vec![d, end] };
        mesh_tile_curves(&curves, 1, 1).unwrap().points[0]
    };
    assert_eq!(lower_left([1.0000000000000002, 0.0], [1.0000000000000004, 0.0]), [1.0000000000000007, 0.0, 0.0]);
    assert_eq!(lower_left([1.0, -0.0], [1.0, -0.0]).map(f64::to_bits), [1.0, 0.0, 0.0].map(f64::to_bits));
}

/// By a curve's last point two tiles come to another refusal than by a blend, which misses it where a curve runs far out.
#[test]
fn joins_by_the_last_point() {
    let tile = |width: f64, bottom: Vec<Point>, right: Vec<Point>| {
        let (corner, end) = ([width, 1.0], [0.0, 0.0]);
        let curves = BoundaryCurves { bottom, right, top: vec![corner, [0.0, 1.0]], left: vec![[0.0, 1.0], end] };
        coons_curves(&curves, 1, 1).map(|quads| quads.len()).map_err(|refusal| (refusal.number, refusal.first))
    };
    let far = f64::powi(2.0, 25);
    assert_eq!(tile(0.1, vec![[0.0, 0.0], [0.1, 0.0]], vec![[0.1, 0.0], [far, 0.5], [0.1, 1.0]]), Ok(1));
    let bottom = vec![[0.0, 0.0], [far, 0.0], [1.0, 0.0], [1.0 + 2e-9, 0.0]];
    assert_eq!(tile(1.0, bottom, vec![[1.0, 0.0], [1.0, 1.0]]), Err((16, 0)));
}

/// An ideal may be so large that its first piece wins less than 1e-12, and then the count is 0 too, without a refusal.
#[test]
fn huge_ideal_gets_no_piece() {
    assert_eq!(solve_counts(&[], &[3e12]), Ok(vec![0]));
    assert_eq!(solve_counts(&[], &[1e12]).map_err(|refusal| refusal.number), Err(7));
}

/// Far from the origin areas drown in rounding, and a good tile is refused: 17 for its corners, or 25 for a quad. Move the origin near the
/// tile, by whole metres.
#[test]
fn areas_drown_far_from_the_origin() {
    let square = |at: f64, side: f64| [[at, at], [at + side, at], [at + side, at + side], [at, at + side]];
    let number =
        |at, side, cells| coons_checked(&square(at, side), cells, cells).map(|quads| quads.len()).map_err(|refusal| refusal.number);
    assert_eq!(number(1e8, 1.0, 1), Err(17));
    assert_eq!(number(1e9, 9.0, 10), Err(25));
    assert_eq!([number(0.0, 1.0, 1), number(0.0, 9.0, 10)], [Ok(1), Ok(100)]);
}

/// A solve tells nothing before its end. Rounds from zeros with the same limit come to the same counts by as many moves, so a program can
/// make them one by one, show how far it is, and stop when it likes: opposite sides agree after every round. It may take longer than
/// a solve, and wants a bound such as the solve's 200,000 moves.
#[test]
fn rounds_by_hand_are_a_solve() {
    let farm = three_tiles([[0.0, 0.0], [97.0, 4.0], [2.0, 31.0], [45.0, 35.0], [99.0, 30.0], [0.0, 70.0], [47.0, 66.0], [95.0, 71.0]]);
    let ideals = farm.ideals();
    for (limit, cut) in [(UNSTATED, false), (HIGHEST, false), (SearchLimit::Expansions(3), true), (SearchLimit::Expansions(0), true)] {
        assert_eq!(rounds(&farm.tiles, &ideals, limit), (solve(&farm.tiles, &ideals, limit).unwrap(), cut));
    }
}
