//! Sets out a small farm of five tiles at a brook: counts of all edges from the wanted distance of the pegs, then every tile laid by them.
//! From the repository:
//!
//!     cd rust && cargo run --example farm ../target/farm.svg 12
//!
//! The first word is the file for the picture, farm.svg if there is none; the second the wanted distance in metres, 12 if there is none.
//! It prints every edge with its length and count, every tile with its quads, and how many pegs there are. The picture (SVG) shows tiles,
//! quads, edges and pegs, with a mark of its own for a peg where edges end, for one on an edge and for one inside a tile.
//!
//! No search limit is stated: on a farm as small as this a search makes 14 expansions at most, whatever the counts, and the default lets it
//! make 10,000. All the same it looks whether a search was cut, as a program for a wider farm should.
//!
//! Tiles are T0 to T4; a number at a corner is a point's, one on a line is an edge's. The brook is edge 0.
//!
//! ```text
//! 8 ------13------ 10 ---14--- 11
//! |                |           |
//! 11      T3       12          |
//! |                |     T4    15
//! 5 --9-- 6 --10-- 7           |
//! 6   T1  7   T2   8           |
//! 1 --2-- 2 --3--- 3 ----4---- 4
//! 5            T0              1
//! 0 ------------0------------- 9
//! ```

mod picture;

use juplatsk::{constraints_hold, energy, lay_region, round, solve, BoundaryCurves, Point, Quad, Refusal, Region, SearchLimit, Solved};
use std::collections::BTreeMap;
use std::error::Error;
use std::io::{self, Write};
use std::path::PathBuf;
use std::process::ExitCode;
use std::{env, fs};

// ---- the farm

/// The corners of the tiles, in metres: x to the east, y to the north.
#[rustfmt::skip]
const CORNERS: [Point; 12] = [
    [10.0, 22.0], [0.0, 96.0], [118.0, 86.0], [236.0, 92.0], [402.0, 118.0], [-8.0, 176.0],
    [112.0, 172.0], [232.0, 186.0], [4.0, 268.0], [398.0, 30.0], [240.0, 284.0], [386.0, 262.0],
];

/// Each edge: from where to where, and how far its middle lies to the left of the straight line, in metres. All run to the right or up.
#[rustfmt::skip]
const EDGES: [(usize, usize, f64); 16] = [
    (0, 9, -14.0), (9, 4, -4.0), (1, 2, 3.0), (2, 3, 2.0), (3, 4, 4.0), (0, 1, 3.0), (1, 5, 2.0), (2, 6, 0.0),
    (3, 7, 0.0), (5, 6, 2.0), (6, 7, 4.0), (5, 8, 3.0), (7, 10, 0.0), (8, 10, 9.0), (10, 11, 8.0), (4, 11, -16.0),
];

/// The edge at the brook winds.
const BROOK: usize = 0;

const SAMPLES: usize = 32;

/// Each tile by its sides: bottom, right, top, left.
fn tiles() -> Vec<Region> {
    let tile = |sides: [&[usize]; 4]| Region::new(sides.map(<[usize]>::to_vec));
    vec![
        tile([&[0], &[1], &[2, 3, 4], &[5]]),
        tile([&[2], &[7], &[9], &[6]]),
        tile([&[3], &[8], &[10], &[7]]),
        tile([&[9, 10], &[12], &[13], &[11]]),
        tile([&[4], &[15], &[14], &[8, 12]]),
    ]
}

fn distance(p: Point, q: Point) -> f64 {
    (q[0] - p[0]).hypot(q[1] - p[1])
}

fn length(line: &[Point]) -> f64 {
    line.windows(2).map(|pair| distance(pair[0], pair[1])).sum()
}

/// An edge as a bow of points over its straight line.
fn edge_line(edge: usize) -> Vec<Point> {
    let (from, to, bow) = EDGES[edge];
    let (p, q) = (CORNERS[from], CORNERS[to]);
    let across = [(p[1] - q[1]) / distance(p, q), (q[0] - p[0]) / distance(p, q)];
    let point = |k: usize| {
        let t = k as f64 / SAMPLES as f64;
        let winding = if edge == BROOK { 7.0 * (4.0 * std::f64::consts::PI * t).sin() } else { 0.0 };
        let out = 4.0 * bow * t * (1.0 - t) + winding;
        [p[0] + (q[0] - p[0]) * t + across[0] * out, p[1] + (q[1] - p[1]) * t + across[1] * out]
    };
    let mut line: Vec<Point> = (0..=SAMPLES).map(point).collect();
    (line[0], line[SAMPLES]) = (p, q);
    line
}

/// The curve of a side, to the right or up, and where its edges meet, as parts of its length.
fn side_line(edges: &[usize]) -> (Vec<Point>, Vec<f64>) {
    let mut line = vec![CORNERS[EDGES[edges[0]].0]];
    let mut run = vec![0.0];
    for &edge in edges {
        line.extend(&edge_line(edge)[1..]);
        run.push(length(&line));
    }
    let whole = run[edges.len()];
    (line, run.iter().map(|part| part / whole).collect())
}

// ---- its tiles and pegs

/// A tile's quads, row by row from the bottom, and how many a row and a column have.
struct Laid {
    across: usize,
    up: usize,
    quads: Vec<Quad>,
}

fn lay(tile: &Region, counts: &[usize]) -> Result<Laid, Refusal> {
    let [(bottom, b0), (right, b1), (mut top, b2), (mut left, b3)] = [0, 1, 2, 3].map(|side| side_line(&tile.sides[side]));
    // counter-clockwise around the tile, the top runs to the left and the left side down
    top.reverse();
    left.reverse();
    let quads = lay_region(tile, counts, [&b0, &b1, &b2, &b3], &BoundaryCurves { bottom, right, top, left })?;
    let [across, up] = [0, 3].map(|side| tile.sides[side].iter().map(|&edge| counts[edge]).sum());
    Ok(Laid { across, up, quads })
}

/// A peg by what it stands on. Two tiles name the pegs of their join alike.
#[derive(Clone, Copy, PartialEq, Eq, PartialOrd, Ord)]
enum Peg {
    /// A corner, by its number: edges begin and end here.
    Stone(usize),
    /// An edge, by its number, and which of its pegs, from 1 on.
    OnEdge(usize, usize),
    /// A tile, by its number, with column and row.
    Inside(usize, usize, usize),
}

type Pegs = BTreeMap<Peg, Point>;

/// The pegs of a side in order: where an edge begins a stone, then the edge's own pegs, and a stone where the last edge ends.
/// An edge with count 0 has no pegs of its own, and where it begins this side has no stone.
fn side_pegs(edges: &[usize], counts: &[usize]) -> Vec<Peg> {
    let own = |edge: usize| (0..counts[edge]).map(move |k| if k == 0 { Peg::Stone(EDGES[edge].0) } else { Peg::OnEdge(edge, k) });
    let last = edges.last().map(|&edge| Peg::Stone(EDGES[edge].1));
    edges.iter().flat_map(|&edge| own(edge)).chain(last).collect()
}

/// Every peg once. Two tiles may put a peg of their join at places that differ in the last bits: the tile with the lower number gives it.
fn pegs(tiles: &[Region], counts: &[usize], laid: &[Laid]) -> Pegs {
    let mut pegs = Pegs::new();
    for (tile, &Laid { across, up, ref quads }) in laid.iter().enumerate() {
        let [bottom, right, top, left] = [0, 1, 2, 3].map(|side| side_pegs(&tiles[tile].sides[side], counts));
        let named = |column: usize, row: usize| match (column, row) {
            (_, 0) => bottom[column],
            (_, _) if row == up => top[column],
            (0, _) => left[row],
            (_, _) if column == across => right[row],
            (_, _) => Peg::Inside(tile, column, row),
        };
        for (number, quad) in quads.iter().enumerate() {
            let (i, j) = (number % across, number / across);
            for (&point, (column, row)) in quad.iter().zip([(i, j), (i + 1, j), (i + 1, j + 1), (i, j + 1)]) {
                pegs.entry(named(column, row)).or_insert(point);
            }
        }
    }
    pegs
}

// ---- the program

/// All that the picture shows.
struct Plan {
    spacing: f64,
    counts: Vec<usize>,
    laid: Vec<Laid>,
    pegs: Pegs,
}

fn edge_words(edge: usize, spacing: f64, count: usize) -> String {
    let long = length(&edge_line(edge));
    let each = if count == 0 { "no pegs of its own".to_string() } else { format!("a peg every {:.2} m", long / count as f64) };
    format!("edge {edge}: {long:.1} m, ideal {:.2}, count {count}, {each}", long / spacing)
}

fn tile_words(tile: usize, laid: &Laid) -> String {
    format!("tile {tile}: {} quads, {} across and {} up", laid.quads.len(), laid.across, laid.up)
}

fn peg_words(pegs: &Pegs) -> String {
    let stones = pegs.keys().filter(|peg| matches!(peg, Peg::Stone(_))).count();
    let inside = pegs.keys().filter(|peg| matches!(peg, Peg::Inside(..))).count();
    format!("{} pegs: {stones} corner stones, {} on edges, {inside} inside tiles", pegs.len(), pegs.len() - stones - inside)
}

/// The file for the picture and the wanted distance between pegs.
fn arguments() -> Result<(PathBuf, f64), String> {
    let mut words = env::args_os().skip(1);
    let file = words.next().map_or("farm.svg".into(), PathBuf::from);
    let spacing = words.next().map_or(Ok(12.0), |word| metres(&word.to_string_lossy()))?;
    match words.next() {
        None => Ok((file, spacing)),
        Some(_) => Err("usage: farm [FILE.svg [DISTANCE]]".to_string()),
    }
}

fn metres(word: &str) -> Result<f64, String> {
    let number = word.parse().ok().filter(|metres: &f64| metres.is_finite() && *metres > 0.0);
    number.ok_or_else(|| format!("the distance between pegs must be a number of metres above 0, not {word:?}"))
}

fn run() -> Result<(), Box<dyn Error>> {
    let (file, spacing) = arguments()?;
    let mut out = io::stdout().lock();
    let tiles = tiles();
    let ideals: Vec<f64> = (0..EDGES.len()).map(|edge| length(&edge_line(edge)) / spacing).collect();

    // a round after the solve, with the same limit, finds no move, and tells whether a search was cut
    let limit = SearchLimit::Default;
    let Solved { mut counts, moves } = solve(&tiles, &ideals, limit)?;
    let cut = round(&tiles, &ideals, &mut counts, limit)?.cut;
    let (sum, agree) = (energy(&counts, &ideals)?, constraints_hold(&tiles, &counts)?);
    writeln!(out, "{moves} moves, energy {sum:.4}, opposite sides agree: {agree}, a search was cut: {cut}")?;
    for (edge, &count) in counts.iter().enumerate() {
        writeln!(out, "{}", edge_words(edge, spacing, count))?;
    }

    let lay_named = |(number, tile)| lay(tile, &counts).map_err(|refusal| format!("tile {number}: {refusal}"));
    let laid = tiles.iter().enumerate().map(lay_named).collect::<Result<Vec<_>, _>>()?;
    for (number, laid) in laid.iter().enumerate() {
        writeln!(out, "{}", tile_words(number, laid))?;
    }
    let pegs = pegs(&tiles, &counts, &laid);
    writeln!(out, "{}", peg_words(&pegs))?;

    let picture = picture::draw(&Plan { spacing, counts, laid, pegs });
    fs::write(&file, picture).map_err(|problem| format!("{}: {problem}", file.display()))?;
    writeln!(out, "the picture is {}", file.display())?;
    Ok(())
}

fn main() -> ExitCode {
    match run() {
        Ok(()) => ExitCode::SUCCESS,
        Err(problem) => {
            eprintln!("farm: {problem}");
            ExitCode::FAILURE
        }
    }
}
