//! The speed list: farms, grids and roots through the Rust and through this library, in turn, with equal results. Grids are those of the
//! Rust whose curves end on their stones (02, item 12).

use super::call::Sides;
use super::clock::{race, timed, Effort, Pair};
use super::farms::{self, Farm};
use super::library;
use super::random::Random;
use crate::farm::{lists, record};
use crate::limits::{RECORD, SEARCH, SIDE_EDGES};
use crate::mesh::Mesh;
use crate::stones::BoundaryCurves;
use crate::{blended, geometry, reach, simons_qgp, simons_qgp_stones, solver};
use std::hint::black_box;

pub const SHORT: Effort = Effort { turn: 0.02, seconds: 0.6, turns: 5 };
/// A grid is one call a turn.
const GRID: Effort = Effort { turn: 0.0, seconds: 0.0, turns: 7 };
/// For a round or solve that takes the Rust seconds.
pub const LONG: Effort = Effort { turn: 0.0, seconds: 3.0, turns: 3 };
pub const ONCE: Effort = Effort { turn: 0.0, seconds: 0.0, turns: 1 };

/// Solves with more entries than this take the Rust minutes.
pub const LARGEST: u64 = 1_000_000_000;

/// Cells along each side of the grids.
pub const CELLS: usize = 1024;

pub fn seconds(time: f64) -> String {
    match time {
        t if t < 1e-6 => format!("{:.1} ns", t * 1e9),
        t if t < 1e-3 => format!("{:.1} us", t * 1e6),
        t if t < 1.0 => format!("{:.2} ms", t * 1e3),
        t => format!("{t:.2} s"),
    }
}

/// Near 1 the ratio has two digits, so that it says which of the two is faster.
pub fn times(pair: Pair) -> String {
    let ratio = pair.ratio();
    let digits = if ratio < 2.0 { 2 } else { 1 };
    format!("{} | {} | **{ratio:.digits$}**", seconds(pair.rust), seconds(pair.here))
}

fn yes_or_no(cut: bool) -> &'static str {
    if cut {
        "yes"
    } else {
        "no"
    }
}

fn millions(entries: f64, time: f64) -> String {
    format!("{:.1}", entries / time / 1e6)
}

/// The farms of a file, and behind them two with sides of as many edges as a record has places for.
pub fn list(path: &str) -> Result<Vec<Farm>, String> {
    let mut farms = farms::read(path)?;
    for regions in [1, 2] {
        farms.push(column(regions)?);
    }
    Ok(farms)
}

/// Regions one above the other, as the file's columns are: full sides on bottom and top, one edge on the right and on the left.
fn column(regions: usize) -> Result<Farm, String> {
    let level = |line: usize| (line * SIDE_EDGES..(line + 1) * SIDE_EDGES).map(|edge| edge as u16).collect::<Vec<u16>>();
    let level_edges = (regions + 1) * SIDE_EDGES;
    let region = |row: usize| {
        let left = (level_edges + 2 * row) as u16;
        record([&level(row), &[left + 1], &level(row + 1), &[left]])
    };
    let records = (0..regions).flat_map(region).collect();
    let name = format!("column of {regions}, {SIDE_EDGES} edges on bottom and top");
    asked(name, records, column_ideals(level_edges, 2 * regions))
}

/// Like the ideals of the file's columns: up to 15 % off, a level line 64 long in all, an upright one 6. So more edges on a line are
/// shorter ones, and a solve makes about as many moves.
fn column_ideals(level: usize, upright: usize) -> Vec<f64> {
    let mut random = Random::new(7);
    let mut near = |ideal: f64| ideal * (0.85 + 0.3 * random.unit());
    (0..level + upright).map(|edge| near(if edge < level { 64.0 / SIDE_EDGES as f64 } else { 6.0 })).collect()
}

/// A farm with what the Rust makes of it, round by round; on the way are the counts after half of the moves.
fn asked(name: String, records: Vec<u16>, ideals: Vec<f64>) -> Result<Farm, String> {
    let mut way = vec![vec![0; ideals.len()]];
    let (mut cut, mut entries) = (false, 0);
    loop {
        let round = solver::round(&records, &ideals, &way[way.len() - 1], Some(SEARCH)).map_err(|stop| format!("{name}: {stop}"))?;
        cut |= round.cut;
        entries += round.expansions as u64;
        if round.made.is_none() {
            break;
        }
        way.push(round.counts);
    }
    let moves = way.len() - 1;
    Ok(Farm { name, records, ideals, moves: moves as u32, cut, entries, underway: way.swap_remove(moves / 2) })
}

pub fn searches(farms: &[Farm]) -> Result<(), String> {
    println!("\nOne public round with limit 100,000, on counts from the middle of the farm's solve; M/s: million entries of a search a second.\n");
    println!("| farm | regions, edges | entries | cut | Rust | here | ratio | Rust M/s | here M/s |");
    println!("|---|---|---|---|---|---|---|---|---|");
    for farm in farms {
        let (pair, entries, cut) = search(farm).map_err(|problem| format!("{}: {problem}", farm.name))?;
        println!(
            "| {} | {}, {} | {entries} | {} | {} | {} | {} |",
            farm.name,
            farm.records.len() / RECORD,
            farm.ideals.len(),
            yes_or_no(cut),
            times(pair),
            millions(entries as f64, pair.rust),
            millions(entries as f64, pair.here),
        );
    }
    Ok(())
}

/// A round: what it leaves, and its cost if it made a move.
#[derive(PartialEq)]
pub struct Made {
    pub counts: Vec<u32>,
    pub cost: Option<u64>,
    pub cut: bool,
}

fn search(farm: &Farm) -> Result<(Pair, usize, bool), String> {
    let regions = solver::regions(&farm.records).map_err(|stop| stop.to_string())?;
    let counts = solver::to_usize(&farm.underway);
    let limit = reach::published_limit();
    let entries = reach::round_effort(&regions, &counts, &farm.ideals, limit, usize::MAX - 1);
    let rust = || {
        let mut counts = counts.clone();
        let cost = reach::published_round(&regions, &mut counts, &farm.ideals);
        (counts, cost)
    };
    let here = || round(farm, Some(SEARCH));
    let same = |a: &(Vec<usize>, Result<Option<f64>, String>), b: &Result<Made, String>| {
        let (cost, made) = (a.1.as_ref().map_err(String::clone)?, b.as_ref().map_err(String::clone)?);
        let counts = a.0.iter().map(|&count| count as u32);
        if counts.eq(made.counts.iter().copied()) && cost.map(f64::to_bits) == made.cost {
            Ok(())
        } else {
            Err("the round differs".to_string())
        }
    };
    let pair = race(if entries > 2_000_000 { LONG } else { SHORT }, rust, here, same)?;
    Ok((pair, entries, here()?.cut))
}

pub fn round(farm: &Farm, limit: Option<u32>) -> Result<Made, String> {
    made(farm, |counts, answer, cost| library::round(&farm.records, &farm.ideals, counts, limit, answer, cost))
}

/// What a round of this library makes of the farm's counts.
pub fn made(farm: &Farm, round: impl FnOnce(&mut [u32], &mut [u32; 4], &mut [f64; 1]) -> u32) -> Result<Made, String> {
    let mut counts = farm.underway.clone();
    let (mut answer, mut cost) = ([0; 4], [0.0]);
    match round(&mut counts, &mut answer, &mut cost) {
        0 => Ok(Made { counts, cost: (answer[2] == 1).then_some(cost[0].to_bits()), cut: answer[3] == 1 }),
        refusal => Err(format!("the round is refused with {refusal}")),
    }
}

/// Whole solves; the largest only where `all` is wished.
pub fn solves(farms: &[Farm], all: bool) -> Result<(), String> {
    println!("\nA whole solve with limit 100,000.\n");
    println!("| farm | moves | entries of the Rust | cut | Rust | here | ratio |");
    println!("|---|---|---|---|---|---|---|");
    for farm in farms.iter().chain([&free_edges()]) {
        if farm.entries > LARGEST && !all {
            println!("| {} | {} | {} | {} | minutes | - | - |", farm.name, farm.moves, farm.entries, yes_or_no(farm.cut));
            continue;
        }
        let pair = solve(farm).map_err(|problem| format!("{}: {problem}", farm.name))?;
        println!("| {} | {} | {} | {} | {} |", farm.name, farm.moves, farm.entries, yes_or_no(farm.cut), times(pair));
    }
    Ok(())
}

/// No region: a farm of very many moves with nothing to search.
pub fn free_edges() -> Farm {
    let (edges, ideal) = (256u32, 100u32);
    let ideals = vec![f64::from(ideal); edges as usize];
    let entries = reach::solve_effort(&[], &ideals, reach::published_limit(), usize::MAX - 1) as u64;
    let name = format!("{edges} free edges, ideal {ideal}");
    Farm { name, records: Vec::new(), ideals, moves: edges * ideal, cut: false, entries, underway: Vec::new() }
}

pub fn solve(farm: &Farm) -> Result<Pair, String> {
    let regions = solver::regions(&farm.records).map_err(|stop| stop.to_string())?;
    let effort = match farm.entries {
        0..=10_000_000 => SHORT,
        10_000_001..=100_000_000 => LONG,
        _ => ONCE,
    };
    let rust = || simons_qgp::solve_counts(&regions, &farm.ideals);
    let here = || {
        let mut counts = vec![0; farm.ideals.len()];
        let mut answer = [0; 3];
        let refusal = library::solve_counts(&farm.records, &farm.ideals, &mut counts, Some(SEARCH), &mut answer);
        (refusal, answer[2], counts)
    };
    race(effort, rust, here, |a, (refusal, moves, counts)| {
        let a = a.as_ref().map_err(String::clone)?;
        let same = a.iter().map(|&count| count as u32).eq(counts.iter().copied());
        if same && *refusal == 0 && *moves == farm.moves {
            Ok(())
        } else {
            Err(format!("the solve differs: refusal {refusal}, {moves} moves"))
        }
    })
}

/// A bent tile: a quarter of a ring, each curve with this many points.
pub fn bent(points: usize) -> Sides {
    let along = |at: &dyn Fn(f64) -> [f64; 2]| (0..points).flat_map(|k| at(k as f64 / (points - 1) as f64)).collect::<Vec<f64>>();
    let quarter = std::f64::consts::FRAC_PI_2;
    let arc = |radius: f64, angle: f64| [radius * angle.cos(), radius * angle.sin()];
    [along(&|t| [1.0 + t, 0.0]), along(&|t| arc(2.0, quarter * t)), along(&|t| [0.0, 2.0 - t]), along(&|t| arc(1.0, quarter * (1.0 - t)))]
}

/// Straight sides between four corners, each with this many points.
pub fn straight(corners: [[f64; 2]; 4], points: usize) -> Sides {
    std::array::from_fn(|k| {
        let (from, to) = (corners[k], corners[(k + 1) % 4]);
        even(points - 1).into_iter().flat_map(|t| [0, 1].map(|axis| from[axis] + (to[axis] - from[axis]) * t)).collect()
    })
}

pub fn even(cells: usize) -> Vec<f64> {
    (0..=cells).map(|i| i as f64 / cells as f64).collect()
}

/// Even seams on bottom and left, others on top and right: every logical line is slanted.
pub fn seams(cells: usize, slanted: bool) -> Sides {
    let even = even(cells);
    let other: Vec<f64> = if slanted { even.iter().map(|x| x + 0.2 * x * (1.0 - x)).collect() } else { even.clone() };
    [even.clone(), other.clone(), other, even]
}

pub fn published(curves: &Sides) -> Result<BoundaryCurves, String> {
    geometry::curves(curves).map_err(|stop| stop.to_string())
}

fn same_floats<'a>(rust: impl Iterator<Item = &'a f64>, here: &[f64]) -> Result<(), String> {
    if rust.map(|x| x.to_bits()).eq(here.iter().map(|x| x.to_bits())) {
        Ok(())
    } else {
        Err("the coordinates differ".to_string())
    }
}

pub fn from_parameters(effort: Effort, curves: &Sides, seams: &Sides, out: &mut [f64]) -> Result<Pair, String> {
    let boundary = published(curves)?;
    out.fill(f64::NAN);
    let out = std::cell::RefCell::new(out);
    let here = || library::coons_from_parameters(lists(curves), lists(seams), &mut out.borrow_mut(), &mut [0; 3]);
    let rust = || simons_qgp_stones::coons_from_parameters(&boundary, &seams[0], &seams[2], &seams[3], &seams[1]);
    race(effort, rust, here, |quads, refusal| same_quads(quads, *refusal, &out.borrow()))
}

pub type Quads = Result<Vec<[[f64; 2]; 4]>, String>;

pub fn same_quads(rust: &Quads, refusal: u32, out: &[f64]) -> Result<(), String> {
    match (rust, refusal) {
        (Ok(quads), 0) => same_floats(quads.iter().flatten().flatten(), out),
        (rust, _) => Err(format!("refused with {refusal}; the Rust: {:?}", rust.as_ref().err())),
    }
}

fn coons_curves(effort: Effort, curves: &Sides, cells: usize, out: &mut [f64]) -> Result<Pair, String> {
    let boundary = published(curves)?;
    out.fill(f64::NAN);
    let out = std::cell::RefCell::new(out);
    let here = || library::coons_curves(lists(curves), [cells as u32; 2], &mut out.borrow_mut(), &mut [0; 3]);
    race(
        effort,
        || simons_qgp_stones::coons_curves(&boundary, cells, cells),
        here,
        |quads, refusal| same_quads(quads, *refusal, &out.borrow()),
    )
}

/// A mesh by the Rust and one by this library, which is lent points and indices.
fn meshes(
    effort: Effort,
    cells: usize,
    rust: impl FnMut() -> Meshed,
    here: impl Fn(&mut [f64], &mut [u32]) -> u32,
) -> Result<Pair, String> {
    let (points, indices) = (vec![f64::NAN; 3 * (cells + 1) * (cells + 1)], vec![u32::MAX; 4 * cells * cells]);
    let lent = std::cell::RefCell::new((points, indices));
    let here = || {
        let (points, indices) = &mut *lent.borrow_mut();
        here(points, indices)
    };
    race(effort, rust, here, |mesh, refusal| {
        let (points, indices) = &*lent.borrow();
        let mesh = mesh.as_ref().map_err(String::clone)?;
        let cells = mesh.cells.iter().flat_map(|cell| cell.nodes.iter().map(|&node| node as u32));
        if *refusal != 0 || !cells.eq(indices.iter().copied()) {
            return Err(format!("the cells differ, or it is refused with {refusal}"));
        }
        same_floats(mesh.points.iter().flatten(), points)
    })
}

type Meshed = Result<Mesh, String>;

fn mesh_tile_curves(effort: Effort, curves: &Sides, cells: usize) -> Result<Pair, String> {
    let boundary = published(curves)?;
    let here =
        |points: &mut [f64], indices: &mut [u32]| library::mesh_tile_curves(lists(curves), [cells as u32; 2], points, indices, &mut [0; 3]);
    meshes(effort, cells, || simons_qgp_stones::mesh_tile_curves(&boundary, cells, cells), here)
}

/// The four curves end to end, as a loop: its first point stands again at the end.
fn mesh_tile(effort: Effort, curves: &Sides, cells: usize) -> Result<Pair, String> {
    let mut boundary = curves.concat();
    boundary.extend_from_within(..2);
    let pairs: Vec<[f64; 2]> = boundary.chunks_exact(2).map(|pair| [pair[0], pair[1]]).collect();
    let here = |points: &mut [f64], indices: &mut [u32]| library::mesh_tile(&boundary, [cells as u32; 2], points, indices, &mut [0; 3]);
    meshes(effort, cells, || simons_qgp_stones::mesh_tile(&pairs, cells, cells), here)
}

pub fn grids() -> Result<(), String> {
    println!("\nGrids of {CELLS} by {CELLS} cells on a bent tile; M/s: million grid points a second.\n");
    println!("| function | seams | points of a curve | Rust | here | ratio | Rust M/s | here M/s |");
    println!("|---|---|---|---|---|---|---|---|");
    let points = ((CELLS + 1) * (CELLS + 1)) as f64;
    let row = |function: &str, seams: &str, length: usize, pair: Pair| {
        let (rust, here) = (millions(points, pair.rust), millions(points, pair.here));
        println!("| {function} | {seams} | {length} | {} | {rust} | {here} |", times(pair));
    };
    let mut out = vec![0.0; 8 * CELLS * CELLS];
    for length in [2, 64, 1024] {
        let curves = bent(length);
        for (name, slanted) in [("even", false), ("slanted", true)] {
            row("coons_from_parameters", name, length, from_parameters(GRID, &curves, &seams(CELLS, slanted), &mut out)?);
        }
        row("coons_curves", "even", length, coons_curves(GRID, &curves, CELLS, &mut out)?);
    }
    for length in [2, 64, 1024] {
        row("mesh_tile_curves", "even", length, mesh_tile_curves(GRID, &bent(length), CELLS)?);
    }
    memory(&mut out);
    small_grids()?;
    two_rusts()
}

/// What 02's two returns alone gain in the Rust, which asks its curves for the four corners at every grid point.
fn two_rusts() -> Result<(), String> {
    println!("\nThe Rust unchanged, and with 02's two returns, which all ratios above are beside; on curves of 16 points.\n");
    println!("| cells | function | seams | unchanged | with the returns | ratio |");
    println!("|---|---|---|---|---|---|");
    let curves = bent(16);
    let returning = published(&curves)?;
    let BoundaryCurves { bottom, right, top, left } = published(&curves)?;
    let unchanged = blended::BoundaryCurves { bottom, right, top, left };
    for (cells, effort) in [(1, SHORT), (4, SHORT), (16, SHORT), (64, SHORT), (CELLS, GRID)] {
        for (name, slanted) in [("even", false), ("slanted", true)] {
            let [bottom_u, right_v, top_u, left_v] = seams(cells, slanted);
            let blending = || simons_qgp::coons_from_parameters(&unchanged, &bottom_u, &top_u, &left_v, &right_v);
            let ending = || simons_qgp_stones::coons_from_parameters(&returning, &bottom_u, &top_u, &left_v, &right_v);
            let pair = race(effort, blending, ending, both_made)?;
            println!("| {cells} by {cells} | coons_from_parameters | {name} | {} |", times(pair));
        }
    }
    Ok(())
}

fn both_made(unchanged: &Quads, returning: &Quads) -> Result<(), String> {
    unchanged.as_ref().and(returning.as_ref()).map(|_| ()).map_err(String::clone)
}

/// Tiles of the size that the farms have.
fn small_grids() -> Result<(), String> {
    println!("\nSmall grids, on curves of 16 and of 100 points.\n");
    println!("| cells | function | seams | points of a curve | Rust | here | ratio |");
    println!("|---|---|---|---|---|---|---|");
    for (length, sizes) in [(16, &[1, 4, 8, 16, 64][..]), (100, &[1, 4, 16])] {
        let curves = bent(length);
        for &cells in sizes {
            let mut out = vec![0.0; 8 * cells * cells];
            let row = |function: &str, seams: &str, pair: Pair| {
                println!("| {cells} by {cells} | {function} | {seams} | {length} | {} |", times(pair));
            };
            row("coons_from_parameters", "even", from_parameters(SHORT, &curves, &seams(cells, false), &mut out)?);
            row("coons_from_parameters", "slanted", from_parameters(SHORT, &curves, &seams(cells, true), &mut out)?);
            row("coons_curves", "even", coons_curves(SHORT, &curves, cells, &mut out)?);
            row("mesh_tile_curves", "even", mesh_tile_curves(SHORT, &curves, cells)?);
            row("mesh_tile", "even", mesh_tile(SHORT, &curves, cells)?);
        }
    }
    Ok(())
}

/// What the machine takes to write the quads: to memory in use, as here, and to memory fresh from the system, as in the Rust.
fn memory(out: &mut [f64]) {
    let write = |out: &mut [f64]| (0..).zip(out.iter_mut()).for_each(|(index, value)| *value = f64::from(index));
    let mut used = f64::INFINITY;
    let mut fresh = f64::INFINITY;
    for _ in 0..GRID.turns {
        used = used.min(timed(|| write(black_box(out))).0);
        fresh = fresh.min(timed(|| write(black_box(&mut vec![0.0; out.len()]))).0);
    }
    println!(
        "\nA plain write of the quads ({} MB): {} to memory in use, {} to fresh memory.",
        out.len() * 8 / 1_000_000,
        seconds(used),
        seconds(fresh)
    );
}

pub fn roots() -> Result<(), String> {
    println!("\nRoots, for one value.\n");
    println!("| values | machine's sqrt | here | here / machine |");
    println!("|---|---|---|---|");
    let mut random = Random::new(1);
    let any: Vec<f64> = (0..4096).map(|_| f64::from_bits(random.bits() % f64::INFINITY.to_bits())).collect();
    let lengths: Vec<f64> = (0..4096).map(|_| random.unit() * 1e4).collect();
    let least: Vec<f64> = (0..4096).map(|_| f64::from_bits(random.bits() % f64::MIN_POSITIVE.to_bits())).collect();
    for (name, values) in [("any above zero", any), ("0 to 10,000", lengths), ("below the normal numbers", least)] {
        let machine = || values.iter().map(|&x| black_box(black_box(x).sqrt()).to_bits()).fold(0, u64::wrapping_add);
        let here = || {
            let mut root = [0.0];
            values.iter().fold(0u64, |sum, &x| {
                library::root(black_box(x), &mut root);
                sum.wrapping_add(root[0].to_bits())
            })
        };
        let pair = race(SHORT, machine, here, |a, b| if a == b { Ok(()) } else { Err("a root differs".to_string()) })?;
        let each = values.len() as f64;
        println!("| {name} | {} | {} | **{:.1}** |", seconds(pair.rust / each), seconds(pair.here / each), 1.0 / pair.ratio());
    }
    Ok(())
}
