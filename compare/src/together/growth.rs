//! How the cost of a solve and of a grid grows: with edges, with moves, with cells. Both timed in turn, with equal results.

use super::clock::{Effort, Pair};
use super::farms;
use super::plot::{Plot, Series};
use super::random::Random;
use super::speed;
use crate::farm::{brick_wall, grid, Farm};
use crate::{reach, solver};

const GRID: Effort = Effort { turn: 0.002, seconds: 0.1, turns: 5 };

const COLOURS: [&str; 3] = ["#1b6ca8", "#c8553d", "#3b7a3b"];

/// A solve is timed up to this many entries.
const MOST: usize = 30_000_000;

/// Ideals near `ideal`, all different.
fn ideals(edges: usize, ideal: f64) -> Vec<f64> {
    let mut random = Random::new(7);
    (0..edges).map(|_| ideal * (0.85 + 0.3 * random.unit())).collect()
}

/// The moves of a solve and its times; none where it takes too long.
fn solve(name: &str, farm: Farm, ideal: f64) -> Result<Option<(u32, Pair)>, String> {
    let ideals = ideals(farm.edges, ideal);
    let regions = solver::regions(&farm.regions).map_err(|stop| stop.to_string())?;
    let limit = reach::published_limit();
    let entries = reach::solve_effort(&regions, &ideals, limit, MOST);
    if entries > MOST {
        return Ok(None);
    }
    let (moves, _) = reach::solve(&regions, &ideals, limit)?;
    let timed = farms::Farm {
        name: name.to_string(),
        records: farm.regions,
        ideals,
        moves,
        cut: false,
        entries: entries as u64,
        underway: Vec::new(),
    };
    Ok(Some((moves, speed::solve(&timed)?)))
}

/// Two series, the Rust dashed.
fn both(name: &str, colour: &'static str, times: &[(f64, Pair)]) -> [Series; 2] {
    let series = |who: &str, dashed: bool, of: fn(&Pair) -> f64| {
        let points = times.iter().map(|(x, pair)| (*x, of(pair))).collect();
        Series { name: format!("{name}, {who}"), colour, dashed, points }
    };
    [series("Rust", true, |pair| pair.rust), series("here", false, |pair| pair.here)]
}

fn told(what: &str, x: f64, pair: Pair) {
    println!("{what} {x}: Rust {}, here {}, ratio {:.1}", speed::seconds(pair.rust), speed::seconds(pair.here), pair.ratio());
}

pub fn edges() -> Result<Plot, String> {
    type Maker = fn(u32) -> Farm;
    let kinds: [(&str, Maker, &[u32]); 3] = [
        ("chain of n tiles", |n| grid(n, 1), &[1, 2, 4, 8, 16, 32, 64, 85]),
        ("grid n by n", |n| grid(n, n as usize), &[1, 2, 3, 4, 6, 8, 10]),
        ("brick wall 3 by n", |n| brick_wall(3, n as usize), &[1, 2, 3, 4, 5, 6]),
    ];
    let mut series = Vec::new();
    for ((name, farm, sizes), colour) in kinds.into_iter().zip(COLOURS) {
        let mut times = Vec::new();
        for &n in sizes {
            let farm = farm(n);
            let edges = farm.edges as f64;
            if let Some((_, pair)) = solve(name, farm, 6.0)? {
                told(&format!("solve, {name}, edges"), edges, pair);
                times.push((edges, pair));
            }
        }
        series.extend(both(name, colour, &times));
    }
    Ok(Plot { title: "A whole solve, by the number of edges (ideals near 6)", across: "edges", up: "CPU time", series })
}

pub fn moves() -> Result<Plot, String> {
    let free = || Farm { regions: Vec::new(), edges: 64 };
    let kinds: [(&str, &dyn Fn() -> Farm); 3] =
        [("chain of 20 tiles", &|| grid(20, 1)), ("brick wall 3 by 3", &|| brick_wall(3, 3)), ("64 free edges", &free)];
    let mut series = Vec::new();
    for ((name, farm), colour) in kinds.into_iter().zip(COLOURS) {
        let mut times = Vec::new();
        for ideal in [1.0, 2.0, 4.0, 8.0, 16.0, 32.0, 64.0, 128.0] {
            if let Some((moves, pair)) = solve(name, farm(), ideal)? {
                told(&format!("solve, {name}, moves"), f64::from(moves), pair);
                times.push((f64::from(moves), pair));
            }
        }
        series.extend(both(name, colour, &times));
    }
    Ok(Plot { title: "A whole solve, by the number of moves (ideals near 1 to 128)", across: "moves", up: "CPU time", series })
}

pub fn cells() -> Result<Plot, String> {
    let curves = speed::bent(64);
    let mut series = Vec::new();
    for ((name, slanted), colour) in [("even seams", false), ("slanted seams", true)].into_iter().zip(COLOURS) {
        let mut times = Vec::new();
        for side in (0..=10).map(|power| 1usize << power) {
            let mut out = vec![0.0; 8 * side * side];
            let pair = speed::from_parameters(GRID, &curves, &speed::seams(side, slanted), &mut out)?;
            let cells = (side * side) as f64;
            told(&format!("grid, {name}, cells"), cells, pair);
            times.push((cells, pair));
        }
        series.extend(both(name, colour, &times));
    }
    Ok(Plot { title: "A grid on curves of 64 points, by the number of cells", across: "cells", up: "CPU time", series })
}
