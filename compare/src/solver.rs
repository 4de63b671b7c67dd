//! The operations of the solver. Each tests 01's rules that the Rust does not have where 01's order has them, and leaves the rest to the
//! Rust.

use crate::limits;
use crate::reach::{self, Changes, Region};
use crate::refusal::{of_solver, Stop};
use crate::simons_qgp;

/// A round that is not refused.
#[derive(Clone, Debug)]
pub struct Round {
    /// The cost of the move made and its kept reading.
    pub made: Option<(f64, Changes)>,
    pub cut: bool,
    pub expansions: usize,
    pub counts: Vec<u32>,
}

/// A round of a list, and the counts after it.
#[derive(Clone, Debug)]
pub struct Step {
    pub answer: Result<Round, Stop>,
    pub counts: Vec<u32>,
}

pub struct Solved {
    pub moves: u32,
    pub counts: Vec<u32>,
}

pub fn delta(count: u32, ideal: f64, sign: i32) -> f64 {
    reach::delta(count as usize, ideal, sign)
}

/// Raw records as regions, or refusal 1.
pub fn regions(records: &[u16]) -> Result<Vec<Region>, Stop> {
    let whole = records.len().is_multiple_of(limits::RECORD);
    if !whole || records.len() > limits::REGIONS * limits::RECORD {
        return Err(Stop::Undecided(1));
    }
    records.chunks_exact(limits::RECORD).map(|record| sides(record).map(Region::new)).collect()
}

/// The edges of the four sides of one record, or refusal 1.
pub fn sides(record: &[u16]) -> Result<[Vec<usize>; 4], Stop> {
    let mut sides: [Vec<usize>; 4] = Default::default();
    for (side, numbers) in sides.iter_mut().zip(record.chunks_exact(limits::SIDE)) {
        let edges = usize::from(numbers[0]);
        if edges > limits::SIDE_EDGES {
            return Err(Stop::Undecided(1));
        }
        *side = numbers[1..=edges].iter().map(|&edge| usize::from(edge)).collect();
    }
    Ok(sides)
}

/// Refusal 1 for a list that has a value for each edge.
fn check_edges(edges: usize) -> Result<(), Stop> {
    if edges > limits::EDGES {
        return Err(Stop::Undecided(1));
    }
    Ok(())
}

/// Refusal 2, by the Rust's `energy`, which tests the ideals as `solve_counts` does.
fn check_ideals(ideals: &[f64]) -> Result<(), Stop> {
    let zeros = vec![0; ideals.len()];
    simons_qgp::energy(&zeros, ideals).map(|_| ()).map_err(|m| of_solver(&m))
}

/// Refusal 10; the expansions that a search may make.
fn check_limit(limit: Option<u32>) -> Result<u32, Stop> {
    match limits::expansions(limit) {
        limit if limit > limits::SEARCH => Err(Stop::Undecided(10)),
        limit => Ok(limit),
    }
}

/// Refusal 9.
fn check_counts(counts: &[u32]) -> Result<(), Stop> {
    if counts.iter().any(|&count| count > limits::COUNT) {
        return Err(Stop::Undecided(9));
    }
    Ok(())
}

pub fn to_usize(counts: &[u32]) -> Vec<usize> {
    counts.iter().map(|&count| count as usize).collect()
}

fn to_u32(counts: &[usize]) -> Result<Vec<u32>, Stop> {
    counts.iter().map(|&count| u32::try_from(count).map_err(|_| Stop::Broken(format!("count {count} is over 32 bits")))).collect()
}

/// One public round on the counts as they stand.
pub fn round(records: &[u16], ideals: &[f64], counts: &[u32], limit: Option<u32>) -> Result<Round, Stop> {
    let regions = regions(records)?;
    check_edges(ideals.len())?;
    check_edges(counts.len())?;
    let limit = check_limit(limit)?;
    if counts.len() != ideals.len() {
        return Err(Stop::Undecided(8));
    }
    check_ideals(ideals)?;
    check_counts(counts)?;
    reach::check_regions(&regions, ideals.len()).map_err(|m| of_solver(&m))?;
    let mut after = to_usize(counts);
    let found = reach::find(&regions, &after, ideals, limit as usize).map_err(Stop::Broken)?;
    if let Some((_, changes)) = &found.best {
        reach::apply(&mut after, changes).map_err(Stop::Broken)?;
    }
    Ok(Round { made: found.best, cut: found.cut, expansions: found.expansions, counts: to_u32(&after)? })
}

/// A list of rounds on one buffer of counts; a refused round leaves it as it was.
pub fn rounds(records: &[u16], counts: &[u32], steps: &[(Vec<f64>, Option<u32>)]) -> Vec<Step> {
    let mut counts = counts.to_vec();
    let mut done = Vec::new();
    for (ideals, limit) in steps {
        let answer = round(records, ideals, &counts, *limit);
        if let Ok(round) = &answer {
            counts.clone_from(&round.counts);
        }
        done.push(Step { answer, counts: counts.clone() });
    }
    done
}

/// The Rust's `solve_counts` takes no limit, and does not tell its moves: so its loop is repeated. At the Rust's own limit both must agree.
pub fn solve(records: &[u16], ideals: &[f64], limit: Option<u32>) -> Result<Solved, Stop> {
    let regions = regions(records)?;
    check_edges(ideals.len())?;
    let limit = check_limit(limit)?;
    let looped = reach::solve(&regions, ideals, limit as usize);
    if limit as usize == reach::published_limit() && simons_qgp::solve_counts(&regions, ideals) != looped.clone().map(|(_, counts)| counts)
    {
        return Err(Stop::Broken("the repeated loop ends otherwise than solve_counts".to_string()));
    }
    let (moves, counts) = looped.map_err(|m| of_solver(&m))?;
    Ok(Solved { moves, counts: to_u32(&counts)? })
}

pub fn energy(counts: &[u32], ideals: &[f64]) -> Result<f64, Stop> {
    check_edges(counts.len())?;
    check_edges(ideals.len())?;
    let total = simons_qgp::energy(&to_usize(counts), ideals).map_err(|m| of_solver(&m))?;
    check_counts(counts)?;
    Ok(total)
}

pub fn hold(records: &[u16], counts: &[u32]) -> Result<bool, Stop> {
    let regions = regions(records)?;
    check_edges(counts.len())?;
    Ok(simons_qgp::constraints_hold(&regions, &to_usize(counts)))
}
