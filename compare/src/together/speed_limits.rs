//! Whole solves without a limit (02, item 5) beside those with the Rust's limit: how long each takes, and what the counts are worth. Only
//! farms of which a search is cut at 10,000 are in it: of all others both make the same searches.

use super::clock::{race, timed, Pair};
use super::farms::Farm;
use super::library;
use super::speed::{self, seconds, times, LARGEST, LONG, ONCE};
use super::speed_ranges::{same, solve, Solved};
use crate::limits::{SEARCH, SEARCH_UNSTATED};
use crate::{reach, solver};

/// The two tables: times, and results. The Rust's own solve is made where it is quick, or where `all` is wished.
pub fn tables(farms: &[Farm], all: bool) -> Result<(), String> {
    println!(
        "\nWhole solves without a limit, which is 10,000, and with 100,000, of the farms of which a search is cut at 10,000. At 10,000"
    );
    println!("the Rust is the loop of its solve, repeated with `max_expansions` set. Last: here, how many times as long with 100,000.\n");
    println!("| farm | Rust, 10,000 | here, no limit | ratio | Rust, 100,000 | here, 100,000 | ratio | times |");
    println!("|---|---|---|---|---|---|---|---|");
    let mut results = Vec::new();
    for farm in farms {
        let told = |problem| format!("{}: {problem}", farm.name);
        if is_cut(farm).map_err(told)? {
            results.push(line(farm, all).map_err(told)?);
        }
    }
    println!("\nWhat these solves come to without a limit and with 100,000: moves, energy, edges of count 0; how many counts differ.\n");
    println!("| farm | edges | moves | with 100,000 | energy | with 100,000 | count 0 | with 100,000 | differ |");
    println!("|---|---|---|---|---|---|---|---|---|");
    results.iter().for_each(|result| println!("{result}"));
    Ok(())
}

/// Whether a search of the solve without a limit is cut, by its rounds.
fn is_cut(farm: &Farm) -> Result<bool, String> {
    let mut counts = vec![0; farm.ideals.len()];
    loop {
        let (mut answer, mut cost) = ([0; 4], [0.0]);
        match library::round(&farm.records, &farm.ideals, &mut counts, None, &mut answer, &mut cost) {
            0 if answer[3] == 1 => return Ok(true),
            0 if answer[2] == 1 => {}
            0 => return Ok(false),
            refusal => return Err(format!("a round is refused with {refusal}")),
        }
    }
}

/// Prints the times of a farm; its line of the results.
fn line(farm: &Farm, all: bool) -> Result<String, String> {
    let effort = if farm.entries > LARGEST { ONCE } else { LONG };
    let unstated = race(effort, || of_rust(farm), || here(farm, None), same)?;
    let (alone, at_most) = timed(|| here(farm, Some(SEARCH)));
    let published = if farm.entries <= LARGEST || all { Some(speed::solve(farm)?) } else { None };
    let stated = published.map_or(alone, |pair: Pair| pair.here);
    let beside = published.map_or(format!("minutes | {} | -", seconds(alone)), times);
    println!("| {} | {} | {beside} | {:.1} |", farm.name, times(unstated), stated / unstated.here);
    let (none, most) = (here(farm, None)?, at_most?);
    let differ = none.1.iter().zip(&most.1).filter(|(one, other)| one != other).count();
    let (none, most) = (worth(farm, none)?, worth(farm, most)?);
    let pairs = [0, 1, 2].map(|index| format!("{} | {}", none[index], most[index]));
    Ok(format!("| {} | {} | {} | {differ} |", farm.name, farm.ideals.len(), pairs.join(" | ")))
}

/// Moves, energy, and how many edges have count 0.
fn worth(farm: &Farm, (moves, counts): (u32, Vec<u32>)) -> Result<[String; 3], String> {
    let energy = solver::energy(&counts, &farm.ideals).map_err(|stop| stop.to_string())?;
    let zeros = counts.iter().filter(|&&count| count == 0).count();
    Ok([moves.to_string(), format!("{energy:.4}"), zeros.to_string()])
}

fn here(farm: &Farm, limit: Option<u32>) -> Solved {
    solve(farm, |counts, answer| library::solve_counts(&farm.records, &farm.ideals, counts, limit, answer))
}

/// The loop of the Rust's solve, with the limit that is none here.
fn of_rust(farm: &Farm) -> Solved {
    let regions = solver::regions(&farm.records).map_err(|stop| stop.to_string())?;
    let (moves, counts) = reach::solve(&regions, &farm.ideals, SEARCH_UNSTATED as usize)?;
    Ok((moves, counts.iter().map(|&count| count as u32).collect()))
}
