//! Rounds and solves within ranges. With equal ends they stand beside those by ideals, both of this library; with wider ranges beside the
//! plain model, which is not made for speed. Equal results are required of each two.

use super::clock::{race, Effort, Pair};
use super::farms::Farm;
use super::library::{self, Ends};
use super::speed::{free_edges, made, round, times, Made, LARGEST, LONG, ONCE, SHORT};
use crate::limits::SEARCH;
use crate::ranges;

/// All calls here state the Rust's limit.
const LIMIT: Option<u32> = Some(SEARCH);

/// Solves of more entries than this are not put to the model.
const OF_MODEL: u64 = 10_000_000;

/// Ranges around the ideals, for which many counts cost nothing.
struct Wide {
    least: Vec<f64>,
    most: Vec<f64>,
}

impl Wide {
    fn new(farm: &Farm) -> Wide {
        let times = |factor: f64| farm.ideals.iter().map(|ideal| factor * ideal).collect();
        Wide { least: times(0.9), most: times(1.1) }
    }

    fn ends(&self) -> Ends<'_> {
        [&self.least, &self.most]
    }

    fn of_model(&self) -> ranges::Ends<'_> {
        ranges::Ends { least: &self.least, most: &self.most }
    }
}

pub fn same<T: PartialEq>(one: &Result<T, String>, other: &Result<T, String>) -> Result<(), String> {
    if one.as_ref().map_err(String::clone)? == other.as_ref().map_err(String::clone)? {
        Ok(())
    } else {
        Err("the results differ".to_string())
    }
}

const HEAD: &str = "by ideals | equal ends | ratio | plain model | within ranges | ratio |";

pub fn searches(farms: &[Farm]) -> Result<(), String> {
    println!("\nOne public round with limit 100,000, by ideals and within equal ends, and within 0.9 to 1.1 times the ideals beside the");
    println!("plain model.\n");
    println!("| farm | {HEAD}");
    println!("|---|---|---|---|---|---|---|");
    for farm in farms {
        let told = |problem| format!("{}: {problem}", farm.name);
        let wide = Wide::new(farm);
        let entries = model_entries(farm, &wide).map_err(told)?;
        let (kinds, model) = if entries > 2_000_000 { (LONG, ONCE) } else { (SHORT, SHORT) };
        let equal_ends = race(kinds, || round(farm, LIMIT), || round_within(farm, [&farm.ideals, &farm.ideals]), same).map_err(told)?;
        let beside = race(model, || round_of_model(farm, &wide), || round_within(farm, wide.ends()), same).map_err(told)?;
        println!("| {} | {} | {} |", farm.name, times(equal_ends), times(beside));
    }
    Ok(())
}

fn model_entries(farm: &Farm, wide: &Wide) -> Result<usize, String> {
    let round = ranges::round(&farm.records, wide.of_model(), &mut farm.underway.clone(), LIMIT);
    round.map(|round| round.entries).map_err(|refusal| format!("{refusal:?}"))
}

fn round_within(farm: &Farm, ends: Ends) -> Result<Made, String> {
    made(farm, |counts, answer, cost| library::round_within(&farm.records, ends, counts, LIMIT, answer, cost))
}

fn round_of_model(farm: &Farm, wide: &Wide) -> Result<Made, String> {
    let mut counts = farm.underway.clone();
    let round = ranges::round(&farm.records, wide.of_model(), &mut counts, LIMIT).map_err(|refusal| format!("{refusal:?}"))?;
    Ok(Made { counts, cost: round.cost.map(f64::to_bits), cut: round.cut })
}

/// Moves and counts of a solve.
pub type Solved = Result<(u32, Vec<u32>), String>;

/// Whole solves; the largest only where `all` is wished.
pub fn solves(farms: &[Farm], all: bool) -> Result<(), String> {
    println!("\nA whole solve likewise.\n");
    println!("| farm | moves | {HEAD}");
    println!("|---|---|---|---|---|---|---|---|");
    for farm in farms.iter().chain([&free_edges()]) {
        if farm.entries > LARGEST && !all {
            println!("| {} | {} | - | - | - | - | - | - |", farm.name, farm.moves);
            continue;
        }
        let told = |problem| format!("{}: {problem}", farm.name);
        let wide = Wide::new(farm);
        let by_ideals = || solve(farm, |counts, answer| library::solve_counts(&farm.records, &farm.ideals, counts, LIMIT, answer));
        let effort = effort(farm);
        let equal_ends = race(effort, by_ideals, || solve_within(farm, [&farm.ideals, &farm.ideals]), same).map_err(told)?;
        let beside = beside_model(farm, &wide).map_err(told)?.map_or("- | - | -".to_string(), times);
        println!("| {} | {} | {} | {beside} |", farm.name, farm.moves, times(equal_ends));
    }
    Ok(())
}

fn effort(farm: &Farm) -> Effort {
    match farm.entries {
        entries if entries <= OF_MODEL => SHORT,
        entries if entries <= LARGEST => LONG,
        _ => ONCE,
    }
}

fn beside_model(farm: &Farm, wide: &Wide) -> Result<Option<Pair>, String> {
    if farm.entries > OF_MODEL {
        return Ok(None);
    }
    let model = || {
        let mut counts = vec![0; farm.ideals.len()];
        let moves = ranges::solve(&farm.records, wide.of_model(), &mut counts, LIMIT).map_err(|refusal| format!("{refusal:?}"))?;
        Ok((moves, counts))
    };
    race(SHORT, model, || solve_within(farm, wide.ends()), same).map(Some)
}

fn solve_within(farm: &Farm, ends: Ends) -> Solved {
    solve(farm, |counts, answer| library::solve_counts_within(&farm.records, ends, counts, LIMIT, answer))
}

/// What a solve of this library makes of the farm.
pub fn solve(farm: &Farm, call: impl FnOnce(&mut [u32], &mut [u32; 3]) -> u32) -> Solved {
    let mut counts = vec![0; farm.ideals.len()];
    let mut answer = [0; 3];
    match call(&mut counts, &mut answer) {
        0 => Ok((answer[2], counts)),
        refusal => Err(format!("the solve is refused with {refusal}")),
    }
}
