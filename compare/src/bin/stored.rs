//! stored FOLDER VECTORS..: writes the replay's data files to the folder, from vectors and generated cases: solver.cases, geometry.cases
//! and ranges.cases.
//!
//! Each vector is put to the oracle again, or to the model, and must be answered as it says. A file whose name ends in `.json` lists
//! vectors that an item of 02 changed: these are passed over, as are those that do not apply by their items. README.md has the command.

use compare::landed::{self, Changed, PassedOver};
use compare::stored::{self, Case};
use compare::tool::ended;
use compare::{
    generate, generate_geometry, generate_limits, generate_ranges, generate_stones, generate_strips, generate_turned, pack, vector,
};
use std::collections::HashSet;
use std::process::ExitCode;
use std::{env, fs};

/// Cases with more search entries than this would make the replay slow.
const EFFORT: usize = 500_000;

fn main() -> ExitCode {
    ended("stored", run())
}

fn run() -> Result<(), String> {
    let mut arguments = env::args().skip(1);
    let folder = arguments.next().ok_or("usage: stored FOLDER VECTORS..")?;
    let (files, changed) = landed::files(arguments)?;
    let mut cases = Vec::new();
    for path in files {
        cases.extend(vectors(&path, &changed)?);
    }
    cases.extend(affordable("the solver", generate::all()?));
    cases.extend(affordable("ranges", generate_ranges::all()?));
    cases.extend(affordable("limits", generate_limits::all()?));
    cases.extend(affordable("turned sheets", generate_turned::all()?));
    let of_geometry = [("geometry", generate_geometry::all()?), ("stones", generate_stones::all()?), ("strips", generate_strips::all()?)];
    for (what, generated) in of_geometry {
        println!("generated: {} of {what}", generated.len());
        cases.extend(generated);
    }
    let (ranges, others): (Vec<Case>, Vec<Case>) = cases.into_iter().partition(Case::is_within);
    let (solver, geometry) = others.into_iter().partition(Case::is_solver);
    write(&format!("{folder}/ranges.cases"), distinct(ranges)?)?;
    write(&format!("{folder}/solver.cases"), distinct(solver)?)?;
    write(&format!("{folder}/geometry.cases"), distinct(geometry)?)
}

/// Writes a data file, and tells how many cases of each operation it has.
fn write(path: &str, cases: Vec<Case>) -> Result<(), String> {
    let bytes = pack::file(&cases)?;
    fs::write(path, &bytes).map_err(|e| format!("{path}: {e}"))?;
    let mut operations: Vec<(&str, usize)> = Vec::new();
    for operation in cases.iter().map(Case::operation) {
        match operations.iter_mut().find(|(name, _)| *name == operation) {
            Some((_, number)) => *number += 1,
            None => operations.push((operation, 1)),
        }
    }
    println!(
        "{path}: {} cases, {} search entries, {} bytes",
        cases.len(),
        cases.iter().map(|c| c.effort(EFFORT)).sum::<usize>(),
        bytes.len()
    );
    operations.iter().for_each(|(operation, number)| println!("  {operation} {number}"));
    Ok(())
}

/// The vectors of a file that the replay can afford, each confirmed by the oracle.
fn vectors(path: &str, changed: &Changed) -> Result<Vec<Case>, String> {
    let text = fs::read_to_string(path).map_err(|e| format!("{path}: {e}"))?;
    if !text.ends_with('\n') {
        return Err(format!("{path}: cut off: the last line has no end"));
    }
    let mut cases = Vec::new();
    let (mut inner, mut passed_over) = (0, PassedOver::default());
    for (number, line) in (1..).zip(text.lines()) {
        let told = |problem| format!("{path}, line {number}: {problem}");
        if !changed.holds(line, &mut passed_over).map_err(told)? {
            continue;
        }
        match vector::case(line).map_err(told)? {
            Some(case) => cases.push((number, case)),
            None => inner += 1,
        }
    }
    let found = cases.len();
    cases.retain(|(_, case)| case.effort(EFFORT) <= EFFORT);
    println!("{path}: {found} vectors, {} left out as too slow; {inner} of inner functions{passed_over}", found - cases.len());
    for (number, case) in &cases {
        confirm(case).map_err(|problem| format!("{path}, line {number}: {problem}"))?;
    }
    Ok(cases.into_iter().map(|(_, case)| case).collect())
}

fn confirm(case: &Case) -> Result<(), String> {
    let again = stored::asked_again(case)?;
    if pack::one(case)? == pack::one(&again)? {
        Ok(())
    } else {
        Err(format!("the vector says\n{case:?}\nand the oracle answers\n{again:?}"))
    }
}

fn affordable(what: &str, cases: Vec<Case>) -> Vec<Case> {
    let all = cases.len();
    let kept: Vec<Case> = cases.into_iter().filter(|case| case.effort(EFFORT) <= EFFORT).collect();
    println!("generated: {all} of {what}, {} left out as too slow", all - kept.len());
    kept
}

/// Each case once, in the order of its first place.
fn distinct(cases: Vec<Case>) -> Result<Vec<Case>, String> {
    let mut seen = HashSet::new();
    let mut kept = Vec::new();
    for case in cases {
        if seen.insert(pack::one(&case)?) {
            kept.push(case);
        }
    }
    Ok(kept)
}
