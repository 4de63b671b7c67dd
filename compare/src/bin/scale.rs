//! scale SEED COUNT: all short inputs of some kinds, 01's limits, COUNT random calls, the ends of curves and the tiles of solved farms,
//! through the oracle and through this library, every result and buffer compared; calls of the solver once more on a turned sheet, strips
//! once more with other breaks where none are read. Exit status 0 only if none differs, and no tile of a solved farm is 22.

use compare::together::{check_version, scale};
use std::env;
use std::process::ExitCode;

fn main() -> ExitCode {
    match run() {
        Ok(0) => ExitCode::SUCCESS,
        Ok(_) => ExitCode::FAILURE,
        Err(problem) => {
            eprintln!("scale: {problem}");
            ExitCode::FAILURE
        }
    }
}

/// The number of cases that differ.
fn run() -> Result<u64, String> {
    check_version()?;
    let words: Vec<String> = env::args().skip(1).collect();
    let [seed, count] = &words[..] else {
        return Err("usage: scale SEED COUNT".to_string());
    };
    let number = |word: &String| word.parse().map_err(|_| format!("`{word}` is no whole number from 0 to {}", u64::MAX));
    let (seed, count) = (number(seed)?, number(count)?);
    println!("seed {seed}, {count} random cases");
    scale::run(seed, count).map(|run| run.different)
}
