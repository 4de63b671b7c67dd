//! speed [all] [limits] [FARMS]: the speed list through the Rust and through this library, as tables of ratios; rounds and solves within
//! ranges beside those by ideals; solves without a limit. `all`: also the whole solves that take the Rust minutes. `limits`: the table of
//! solves without a limit alone. speed grids: the roots, the grids and lay alone.

use compare::together::{check_version, farms, speed, speed_lays, speed_limits, speed_ranges};
use compare::tool::ended;
use std::env;
use std::process::ExitCode;

fn main() -> ExitCode {
    ended("speed", run())
}

fn run() -> Result<(), String> {
    check_version()?;
    let words: Vec<String> = env::args().skip(1).collect();
    let words: Vec<&str> = words.iter().map(String::as_str).collect();
    if words[..] == ["grids"] {
        speed::roots()?;
        speed::grids()?;
        return speed_lays::table();
    }
    let (all, rest) = said(&words, "all");
    let (limits, rest) = said(rest, "limits");
    let path = match rest {
        [] => farms::FILE,
        [path] => path,
        _ => return Err("usage: speed grids, or speed [all] [limits] [FARMS]".to_string()),
    };
    let farms = speed::list(path)?;
    if !limits {
        speed::roots()?;
        speed::grids()?;
        speed_lays::table()?;
        speed::searches(&farms)?;
        speed::solves(&farms, all)?;
        speed_ranges::searches(&farms)?;
        speed_ranges::solves(&farms, all)?;
    }
    speed_limits::tables(&farms, all)
}

/// Whether this word comes next, and the words behind it.
fn said<'a, 'b>(words: &'a [&'b str], word: &str) -> (bool, &'a [&'b str]) {
    match words {
        [first, rest @ ..] if *first == word => (true, rest),
        _ => (false, words),
    }
}
